//! Nets and images written by hand: for the edges, the examples and tests.

use crate::net::*;
use crate::random::Random;

// Rights, one of each sort.

pub const NONE: Rights = Rights::NONE;
pub const TAKE: Rights = Rights { take: true, ..NONE };
pub const READ: Rights = Rights { read: true, ..NONE };
pub const PUT: Rights = Rights { put: true, ..NONE };
pub const SEND: Rights = Rights { send: true, ..NONE };

// Targets.

pub const OWN: Target = Target::Own;

pub fn written(address: u8) -> Target {
    Target::Written(Locality(address))
}

// Instructions.

pub fn out(target: Target, fields: &[TemplateField], next: u16) -> Instruction {
    let next = Place(next);
    Instruction::with(Action::Out { target, next }, fields)
}

pub fn take(target: Target, fields: &[TemplateField], next: u16) -> Instruction {
    let next = Place(next);
    Instruction::with(Action::In { target, next }, fields)
}

pub fn read(target: Target, fields: &[TemplateField], next: u16) -> Instruction {
    let next = Place(next);
    Instruction::with(Action::Read { target, next }, fields)
}

pub fn eval(target: Target, sent: u16, next: u16) -> Instruction {
    let (sent, next) = (Place(sent), Place(next));
    Instruction::plain(Action::Eval { target, sent, next })
}

pub fn new(variable: u8, next: u16) -> Instruction {
    let next = Place(next);
    Instruction::plain(Action::New { variable, next })
}

pub fn fork(first: u16, second: u16) -> Instruction {
    let (first, second) = (Place(first), Place(second));
    Instruction::plain(Action::Fork { first, second })
}

/// An out to the set of these addresses, which format 2 alone knows.
pub fn out_to_set(members: &[u8], fields: &[TemplateField], next: u16) -> Instruction {
    let members = Set::of(members.iter().copied().map(Locality));
    let next = Place(next);
    Instruction::with(Action::OutToSet { members, next }, fields)
}

// Fields and tuples.

pub fn reading(reading: i32) -> Field {
    Field::Reading(reading)
}

pub fn address(address: u8) -> Field {
    Field::Address(Locality(address))
}

pub fn one_address(held: u8) -> Tuple {
    Tuple::of(&[address(held)])
}

pub fn readings(readings: &[i32]) -> Tuple {
    let fields: Vec<Field> = readings.iter().copied().map(reading).collect();
    Tuple::of(&fields)
}

/// The tuple of the same fields, put by an out at this address.
pub fn from(address: u8, tuple: Tuple) -> Tuple {
    tuple.marked(Locality(address))
}

// Nets.

/// Stops only, at addresses without rights, in format 1.
pub fn stops(addresses: u8, length: u16) -> Net {
    Net::of(SINGLE_ROW, addresses, length)
}

/// This code and, after it, one more stop; a process at place 0 of
/// address 0 in slot 0. No rights, and format 1.
pub fn net(addresses: u8, code: &[Instruction]) -> Net {
    let mut net = stops(addresses, code.len() as u16 + 1);
    net.code[..code.len()].copy_from_slice(code);
    net.nodes[0].processes[0] = Process::starting(Place(0), Locality(0));
    net
}

/// The same net in format 2: code of each origin in use has the rights that
/// it had in format 1, where its origin did not matter.
pub fn in_format_2(mut net: Net) -> Net {
    net.format = ROW_BY_ORIGIN;
    let count = net.address_count as usize;
    for node in net.nodes.iter_mut() {
        node.rows[count..].fill(Row::ZERO);
    }
    net
}

/// The same net with the row of each node for itself in place of its rows for
/// other origins in use.
pub fn own_rows_alone(net: &Net) -> Net {
    let mut net = net.clone();
    for at in 0..net.address_count as usize {
        let own = net.nodes[at].rows[at];
        net.each_row(at, |row| *row = own);
    }
    net
}

/// Grants one node these rights over an address, and no others over it, to
/// code of every origin.
pub fn grant(net: &mut Net, by: usize, over: usize, rights: Rights) {
    net.each_row(by, |row| row.rights[over] = rights);
}

/// The same to code of one origin alone, as format 2 can.
pub fn grant_from(net: &mut Net, by: usize, origin: usize, over: usize, rights: Rights) {
    net.nodes[by].rows[origin].rights[over] = rights;
}

/// Grants one node the right n, to code of every origin.
pub fn grant_create(net: &mut Net, by: usize) {
    net.each_row(by, |row| row.create = true);
}

/// Gives a node tuples of these fields, oldest first and each from the node
/// itself, as an image does, and no others.
pub fn fill(net: &mut Net, at: usize, tuples: &[Tuple]) {
    let own: Vec<Tuple> = tuples.iter().map(|tuple| from(at as u8, *tuple)).collect();
    fill_marked(net, at, &own);
}

/// Gives a node these tuples with their marks, oldest first, and no others.
pub fn fill_marked(net: &mut Net, at: usize, tuples: &[Tuple]) {
    net.nodes[at].tuple_count = tuples.len() as u8;
    net.nodes[at].tuples = Node::ZERO.tuples;
    net.nodes[at].tuples[..tuples.len()].copy_from_slice(tuples);
}

/// The net of the paper's register: a row with o on itself, an out of
/// reading 5 at self, then stop.
pub fn paper_net() -> Net {
    let mut net = net(1, &[out(OWN, &[TemplateField::Reading(5)], 1)]);
    grant(&mut net, 0, 0, PUT);
    net
}

/// A net with the longest image of format 1: everything full, and outs and
/// ins of four readings at written addresses.
pub fn longest() -> Net {
    let mut random = Random::new(14_749);
    let mut reading = move || random.number() as i32;
    let mut net = stops(16, 512);
    for at in 0..ADDRESSES {
        net.each_row(at, |row| *row = Row::ALL);
        let (node, own) = (&mut net.nodes[at], Locality(at as u8));
        node.processes = [0, 100, 300, 511].map(|place| Process::starting(Place(place), own));
        let tuples = [0; TUPLES].map(|_| readings(&[0; 4].map(|_| reading())));
        fill(&mut net, at, &tuples);
    }
    for at in 0..512u16 {
        let fields = [0; 4].map(|_| TemplateField::Reading(reading()));
        let target = written((at % 16) as u8);
        let action = if at % 2 == 0 { out } else { take };
        net.code[at as usize] = action(target, &fields, (at + 1) % 512);
    }
    net
}

/// The same in format 2, with an out to a set in place of each instruction:
/// its image is the longest of all. The first set is empty, the last one has
/// all 16 members.
pub fn longest_of_format_2() -> Net {
    let mut random = Random::new(17_339);
    let mut net = longest_without_sets();
    for at in 0..512u16 {
        let members = match at {
            0 => Set::EMPTY,
            511 => Set(0xFFFF),
            _ => Set(random.number() as u16),
        };
        let next = Place((at + 1) % 512);
        net.code[at as usize].action = Action::OutToSet { members, next };
    }
    net
}

/// The longest of format 1 in format 2.
pub fn longest_without_sets() -> Net {
    in_format_2(longest())
}

// Images.

/// One address and one stop.
pub const ONE_STOP: [u8; 5] = [0x10, 0x80, 0x20, 0x00, 0x00];

/// The image of the paper's register.
pub const PAPER_IMAGE: [u8; 12] = [
    0x10, 0x80, 0x42, 0x20, 0x00, 0x14, 0x00, 0x00, 0x00, 0x00, 0xA0, 0x10,
];

/// The one-stop image with a bit set after the code, in each way, and with
/// each sixth byte: all refused with 29.
pub fn more_than_one_stop() -> Vec<Vec<u8>> {
    let last = (1..32).map(|last| [&ONE_STOP[..4], &[last]].concat());
    let sixth = (0..=255).map(|sixth| [&ONE_STOP[..], &[sixth]].concat());
    last.chain(sixth).collect()
}

/// Bytes of a text of 0 and 1, filled up with zero bits. Spaces are passed
/// over.
pub fn bits(text: &str) -> Vec<u8> {
    let digits: Vec<u8> = text.bytes().filter(|byte| *byte != b' ').collect();
    let byte = |part: &[u8]| {
        let value = part
            .iter()
            .fold(0, |value, digit| value << 1 | (digit - b'0'));
        value << (8 - part.len())
    };
    digits.chunks(8).map(byte).collect()
}

/// The 32 bits before the code of one address with all rights, no process, no
/// tuple and two instructions.
pub const BEFORE_CODE: &str = "0001 00001 0000000010 1 1111 000 00000";

/// The 32 bits before the tuple of one address without rights, no process, one
/// tuple and one instruction.
pub const BEFORE_TUPLE: &str = "0001 00001 0000000001 0 0000 000 00001";

/// One address with all rights, no process, no tuple, and two instructions
/// that these bits write.
pub fn with_code(code: &str) -> Vec<u8> {
    bits(&format!("{BEFORE_CODE} {code}"))
}

/// One address with these rights over itself, a process, no tuple, and the
/// one instruction at which it starts, which these bits write.
pub fn with_start(rights: u8, code: &str) -> Vec<u8> {
    let head = format!("0001 00001 0000000001 0 {rights:04b} 001 000000000 00000");
    bits(&format!("{head} {code}"))
}

/// One address without rights, no process, one tuple and one instruction
/// that these bits write.
pub fn with_tuple(tuple_and_code: &str) -> Vec<u8> {
    bits(&format!("{BEFORE_TUPLE} {tuple_and_code}"))
}
