//! A net as the programs `inspect`, `inspect_text`, `replay` and `poll` dump it
//! (the layout stands in crates/dump/src/lib.rt), and what the first two make
//! of images and of texts.

use crate::net::*;
use crate::program::{feed, Pipe};
use std::io::Read;

// The byte of a process that is its origin: after its busy mark and place.
const ORIGIN: usize = 3;

// Bytes of the records.
const FORMAT: usize = 1;
const COUNTS: usize = 3;
const HEAD: usize = FORMAT + COUNTS;
const ROW: usize = 1 + ADDRESSES;
const ROWS: usize = ADDRESSES * ROW;
const PROCESS: usize = ORIGIN + 1 + 5 * VARIABLES;
const TUPLE: usize = 1 + 5 * FIELDS + 1;
const NODE: usize = ROWS + SLOTS * PROCESS + 1 + TUPLES * TUPLE;
const INSTRUCTION: usize = 9 + 5 * FIELDS;

/// The bytes of a dumped net.
pub const DUMP_BYTES: usize = STATE_BYTES + INSTRUCTIONS * INSTRUCTION;

/// Those of them that a pick can change: the format, the counts and the
/// nodes.
pub const STATE_BYTES: usize = HEAD + ADDRESSES * NODE;

/// What is made of a text: 0 or the number it is refused with, and the dump
/// of the net it gives.
#[derive(Clone, PartialEq, Eq, Debug)]
pub struct Opened {
    pub number: u8,
    pub dump: Vec<u8>,
}

/// What is made of an image: besides, the bit at which the field at fault
/// begins, 0 where it is accepted.
#[derive(Clone, PartialEq, Eq, Debug)]
pub struct OpenedImage {
    pub number: u8,
    pub bit: usize,
    pub dump: Vec<u8>,
}

/// The format, the counts and the nodes as bytes: what a pick can change.
pub fn dump_state(net: &Net) -> Vec<u8> {
    let mut out = Vec::with_capacity(DUMP_BYTES);
    out.push(net.format);
    out.push(net.address_count);
    put_two(&mut out, net.code_length);
    for node in net.nodes.iter() {
        put_node(&mut out, node);
    }
    out
}

/// The whole net as bytes.
pub fn dump(net: &Net) -> Vec<u8> {
    let mut out = dump_state(net);
    for instruction in net.code.iter() {
        put_instruction(&mut out, instruction);
    }
    out
}

fn put_two(out: &mut Vec<u8>, number: u16) {
    out.extend(number.to_le_bytes());
}

// A kind, then a value in four bytes.
fn put_kind(out: &mut Vec<u8>, kind: u8, value: i32) {
    out.push(kind);
    out.extend(value.to_le_bytes());
}

fn put_node(out: &mut Vec<u8>, node: &Node) {
    for row in &node.rows {
        put_row(out, row);
    }
    for process in &node.processes {
        put_process(out, process);
    }
    out.push(node.tuple_count);
    for tuple in &node.tuples {
        put_tuple(out, tuple);
    }
}

// n, then the rights over each address in a byte.
fn put_row(out: &mut Vec<u8>, row: &Row) {
    out.push(row.create as u8);
    out.extend(row.rights.map(|rights| {
        let high = (rights.take as u8) << 3 | (rights.read as u8) << 2;
        high | (rights.put as u8) << 1 | rights.send as u8
    }));
}

// Whether it is busy, the place, the origin and the variables.
fn put_process(out: &mut Vec<u8>, process: &Process) {
    out.push(process.busy as u8);
    put_two(out, process.at.0);
    out.push(process.origin.0);
    for value in &process.variables {
        match *value {
            Value::Unset => put_kind(out, 0, 0),
            Value::Reading(reading) => put_kind(out, 1, reading),
            Value::Address(address) => put_kind(out, 2, address.0.into()),
        }
    }
}

// The count, the fields and, at the end, the mark.
fn put_tuple(out: &mut Vec<u8>, tuple: &Tuple) {
    out.push(tuple.count);
    for field in &tuple.fields {
        match *field {
            Field::Reading(reading) => put_kind(out, 1, reading),
            Field::Address(address) => put_kind(out, 2, address.0.into()),
        }
    }
    out.push(tuple.from.0);
}

fn put_instruction(out: &mut Vec<u8>, instruction: &Instruction) {
    put_action(out, &instruction.action);
    out.push(instruction.count);
    for field in &instruction.fields {
        match *field {
            TemplateField::Reading(reading) => put_kind(out, 0, reading),
            TemplateField::Address(address) => put_kind(out, 1, address.0.into()),
            TemplateField::Own => put_kind(out, 2, 0),
            TemplateField::Variable(variable) => put_kind(out, 3, variable.into()),
            TemplateField::FormalReading(variable) => put_kind(out, 4, variable.into()),
            TemplateField::FormalAddress(variable) => put_kind(out, 5, variable.into()),
        }
    }
}

// The action's number, its target, two places and the variable of a new. A
// set stands in the two bytes of the target.
fn put_action(out: &mut Vec<u8>, action: &Action) {
    let none = Place(0);
    let (number, target, places, variable) = match *action {
        Action::Stop => (0, [0, 0], [none, none], 0),
        Action::Out { target, next } => (1, target_bytes(target), [next, none], 0),
        Action::In { target, next } => (2, target_bytes(target), [next, none], 0),
        Action::Read { target, next } => (3, target_bytes(target), [next, none], 0),
        Action::Eval { target, sent, next } => (4, target_bytes(target), [sent, next], 0),
        Action::New { variable, next } => (5, [0, 0], [next, none], variable),
        Action::Fork { first, second } => (6, [0, 0], [first, second], 0),
        Action::OutToSet { members, next } => (7, members.0.to_le_bytes(), [next, none], 0),
    };
    out.push(number);
    out.extend(target);
    put_two(out, places[0].0);
    put_two(out, places[1].0);
    out.push(variable);
}

// The kind of a target, and its address or variable.
fn target_bytes(target: Target) -> [u8; 2] {
    match target {
        Target::Written(address) => [0, address.0],
        Target::Own => [1, 0],
        Target::Variable(variable) => [2, variable],
    }
}

// The record that a byte of a dump is of.
fn record_at(byte: usize) -> String {
    let (counts, nodes, code) = (FORMAT, HEAD, STATE_BYTES);
    if byte < counts {
        "format".to_string()
    } else if byte < nodes {
        format!("counts, byte {}", byte - counts)
    } else if byte < code {
        let at = byte - nodes;
        format!("node {}, {}", at / NODE, record_of_node(at % NODE))
    } else {
        one_of("instruction", byte - code, INSTRUCTION)
    }
}

/// The first byte in which the dump that a program wrote is not that of a
/// net, where there is one.
pub fn difference_of(found: &[u8], net: &Net) -> Option<String> {
    let expected = dump(net);
    let at = (0..DUMP_BYTES).find(|at| found[*at] != expected[*at])?;
    let (program, model, record) = (found[at], expected[at], record_at(at));
    Some(format!("{record}: program {program}, model {model}"))
}

// The record that a byte of a node is of.
fn record_of_node(byte: usize) -> String {
    let (processes, count) = (ROWS, ROWS + SLOTS * PROCESS);
    let tuples = count + 1;
    if byte < processes {
        one_of("row for origin", byte, ROW)
    } else if byte < count && (byte - processes) % PROCESS == ORIGIN {
        format!("origin of process {}", (byte - processes) / PROCESS)
    } else if byte < count {
        one_of("process", byte - processes, PROCESS)
    } else if byte < tuples {
        "tuple count".to_string()
    } else if (byte - tuples) % TUPLE == TUPLE - 1 {
        format!("mark of tuple {}", (byte - tuples) / TUPLE)
    } else {
        one_of("tuple", byte - tuples, TUPLE)
    }
}

// Which of several records of one length a byte is of, and which byte of it.
fn one_of(record: &str, byte: usize, length: usize) -> String {
    format!("{record} {}, byte {}", byte / length, byte % length)
}

/// What the program `inspect` makes of each of these images.
pub fn inspect(images: &[Vec<u8>]) -> Vec<OpenedImage> {
    inspect_by("inspect", images, OpenedImage::read)
}

/// What the program `inspect_text` makes of each of these texts.
pub fn inspect_text(texts: &[Vec<u8>]) -> Vec<Opened> {
    inspect_by("inspect_text", texts, Opened::read)
}

// What a program makes of each of these.
fn inspect_by<T>(name: &str, all: &[Vec<u8>], read: fn(&mut Pipe) -> T) -> Vec<T> {
    feed(name, all, |one| framed(one), |_, output| read(output))
}

/// An image or a text as these programs take it: its length, then its
/// bytes.
pub fn framed(bytes: &[u8]) -> Vec<u8> {
    let length = u16::try_from(bytes.len()).expect("at most 65,535 bytes");
    [&length.to_le_bytes(), bytes].concat()
}

impl Opened {
    // The number in a byte, and the dump.
    fn read(output: &mut impl Read) -> Opened {
        let [number] = read_bytes(output);
        let dump = read_bytes::<DUMP_BYTES>(output).to_vec();
        Opened { number, dump }
    }
}

impl OpenedImage {
    // The number in a byte, the bit in four, the lowest first, and the dump.
    pub(crate) fn read(output: &mut impl Read) -> OpenedImage {
        let [number] = read_bytes(output);
        let bit = u32::from_le_bytes(read_bytes(output)) as usize;
        let dump = read_bytes::<DUMP_BYTES>(output).to_vec();
        OpenedImage { number, bit, dump }
    }
}

/// The next bytes of a program's output; fewer are a failure.
pub(crate) fn read_bytes<const COUNT: usize>(output: &mut impl Read) -> [u8; COUNT] {
    let mut bytes = [0; COUNT];
    output.read_exact(&mut bytes).expect("an answer for each");
    bytes
}

#[cfg(test)]
mod tests {
    use super::*;
    use crate::by_hand::{out_to_set, PUT, SEND};

    #[test]
    fn a_dump_has_its_length() {
        assert_eq!((ROW, PROCESS, TUPLE), (17, 44, 22));
        assert_eq!((NODE, INSTRUCTION), (801, 29));
        assert_eq!((STATE_BYTES, DUMP_BYTES), (12_820, 27_668));
        assert_eq!(dump(&Net::empty()).len(), DUMP_BYTES);
        assert_eq!(dump_state(&Net::empty()).len(), STATE_BYTES);
    }

    /// The records in which the dump of a changed empty net is another.
    fn changed(change: fn(&mut Net)) -> Vec<String> {
        let mut net = Net::empty();
        let before = dump(&net);
        change(&mut net);
        let after = dump(&net);
        let differs = (0..DUMP_BYTES).filter(|at| before[*at] != after[*at]);
        differs.map(record_at).collect()
    }

    const NINE: Locality = Locality(9);
    /// The value whose only byte that is not 0 is the last.
    const LAST: i32 = 1 << 24;

    /// Changes of one byte each, and the record that it is of.
    const CHANGES: [(fn(&mut Net), &str); 17] = [
        (|net| net.format = 1, "format"),
        (|net| net.address_count = 1, "counts, byte 0"),
        (|net| net.code_length = 1, "counts, byte 1"),
        (
            |net| net.nodes[0].rows[0].create = true,
            "node 0, row for origin 0, byte 0",
        ),
        (
            |net| net.nodes[4].rows[3].rights[15] = SEND,
            "node 4, row for origin 3, byte 16",
        ),
        (
            |net| net.nodes[15].rows[15].rights[0] = SEND,
            "node 15, row for origin 15, byte 1",
        ),
        (
            |net| net.nodes[4].processes[3].busy = true,
            "node 4, process 3, byte 0",
        ),
        (
            |net| net.nodes[4].processes[0].at = Place(256),
            "node 4, process 0, byte 2",
        ),
        (
            |net| net.nodes[4].processes[0].origin = NINE,
            "node 4, origin of process 0",
        ),
        (
            |net| net.nodes[15].processes[3].origin = NINE,
            "node 15, origin of process 3",
        ),
        (
            |net| net.nodes[4].processes[1].variables[0] = Value::Reading(0),
            "node 4, process 1, byte 4",
        ),
        (|net| net.nodes[4].tuple_count = 1, "node 4, tuple count"),
        (
            |net| net.nodes[0].tuples[0].from = NINE,
            "node 0, mark of tuple 0",
        ),
        (
            |net| net.nodes[1].tuples[1].count = 9,
            "node 1, tuple 1, byte 0",
        ),
        (
            |net| net.nodes[2].tuples[3].fields[3] = Field::Reading(LAST),
            "node 2, tuple 3, byte 20",
        ),
        (
            |net| net.nodes[15].tuples[15].from = NINE,
            "node 15, mark of tuple 15",
        ),
        (
            |net| net.code[511].fields[3] = TemplateField::Reading(LAST),
            "instruction 511, byte 28",
        ),
    ];

    #[test]
    fn each_record_has_its_name() {
        for (change, record) in CHANGES {
            assert_eq!(changed(change), [record]);
        }
    }

    #[test]
    fn what_is_written_of_an_image_and_of_a_text() {
        let dump = dump(&Net::empty());
        let image = [&[24, 0xDA, 0xCC, 1, 0][..], &dump].concat();
        let mut written = &image[..];
        let opened = OpenedImage::read(&mut written);
        assert_eq!((opened.number, opened.bit), (24, 117_978));
        assert!(opened.dump == dump && written.is_empty());
        let text = [&[31][..], &dump].concat();
        let mut written = &text[..];
        let opened = Opened::read(&mut written);
        assert!(opened == Opened { number: 31, dump } && written.is_empty());
    }

    #[test]
    fn each_record_shows() {
        let mut net = Net::of(7, 2, 300);
        net.nodes[0].rows[0].rights[1] = SEND;
        net.nodes[0].rows[5].create = true;
        net.nodes[0].rows[5].rights[15] = Rights { take: true, ..PUT };
        net.nodes[0].processes[0] = Process::starting(Place(258), NINE);
        net.nodes[0].processes[0].variables[7] = Value::Address(Locality(1));
        net.nodes[0].tuple_count = 1;
        net.nodes[0].tuples[0] = Tuple::of(&[Field::Reading(-2)]).marked(Locality(1));
        let target = Target::Variable(3);
        let (sent, next) = (Place(257), Place(5));
        net.code[0] = Instruction::plain(Action::Eval { target, sent, next });
        net.code[0].fields[0] = TemplateField::FormalAddress(6);
        let bytes = dump(&net);
        assert_eq!(bytes[..4], [7, 2, 44, 1]);
        // The rows for origins 0 and 5, with n and the first rights.
        assert_eq!(bytes[4..8], [0, 0, 1, 0]);
        assert_eq!(bytes[89..92], [1, 0, 0]);
        // The end of the latter and the begin of the next.
        assert_eq!(bytes[104..107], [0, 10, 0]);
        // Busy, the place, the origin, and the first variable's kind.
        assert_eq!(bytes[276..281], [1, 2, 1, 9, 0]);
        assert_eq!(bytes[315..320], [2, 1, 0, 0, 0]);
        // The next process is free.
        assert_eq!(bytes[320..364], [0; 44]);
        assert_eq!(bytes[452..459], [1, 1, 1, 0xFE, 0xFF, 0xFF, 0xFF]);
        // The last field, the mark, and the count of the next tuple.
        assert_eq!(bytes[469..476], [1, 0, 0, 0, 0, 1, 0]);
        let code = &bytes[12_820..];
        assert_eq!(code[..9], [4, 2, 3, 1, 1, 5, 0, 0, 0]);
        assert_eq!(code[9..14], [5, 6, 0, 0, 0]);
    }

    /// The number of the 16 bits, its lower byte first, in place of a target;
    /// a format that knows no sets is dumped alike.
    #[test]
    fn a_set_stands_in_the_two_bytes_of_the_target() {
        for format in [0, 1, 2] {
            let mut net = Net::of(format, 16, 1);
            let fields = [TemplateField::Reading(1), TemplateField::Variable(7)];
            net.code[0] = out_to_set(&[0, 2, 9], &fields, 258);
            net.code[1] = out_to_set(&[8, 15], &fields[..1], 0);
            let bytes = dump(&net);
            let code = &bytes[STATE_BYTES..];
            assert_eq!(code[..9], [7, 0x40, 0xA0, 2, 1, 0, 0, 0, 2]);
            assert_eq!(code[9..19], [0, 1, 0, 0, 0, 3, 7, 0, 0, 0]);
            assert_eq!(code[19..29], [0; 10]);
            assert_eq!(code[29..38], [7, 0x81, 0, 0, 0, 0, 0, 0, 1]);
        }
    }
}
