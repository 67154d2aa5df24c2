//! Random nets, images and picks for tests. The same seed gives the same.

mod by_origin;
mod code;
mod damage;
mod sending;
mod sets;

pub use by_origin::by_origin_net;
pub use damage::{change_record, damaged, damaged_image, random_net};
pub use sending::sending_net;
pub use sets::{set_image_net, set_net};

use crate::image::write_image;
use crate::net::*;
use crate::random::Random;
use crate::sound::{keeps_within, reached};
use crate::step::{pick_address, pick_slot, step};
use code::{CodeWriter, Style};

/// A net as an image of either format could write it down: faults 21 to 29
/// absent, but starting processes may reach beyond their rows.
pub fn image_net(random: &mut Random) -> Net {
    let format = random.choose(&FORMATS);
    image_net_of(random, format)
}

/// The same of one format.
pub fn image_net_of(random: &mut Random, format: u8) -> Net {
    let mut net = Net::of(format, address_count(random), code_length(random));
    let style = Style::new(random, &net);
    fill_rows(random, &mut net);
    fill_processes(random, &mut net);
    fill_tuples(random, &mut net, &style);
    fill_code(random, &mut net, &style);
    net
}

/// A net as an image could write it down, mostly one that is accepted.
pub fn valid_net(random: &mut Random) -> Net {
    let format = random.choose(&FORMATS);
    valid_net_of(random, format)
}

/// The same of one format.
pub fn valid_net_of(random: &mut Random, format: u8) -> Net {
    let mut net = image_net_of(random, format);
    match random.below(20) {
        0..=11 => grant_needed(&mut net),
        12..=18 => move_starts(random, &mut net),
        _ => {}
    }
    net
}

/// An image, mostly accepted, otherwise refused with 30.
pub fn valid_image(random: &mut Random) -> Vec<u8> {
    write_image(&valid_net(random))
}

/// A sound net, mostly one that no run reaches: any slots busy, any
/// variables set, full nodes, rows that bar the code, processes and tuples
/// from anywhere.
pub fn sound_net(random: &mut Random) -> Net {
    let format = random.choose(&FORMATS);
    sound_net_of(random, format)
}

/// The same of one format.
pub fn sound_net_of(random: &mut Random, format: u8) -> Net {
    let mut net = image_net_of(random, format);
    mark_tuples(random, &mut net);
    for address in 0..net.address_count as usize {
        for slot in 0..SLOTS {
            if random.percent(50) {
                let at = place(random, net.code_length);
                let own = Locality(address as u8);
                net.nodes[address].processes[slot] = Process::starting(at, own);
            }
            if net.nodes[address].processes[slot].busy {
                let variables = variables(random, net.address_count);
                net.nodes[address].processes[slot].variables = variables;
            }
        }
    }
    set_origins(random, &mut net);
    net
}

/// Gives none, some or all of the busy processes any address in use as
/// origin; a sound net stays sound.
pub fn set_origins(random: &mut Random, net: &mut Net) {
    let moved = random.choose(&[0, 50, 100]);
    let count = net.address_count;
    let processes = net.nodes.iter_mut().flat_map(|node| &mut node.processes);
    for process in processes.filter(|process| process.busy) {
        if random.percent(moved) {
            process.origin = address(random, count);
        }
    }
}

/// The same net with address 0 as the origin of all its processes.
pub fn without_origins(net: &Net) -> Net {
    let mut net = net.clone();
    let processes = net.nodes.iter_mut().flat_map(|node| &mut node.processes);
    processes.for_each(|process| process.origin = Locality(0));
    net
}

/// A sound net some picks after its start.
pub fn net_after_picks(random: &mut Random) -> Net {
    let format = random.choose(&FORMATS);
    net_after_picks_of(random, format)
}

/// The same of one format.
pub fn net_after_picks_of(random: &mut Random, format: u8) -> Net {
    let mut net = valid_net_of(random, format);
    for _ in 0..random.below(80) {
        pick_and_step(random, &mut net);
    }
    net
}

/// A list of picks for a run that starts at a sound net; many of them
/// perform a step when their turn comes.
pub fn picks(random: &mut Random, start: &Net, count: usize) -> Vec<u8> {
    let mut net = start.clone();
    (0..count)
        .map(|_| pick_and_step(random, &mut net))
        .collect()
}

// Makes one pick. A pick that performs nothing leaves the net as it was,
// so that another may be tried in its stead.
fn pick_and_step(random: &mut Random, net: &mut Net) -> u8 {
    let mut tries = random.choose(&[1, 2, 4, 8]);
    loop {
        let pick = pick_byte(random, net);
        tries -= 1;
        if step(net, pick) <= 1 || tries == 0 {
            return pick;
        }
    }
}

/// One pick for a net, mostly of a busy slot.
pub fn pick_byte(random: &mut Random, net: &Net) -> u8 {
    let busy = busy_slots(net);
    let address = random.below(net.address_count as usize + 1);
    let slot = random.below(SLOTS);
    match random.below(50) {
        0 => random.byte(),
        1 => random.byte() & 0xFC,
        2..=48 if !busy.is_empty() => random.choose(&busy),
        _ => (address << 4 | slot << 2) as u8,
    }
}

// The picks of all busy slots.
fn busy_slots(net: &Net) -> Vec<u8> {
    let all = (0..=u8::MAX).step_by(4);
    all.filter(|pick| {
        let node = &net.nodes[pick_address(*pick).0 as usize];
        node.processes[pick_slot(*pick) as usize].busy
    })
    .collect()
}

// Sizes.

fn address_count(random: &mut Random) -> u8 {
    match random.below(10) {
        0..=6 => random.between(1, 4) as u8,
        7 | 8 => random.between(1, 16) as u8,
        _ => random.between(14, 16) as u8,
    }
}

fn code_length(random: &mut Random) -> u16 {
    match random.below(40) {
        0..=32 => random.between(1, 12) as u16,
        33..=37 => random.between(1, 64) as u16,
        38 => random.between(1, 512) as u16,
        _ => random.between(510, 512) as u16,
    }
}

fn tuple_count(random: &mut Random) -> u8 {
    match random.below(10) {
        0..=7 => random.between(0, 6) as u8,
        8 => random.between(0, 16) as u8,
        _ => random.between(14, 16) as u8,
    }
}

fn field_count(random: &mut Random) -> usize {
    random.choose(&[1, 1, 1, 1, 1, 2, 2, 2, 3, 4])
}

// Values.

/// Mostly a small reading, so that tuples fit often.
pub fn reading(random: &mut Random) -> i32 {
    match random.below(20) {
        0..=16 => random.below(3) as i32,
        17 => -(random.below(3) as i32),
        18 => random.choose(&[i32::MIN, i32::MAX, i32::MIN + 1, 5]),
        _ => random.number() as i32,
    }
}

fn address(random: &mut Random, count: u8) -> Locality {
    Locality(random.below(count as usize) as u8)
}

fn place(random: &mut Random, length: u16) -> Place {
    Place(random.below(length as usize) as u16)
}

/// A set of addresses below the count: none, one, a few, any or all of them.
pub(crate) fn set(random: &mut Random, count: u8) -> Set {
    let mut some = |members| Set::of((0..members).map(|_| address(random, count)));
    let (one, few) = (some(1), some(3));
    match random.below(10) {
        0 => Set::EMPTY,
        1..=3 => one,
        4..=6 => few,
        7 | 8 => Set(random.number() as u16 & whole(count).0),
        _ => whole(count),
    }
}

// The set of all addresses below the count.
fn whole(count: u8) -> Set {
    Set::of((0..count).map(Locality))
}

fn variables(random: &mut Random, count: u8) -> [Value; VARIABLES] {
    let mut variables = Process::FREE.variables;
    for value in variables.iter_mut() {
        *value = match random.below(10) {
            0..=2 => Value::Unset,
            3..=5 => Value::Reading(reading(random)),
            _ => Value::Address(address(random, count)),
        };
    }
    variables
}

// Rows, processes and tuples of a net.

const GENEROSITIES: [usize; 5] = [0, 20, 50, 80, 100];

/// In format 2 either all rows are of one generosity, or each has its own.
pub(crate) fn fill_rows(random: &mut Random, net: &mut Net) {
    let mut generosity = random.choose(&GENEROSITIES);
    let each_its_own = random.percent(50);
    let count = net.address_count as usize;
    for at in 0..count {
        if net.format == SINGLE_ROW {
            net.nodes[at].rows = [row(random, count, generosity); ADDRESSES];
            continue;
        }
        for origin in 0..count {
            if each_its_own {
                generosity = random.choose(&GENEROSITIES);
            }
            net.nodes[at].rows[origin] = row(random, count, generosity);
        }
    }
}

// A row that holds about so many of a hundred rights over these addresses.
fn row(random: &mut Random, count: usize, generosity: usize) -> Row {
    let mut row = Row::ZERO;
    row.create = random.percent(generosity);
    for rights in &mut row.rights[..count] {
        *rights = Rights {
            take: random.percent(generosity),
            read: random.percent(generosity),
            put: random.percent(generosity),
            send: random.percent(generosity),
        };
    }
    row
}

// The rows of a node that an image's row for an origin gives: in format 2
// that one alone, otherwise all.
fn rows_for(format: u8, node: &mut Node, origin: usize) -> &mut [Row] {
    match format {
        ROW_BY_ORIGIN => &mut node.rows[origin..=origin],
        _ => &mut node.rows,
    }
}

// Processes of an image have their own nodes as origins.
fn fill_processes(random: &mut Random, net: &mut Net) {
    let count = net.address_count as usize;
    let length = net.code_length;
    for (address, node) in net.nodes[..count].iter_mut().enumerate() {
        let busy = random.choose(&[0, 0, 1, 1, 1, 1, 2, 2, 3, 4]);
        for process in &mut node.processes[..busy] {
            let own = Locality(address as u8);
            *process = Process::starting(start(random, length), own);
        }
    }
}

// Mostly the first place, where no variable is needed yet.
fn start(random: &mut Random, length: u16) -> Place {
    if random.percent(80) {
        Place(0)
    } else {
        place(random, length)
    }
}

// Tuples of an image are from their own nodes.
fn fill_tuples(random: &mut Random, net: &mut Net, style: &Style) {
    for address in 0..style.count {
        let node = &mut net.nodes[address as usize];
        node.tuple_count = tuple_count(random);
        for held in &mut node.tuples[..node.tuple_count as usize] {
            *held = style.tuple(random).marked(Locality(address));
        }
    }
}

// Marks none, some or all of the tuples with any address in use.
fn mark_tuples(random: &mut Random, net: &mut Net) {
    let marked = random.choose(&[0, 50, 100]);
    let count = net.address_count;
    for node in &mut net.nodes[..count as usize] {
        for held in &mut node.tuples[..node.tuple_count as usize] {
            if random.percent(marked) {
                held.from = address(random, count);
            }
        }
    }
}

fn fill_code(random: &mut Random, net: &mut Net, style: &Style) {
    let mut writer = CodeWriter::new(random, style);
    for at in 0..style.length {
        net.code[at as usize] = writer.instruction(at);
    }
}

// Making starting processes keep within their rows.

/// Grants each starting process what its code needs and its node's row for
/// itself lacks.
pub fn grant_needed(net: &mut Net) {
    for address in 0..net.address_count {
        for slot in 0..SLOTS {
            let process = net.nodes[address as usize].processes[slot];
            if process.busy {
                grant_reached(net, Locality(address), process.at);
            }
        }
    }
}

fn grant_reached(net: &mut Net, address: Locality, place: Place) {
    let marks = reached(&net.code[..], net.code_length, place);
    let own = address.0 as usize;
    for row in rows_for(net.format, &mut net.nodes[own], own) {
        let both = marks.iter().zip(net.code.iter());
        for (_, instruction) in both.filter(|(reached, _)| **reached) {
            grant(row, &instruction.action, address);
        }
    }
}

fn grant(row: &mut Row, action: &Action, address: Locality) {
    let over = |target: Target| match target {
        Target::Written(written) => Some(written.0 as usize),
        Target::Own => Some(address.0 as usize),
        Target::Variable(_) => None,
    };
    let mut give = |target: Target, right: fn(&mut Rights)| {
        if let Some(index) = over(target) {
            right(&mut row.rights[index]);
        }
    };
    match *action {
        Action::Stop | Action::Fork { .. } => {}
        Action::New { .. } => row.create = true,
        Action::Out { target, .. } => give(target, |rights| rights.put = true),
        Action::In { target, .. } => give(target, |rights| rights.take = true),
        Action::Read { target, .. } => give(target, |rights| rights.read |= !rights.take),
        Action::Eval { target, .. } => give(target, |rights| rights.send = true),
        Action::OutToSet { members, .. } => {
            let written = members.members().map(Target::Written);
            written.for_each(|member| give(member, |rights| rights.put = true));
        }
    }
}

/// Moves each starting process to a place that keeps within its row, and
/// leaves off those for which none is found.
fn move_starts(random: &mut Random, net: &mut Net) {
    for address in 0..net.address_count {
        let mut slot = 0;
        for _ in 0..net.nodes[address as usize].busy_slots() {
            if let Some(place) = place_within(random, net, Locality(address)) {
                net.nodes[address as usize].processes[slot].at = place;
                slot += 1;
            }
        }
        net.nodes[address as usize].processes[slot..].fill(Process::FREE);
    }
}

fn place_within(random: &mut Random, net: &Net, address: Locality) -> Option<Place> {
    let row = net.nodes[address.0 as usize].row_for(address);
    let mut tries = (0..20).map(|_| start(random, net.code_length));
    tries.find(|place| keeps_within(&net.code[..], net.code_length, *place, address, row))
}

#[cfg(test)]
mod tests;
