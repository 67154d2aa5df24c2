//! Damaged images and damaged nets.

use super::code::{CodeWriter, Style};
use super::{image_net, net_after_picks, rows_for, set, sound_net, valid_net, whole};
use crate::bits::{patch, FieldAt, Sort};
use crate::image::write_with_fields;
use crate::net::*;
use crate::random::Random;

/// An image damaged in one or two ways; now and then it is still accepted.
pub fn damaged_image(random: &mut Random) -> Vec<u8> {
    let net = valid_net(random);
    damaged(random, net)
}

/// The image of this net, damaged so.
pub fn damaged(random: &mut Random, mut net: Net) -> Vec<u8> {
    if random.percent(25) {
        damage_records(random, &mut net);
        if random.percent(70) {
            return write_with_fields(&net).0;
        }
    }
    let (mut bytes, fields) = write_with_fields(&net);
    let times = random.choose(&[1, 1, 1, 1, 2]);
    for _ in 0..times {
        damage_bytes(random, &net, &fields, &mut bytes);
    }
    bytes
}

// Damage that records can hold: a formal in an out, a variable formal
// twice, rights taken away.
pub(super) fn damage_records(random: &mut Random, net: &mut Net) {
    let at = random.below(net.code_length as usize);
    match random.below(5) {
        0 => net.code[at] = out_with_formal(random, net, at as u16),
        1 | 2 => net.code[at] = formal_twice(random, net, at as u16),
        3 => damaged_rows(random, net).fill(Row::ZERO),
        _ => {
            let over = random.below(ADDRESSES);
            let rows = damaged_rows(random, net);
            rows.iter_mut()
                .for_each(|row| row.rights[over] = Rights::NONE);
        }
    }
}

// The rows of a node for an origin, mostly for itself.
fn damaged_rows<'a>(random: &mut Random, net: &'a mut Net) -> &'a mut [Row] {
    let count = net.address_count as usize;
    let (at, other) = (random.below(count), random.below(count));
    let origin = if random.percent(80) { at } else { other };
    rows_for(net.format, &mut net.nodes[at], origin)
}

fn formal_of(random: &mut Random, variable: u8) -> TemplateField {
    if random.percent(50) {
        TemplateField::FormalReading(variable)
    } else {
        TemplateField::FormalAddress(variable)
    }
}

fn out_with_formal(random: &mut Random, net: &Net, at: u16) -> Instruction {
    let style = Style::new(random, net);
    let mut instruction = CodeWriter::new(random, &style).put(at);
    let index = random.below(instruction.count as usize);
    let variable = random.below(VARIABLES) as u8;
    instruction.fields[index] = formal_of(random, variable);
    instruction
}

fn formal_twice(random: &mut Random, net: &Net, at: u16) -> Instruction {
    let style = Style::new(random, net);
    let mut instruction = CodeWriter::new(random, &style).in_or_read(at);
    let fields = instruction.count.max(2);
    instruction.count = fields;
    let second = random.between(1, fields as usize - 1);
    let first = random.below(second);
    let variable = random.below(VARIABLES) as u8;
    instruction.fields[first] = formal_of(random, variable);
    instruction.fields[second] = formal_of(random, variable);
    instruction
}

// Damage to the bytes of an image.
fn damage_bytes(random: &mut Random, net: &Net, fields: &[FieldAt], bytes: &mut Vec<u8>) {
    match random.below(17) {
        0..=2 => flip_bit(random, bytes),
        3 => bytes.truncate(random.below(bytes.len() + 1)),
        4 => bytes.truncate(bytes.len().saturating_sub(1)),
        5 => bytes.push(random.choose(&[0, 0, 1, 0x80, 0xFF])),
        6 => set_last_bit(bytes),
        7 => *bytes = noise(random),
        8 => change_format(bytes),
        _ => damage_field(random, net, fields, bytes),
    }
}

fn flip_bit(random: &mut Random, bytes: &mut [u8]) {
    if !bytes.is_empty() {
        let index = random.below(bytes.len());
        bytes[index] ^= 1 << random.below(8);
    }
}

fn set_last_bit(bytes: &mut [u8]) {
    if let Some(last) = bytes.last_mut() {
        *last |= 1;
    }
}

// Format 1 becomes 2, and format 2 becomes 1.
fn change_format(bytes: &mut [u8]) {
    if let Some(first) = bytes.first_mut() {
        *first ^= 0x30;
    }
}

// Random bytes, at times with a head that lets the reader go on.
fn noise(random: &mut Random) -> Vec<u8> {
    let length = random.below(60);
    let mut bytes: Vec<u8> = (0..length).map(|_| random.byte()).collect();
    let head = [random.choose(&[0x10, 0x20]), 0x80, random.byte() & 0x7F];
    if random.percent(70) && bytes.len() > 3 {
        bytes[..3].copy_from_slice(&head);
    }
    bytes
}

// Writes a number, mostly one out of range, over one field of some sort.
fn damage_field(random: &mut Random, net: &Net, fields: &[FieldAt], bytes: &mut [u8]) {
    let sort = random.choose(&Sort::ALL);
    let some: Vec<FieldAt> = fields
        .iter()
        .filter(|field| field.sort == sort)
        .filter(|field| field.end() <= bytes.len() * 8)
        .copied()
        .collect();
    if !some.is_empty() {
        let field = random.choose(&some);
        let number = bad_number(random, net, field);
        patch(bytes, field, number);
    }
}

/// A number out of a field's range, or any number where every number is
/// in range.
pub(super) fn bad_number(random: &mut Random, net: &Net, field: FieldAt) -> u32 {
    let any = random.number() as u32;
    match field.sort {
        Sort::Format => random.choose(&[0, 3, 4, 6, 9, 15]),
        Sort::AddressCount => random.choose(&[0, 17, 18, 31]),
        Sort::CodeLength => random.choose(&[0, 513, 514, 768, 1023]),
        Sort::ProcessCount => random.between(5, 7) as u32,
        Sort::TupleCount => random.between(17, 31) as u32,
        Sort::Address => past(random, any, net.address_count as usize, 16),
        Sort::Place => past(random, any, net.code_length as usize, 512),
        Sort::Action if net.format == SINGLE_ROW => 7,
        Sort::Action => random.choose(&[7, any]),
        Sort::Members => past_members(random, any, net.address_count),
        Sort::TargetKind => 3,
        Sort::FieldKind => random.choose(&[4, 5, 6, 7]),
        _ => any,
    }
}

// A number from the count to below the bound, if there is one.
fn past(random: &mut Random, otherwise: u32, count: usize, bound: usize) -> u32 {
    match random.below(3) {
        _ if count >= bound => otherwise,
        0 => count as u32,
        _ => random.between(count, bound - 1) as u32,
    }
}

// A set with a member from the count on, if there is one: mostly alone or
// beside members below the count.
fn past_members(random: &mut Random, otherwise: u32, count: u8) -> u32 {
    if count as usize >= ADDRESSES {
        return otherwise;
    }
    let past = Locality(random.between(count.into(), ADDRESSES - 1) as u8);
    let below = whole(count).0;
    let others = random.choose(&[0, 0, below, otherwise as u16 & below, otherwise as u16]);
    u32::from(Set::of([past]).0 | others)
}

/// A net for testing soundness: a sound one, then possibly one record
/// changed at random, or the empty net.
pub fn random_net(random: &mut Random) -> Net {
    let mut net = match random.below(20) {
        0 => Net::empty(),
        1..=3 => image_net(random),
        4..=9 => sound_net(random),
        _ => net_after_picks(random),
    };
    let changes = random.choose(&[0, 0, 0, 1, 1, 1, 1, 1, 1, 2]);
    for _ in 0..changes {
        change_record(random, &mut net);
    }
    net
}

/// Changes one record of a net at random; it may stay sound.
pub fn change_record(random: &mut Random, net: &mut Net) {
    match random.below(24) {
        0 => net.address_count = wild_count(random, net.address_count as usize, 16) as u8,
        1 => net.code_length = wild_count(random, net.code_length as usize, 512) as u16,
        2..=4 => change_row(random, net),
        5..=8 => change_process(random, net),
        9..=12 => change_tuples(random, net),
        13 => net.format = wild_format(random),
        14 => change_row(random, net),
        15 | 16 => change_set(random, net),
        _ => change_code(random, net),
    }
}

// Either format, or none.
fn wild_format(random: &mut Random) -> u8 {
    match random.below(10) {
        0..=8 => random.choose(&[0, 1, 2, 3, 17, 18, 255]),
        _ => random.byte(),
    }
}

// A count near its old value or near a bound.
fn wild_count(random: &mut Random, count: usize, most: usize) -> usize {
    let near = [count + 1, count.wrapping_sub(1), 0, 1, most, most + 1];
    match random.below(10) {
        0..=8 => random.choose(&near),
        _ => random.number() as usize,
    }
}

// An index below the count, the first past it, or any below the bound; of
// ten, so many are near.
fn any_index(random: &mut Random, count: usize, bound: usize, near: usize) -> usize {
    if random.below(10) < near {
        random.below(count + 1).min(bound - 1)
    } else {
        random.below(bound)
    }
}

fn any_node(random: &mut Random, net: &Net) -> usize {
    any_index(random, net.address_count as usize, ADDRESSES, 8)
}

fn any_instruction(random: &mut Random, net: &Net) -> usize {
    any_index(random, net.code_length as usize, INSTRUCTIONS, 9)
}

// One right in one row of a node, or in all that an image's row gives.
fn change_row(random: &mut Random, net: &mut Net) {
    let (at, origin) = (any_node(random, net), any_node(random, net));
    let (over, right) = (any_node(random, net), random.below(5));
    if random.percent(50) {
        change_right(&mut net.nodes[at].rows[origin], over, right);
        return;
    }
    for row in rows_for(net.format, &mut net.nodes[at], origin) {
        change_right(row, over, right);
    }
}

fn change_right(row: &mut Row, over: usize, right: usize) {
    let rights = &mut row.rights[over];
    match right {
        0 => row.create = !row.create,
        1 => rights.take = !rights.take,
        2 => rights.read = !rights.read,
        3 => rights.put = !rights.put,
        _ => rights.send = !rights.send,
    }
}

fn change_process(random: &mut Random, net: &mut Net) {
    let node = any_node(random, net);
    let (value, origin) = (wild_value(random, net), wild_address(random, net));
    let place = wild_place(random, net);
    let process = &mut net.nodes[node].processes[random.below(SLOTS)];
    match random.below(6) {
        0 => process.busy = !process.busy,
        1 => process.at = place,
        2 | 3 => process.origin = origin,
        _ => process.variables[random.below(VARIABLES)] = value,
    }
}

fn change_tuples(random: &mut Random, net: &mut Net) {
    let node = any_node(random, net);
    let (field, from) = (wild_field(random, net), wild_address(random, net));
    let node = &mut net.nodes[node];
    let index = match random.below(3) {
        0 => random.below(TUPLES),
        _ => random.below(node.tuple_count as usize + 1).min(TUPLES - 1),
    };
    let tuple = &mut node.tuples[index];
    match random.below(7) {
        0 => node.tuple_count = wild_count(random, node.tuple_count as usize, TUPLES) as u8,
        1 => tuple.count = wild_count(random, tuple.count as usize, FIELDS) as u8,
        2 | 3 => tuple.from = from,
        _ => tuple.fields[random.below(FIELDS)] = field,
    }
}

fn change_code(random: &mut Random, net: &mut Net) {
    let index = any_instruction(random, net);
    let action = wild_action(random, net);
    let field = wild_template_field(random, net);
    let instruction = &mut net.code[index];
    match random.below(10) {
        0..=3 => instruction.action = action,
        4 => instruction.count = wild_count(random, instruction.count as usize, FIELDS) as u8,
        5 => *instruction = Instruction::plain(action),
        _ => instruction.fields[random.below(FIELDS)] = field,
    }
}

// Makes an instruction one to a set, or gives it another; an out keeps its
// template.
fn change_set(random: &mut Random, net: &mut Net) {
    let members = wild_set(random, net);
    let index = any_instruction(random, net);
    let instruction = &mut net.code[index];
    match instruction.action {
        Action::Out { next, .. } | Action::OutToSet { next, .. } => {
            instruction.action = Action::OutToSet { members, next };
        }
        _ => {
            let next = Place(0);
            let action = Action::OutToSet { members, next };
            *instruction = Instruction::with(action, &[TemplateField::Own]);
        }
    }
}

// Numbers in range, just out of it, or far out.

fn wild_number(random: &mut Random, count: u16, bound: u16) -> u16 {
    let (before, after) = (count.wrapping_sub(1), count.wrapping_add(1));
    let near = [0, before, count, after, bound - 1, bound];
    match random.below(10) {
        0..=8 => random.choose(&near),
        _ => random.number() as u16,
    }
}

fn wild_address(random: &mut Random, net: &Net) -> Locality {
    Locality(wild_number(random, net.address_count.into(), 16) as u8)
}

fn wild_place(random: &mut Random, net: &Net) -> Place {
    Place(wild_number(random, net.code_length, 512))
}

fn wild_variable(random: &mut Random) -> u8 {
    match random.below(10) {
        0..=4 => random.below(3) as u8,
        5..=8 => random.choose(&[6, 7, 8, 9]),
        _ => random.byte(),
    }
}

fn wild_value(random: &mut Random, net: &Net) -> Value {
    match random.below(4) {
        0 => Value::Unset,
        1 => Value::Reading(super::reading(random)),
        _ => Value::Address(wild_address(random, net)),
    }
}

fn wild_field(random: &mut Random, net: &Net) -> Field {
    match random.below(3) {
        0 => Field::Reading(super::reading(random)),
        _ => Field::Address(wild_address(random, net)),
    }
}

fn wild_template_field(random: &mut Random, net: &Net) -> TemplateField {
    match random.below(6) {
        0 => TemplateField::Reading(super::reading(random)),
        1 => TemplateField::Address(wild_address(random, net)),
        2 => TemplateField::Own,
        3 => TemplateField::Variable(wild_variable(random)),
        4 => TemplateField::FormalReading(wild_variable(random)),
        _ => TemplateField::FormalAddress(wild_variable(random)),
    }
}

fn wild_target(random: &mut Random, net: &Net) -> Target {
    match random.below(3) {
        0 => Target::Written(wild_address(random, net)),
        1 => Target::Own,
        _ => Target::Variable(wild_variable(random)),
    }
}

// Members in range, one of them out of it, or any.
fn wild_set(random: &mut Random, net: &Net) -> Set {
    let count = net.address_count.clamp(1, ADDRESSES as u8);
    let any = random.number() as u32;
    match random.below(10) {
        0..=4 => set(random, count),
        5..=8 => Set(past_members(random, any, count) as u16),
        _ => Set(any as u16),
    }
}

fn wild_action(random: &mut Random, net: &Net) -> Action {
    let target = wild_target(random, net);
    let next = wild_place(random, net);
    let other = wild_place(random, net);
    match random.below(8) {
        0 => Action::Stop,
        1 => Action::Out { target, next },
        2 => Action::In { target, next },
        3 => Action::Read { target, next },
        4 => Action::Eval {
            target,
            sent: other,
            next,
        },
        5 => Action::New {
            variable: wild_variable(random),
            next,
        },
        6 => Action::OutToSet {
            members: wild_set(random, net),
            next,
        },
        _ => Action::Fork {
            first: next,
            second: other,
        },
    }
}
