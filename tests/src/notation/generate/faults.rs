//! Faults that a tree can hold, each hard to come by through a changed byte.

use super::super::source::*;
use super::super::NAMES;
use super::row_faults::{put_row_fault, take_rights};
use crate::net::{Field, Locality, Target, TemplateField, Tuple};
use crate::net::{INSTRUCTIONS, ROW_BY_ORIGIN, VARIABLES};
use crate::random::Random;

/// Puts one fault into a tree, if there is room for it. In format 2 there are
/// more of them in rows and sets.
pub fn put_fault(random: &mut Random, source: &mut Source) {
    match random.below(100) {
        0..=29 if source.format() == ROW_BY_ORIGIN => put_row_fault(random, source),
        30..=44 if source.format() == ROW_BY_ORIGIN => put_set(random, source),
        _ => put_other_fault(random, source),
    }
}

fn put_other_fault(random: &mut Random, source: &mut Source) {
    match random.below(23) {
        0 => fifth_process(random, source),
        1 => seventeenth_tuple(random, source),
        2 | 20 => put_row_fault(random, source),
        21 => put_set(random, source),
        3 => fifth_field(random, source),
        4 => source.lines.retain(|line| line.process().is_none()),
        5 => too_many_instructions(random, source),
        6 | 7 => address_without_row(random, source),
        8 | 9 => formal_in_out(random, source),
        10 | 11 => formal_twice(random, source),
        12 | 13 => take_rights(random, source),
        14 | 15 => nest(random, source),
        16 => define_again(random, source),
        17 => undefine(random, source),
        _ => circle(random, source),
    }
}

// Puts a line at any place.
fn insert(random: &mut Random, source: &mut Source, line: Line) {
    let at = random.below(source.lines.len() + 1);
    source.lines.insert(at, line);
}

fn any_address(random: &mut Random, source: &Source) -> Locality {
    Locality(random.below(source.address_count().max(1)) as u8)
}

// Numbers 22.

fn fifth_process(random: &mut Random, source: &mut Source) {
    let at = any_address(random, source);
    for _ in 0..random.between(1, 5) {
        insert(random, source, Line::Start(at, Process::stop()));
    }
}

fn seventeenth_tuple(random: &mut Random, source: &mut Source) {
    let at = any_address(random, source);
    for reading in 0..random.between(14, 17) as i32 {
        let tuple = Tuple::of(&[Field::Reading(reading)]);
        insert(random, source, Line::Held(at, tuple));
    }
}

fn fifth_field(random: &mut Random, source: &mut Source) {
    let more = random.between(1, 4);
    change_template(random, source, |_, _, fields| {
        fields.extend([TemplateField::Own; 4].iter().take(more));
    });
}

// Just enough instructions, or one more.
fn too_many_instructions(random: &mut Random, source: &mut Source) {
    let wanted = random.between(INSTRUCTIONS, INSTRUCTIONS + 1);
    let Some(more) = wanted.checked_sub(source.size() + 1) else {
        return;
    };
    let actions = vec![Action::New(0); more];
    let (name, end) = (unused_name(random, source), End::Stop);
    let body = Process { actions, end };
    insert(random, source, Line::Definition(name, body));
}

// A name that is not defined, if there is one.
fn unused_name(random: &mut Random, source: &Source) -> u16 {
    let defined = source.defined();
    let all = 0..NAMES as u16;
    let free: Vec<u16> = all.filter(|name| !defined.contains(name)).collect();
    match free.len() {
        0 => 0,
        _ => random.choose(&free),
    }
}

// Number 23, or 31 where it is above 15.
fn address_without_row(random: &mut Random, source: &mut Source) {
    let most = source.address_count() + random.below(3);
    let at = Locality(most as u8);
    match random.below(4) {
        0 => insert(random, source, Line::Start(at, Process::stop())),
        1 => insert(
            random,
            source,
            Line::Held(at, Tuple::of(&[Field::Reading(1)])),
        ),
        2 => {
            let held = Line::Held(Locality(0), Tuple::of(&[Field::Address(at)]));
            insert(random, source, held);
        }
        _ => change_template(random, source, |random, _, fields| {
            let index = random.below(fields.len());
            fields[index] = TemplateField::Address(at);
        }),
    }
}

// Changes one template, if there is one.
fn change_template(
    random: &mut Random,
    source: &mut Source,
    mut change: impl FnMut(&mut Random, Verb, &mut Vec<TemplateField>),
) {
    let mut count = 0;
    source.templates(&mut |_, _| count += 1);
    if count == 0 {
        return;
    }
    let mut before = random.below(count);
    source.templates(&mut |verb, fields| {
        if before == 0 {
            change(random, verb, fields);
        }
        before = before.wrapping_sub(1);
    });
}

// Numbers 26 and 27.

fn formal(random: &mut Random, variable: u8) -> TemplateField {
    match random.below(2) {
        0 => TemplateField::FormalReading(variable),
        _ => TemplateField::FormalAddress(variable),
    }
}

// In an out; an in or a read may have one more formal.
fn formal_in_out(random: &mut Random, source: &mut Source) {
    for _ in 0..3 {
        change_template(random, source, |random, verb, fields| {
            if verb == Verb::Out {
                let (index, variable) = (random.below(fields.len()), random.below(VARIABLES));
                fields[index] = formal(random, variable as u8);
            }
        });
    }
}

fn formal_twice(random: &mut Random, source: &mut Source) {
    for _ in 0..3 {
        change_template(random, source, |random, verb, fields| {
            if verb != Verb::Out {
                let variable = random.below(VARIABLES) as u8;
                fields.truncate(3);
                fields.push(formal(random, variable));
                let index = random.below(fields.len());
                fields[index] = formal(random, variable);
            }
        });
    }
}

// A set in the place of any target: mostly 31, for its members or because no
// set can stand there, and 23 for an address that the net has not.
fn put_set(random: &mut Random, source: &mut Source) {
    let members = members(random, source.address_count());
    let mut count = 0;
    source.aims(&mut |_| count += 1);
    if count == 0 {
        return;
    }
    let mut before = random.below(count);
    source.aims(&mut |aim| {
        if before == 0 {
            *aim = Aim::Set(members.clone());
        }
        before = before.wrapping_sub(1);
    });
}

// Members below the count, or not; ascending, or not; one of them twice.
fn members(random: &mut Random, count: usize) -> Vec<u8> {
    let bound = random
        .choose(&[count, count, count + 1, count + 3, 18])
        .max(1);
    let some = random.choose(&[0, 1, 2, 2, 3, 5]);
    let mut members: Vec<u8> = (0..some).map(|_| random.below(bound) as u8).collect();
    if random.percent(70) {
        members.sort();
    }
    if random.percent(50) {
        members.dedup();
    }
    members
}

// Number 32, or as deep as it may be.
fn nest(random: &mut Random, source: &mut Source) {
    let depth = random.between(31, 33);
    let mut inner = Process::stop();
    for _ in 0..depth {
        inner = match random.below(3) {
            0 => Process::fork(inner, Process::stop()),
            1 => Process::fork(Process::stop(), inner),
            _ => Process {
                actions: vec![Action::Eval(inner, Aim::At(Target::Own))],
                end: End::Stop,
            },
        };
    }
    let name = unused_name(random, source);
    insert(random, source, Line::Definition(name, inner));
}

// Number 33.

fn define_again(random: &mut Random, source: &mut Source) {
    let defined = source.defined();
    if !defined.is_empty() {
        let line = Line::Definition(random.choose(&defined), Process::stop());
        insert(random, source, line);
    }
}

// Another name for a definition.
fn undefine(random: &mut Random, source: &mut Source) {
    let new = unused_name(random, source);
    let mut definitions: Vec<&mut u16> = source
        .lines
        .iter_mut()
        .filter_map(|line| match line {
            Line::Definition(name, _) => Some(name),
            _ => None,
        })
        .collect();
    if !definitions.is_empty() {
        let index = random.below(definitions.len());
        *definitions[index] = new;
    }
}

// Some names in a circle, or in a row.
fn circle(random: &mut Random, source: &mut Source) {
    let first = unused_name(random, source);
    let mut name = first;
    for _ in 0..random.below(4) {
        let next = unused_name(random, source);
        insert(random, source, Line::Definition(name, Process::name(next)));
        name = next;
    }
    let last = match random.below(3) {
        0 => Process::stop(),
        _ => Process::name(first),
    };
    insert(random, source, Line::Definition(name, last));
}
