//! Random trees and texts for tests, all forms in them. The same seed gives
//! the same.

mod code;
pub mod damage;
mod faults;
mod row_faults;

use super::compile::compile;
use super::from_net::{from_net, rows_of};
use super::print::text;
use super::source::*;
use super::{DEPTH, NAMES};
use crate::generate::{by_origin_net, fill_rows, grant_needed, set_image_net, valid_net_of};
use crate::net::{Locality, Net, FORMATS, ROW_BY_ORIGIN};
use crate::random::Random;
use code::Planner;

/// A tree of either format without faults, but for starting processes that may
/// reach beyond their rows; mostly they do not.
pub fn source(random: &mut Random) -> Source {
    let format = random.choose(&FORMATS);
    source_of(random, format)
}

/// The same of one format.
pub fn source_of(random: &mut Random, format: u8) -> Source {
    let mut source = match random.below(10) {
        0..=3 => from_net(&net_of(random, format)),
        4..=8 => planned(random, format),
        _ => deep(random, format),
    };
    shuffle(random, &mut source.lines);
    if random.percent(95) {
        grant_rows(&mut source);
    }
    source
}

/// A text of either format, mostly accepted, otherwise refused with 30.
pub fn valid_text(random: &mut Random) -> Vec<u8> {
    text(&source(random))
}

/// The same of one format.
pub fn valid_text_of(random: &mut Random, format: u8) -> Vec<u8> {
    text(&source_of(random, format))
}

/// Gives the rows the rights that the starting processes need.
pub fn grant_rows(source: &mut Source) {
    let mut net = compile(source);
    grant_needed(&mut net);
    source.rows = rows_of(&net);
}

// A net that an image can write, in format 2 often one in which origins or
// sets matter.
fn net_of(random: &mut Random, format: u8) -> Net {
    match random.below(4) {
        0 if format == ROW_BY_ORIGIN => by_origin_net(random),
        1 if format == ROW_BY_ORIGIN => set_image_net(random),
        _ => valid_net_of(random, format),
    }
}

// Lines in any order.
fn shuffle(random: &mut Random, lines: &mut [Line]) {
    if random.percent(70) {
        for last in (1..lines.len()).rev() {
            lines.swap(last, random.below(last + 1));
        }
    }
}

// Sizes.

fn address_count(random: &mut Random) -> usize {
    match random.below(10) {
        0..=6 => random.between(1, 3),
        7 | 8 => random.between(1, 16),
        _ => random.between(15, 16),
    }
}

fn instruction_count(random: &mut Random) -> usize {
    match random.below(40) {
        0..=33 => random.between(1, 12),
        34..=37 => random.between(1, 80),
        38 => random.between(1, 512),
        _ => random.between(510, 512),
    }
}

fn definition_count(random: &mut Random) -> usize {
    match random.below(40) {
        0..=9 => 0,
        10..=36 => random.between(1, 5),
        37 | 38 => random.between(1, 40),
        _ => random.between(500, 512),
    }
}

fn tuple_count(random: &mut Random) -> usize {
    match random.below(10) {
        0..=5 => 0,
        6..=8 => random.between(1, 3),
        _ => random.between(0, 16),
    }
}

// Different names, mostly low ones.
fn names(random: &mut Random, count: usize) -> Vec<u16> {
    let bound = random.choose(&[8, 20, NAMES]).max(count);
    let mut free: Vec<u16> = (0..bound as u16).collect();
    if random.percent(10) && !free.contains(&511) {
        free.push(511);
    }
    let names = (0..count).map(|_| free.swap_remove(random.below(free.len())));
    names.collect()
}

// Trees.

// Definitions, processes and tuples, the instructions dealt out to them.
fn planned(random: &mut Random, format: u8) -> Source {
    let count = address_count(random);
    let names = {
        let definitions = definition_count(random);
        names(random, definitions)
    };
    let starts = starts(random, count, names.is_empty());
    let total = instruction_count(random);
    let sizes = sizes(random, names.len(), starts.len(), total);
    let mut planner = Planner::new(random, format, count as u8, names);
    let mut lines = planner.definitions(&sizes[..planner.names.len()]);
    for (at, size) in starts.iter().zip(&sizes[lines.len()..]) {
        lines.push(Line::Start(*at, planner.process(*size, DEPTH)));
    }
    lines.extend(tuples(&mut planner, count));
    let rows = rows(random, format, count);
    Source { rows, lines }
}

// Where processes start, at most four at an address. There is at least one
// where nothing is defined.
fn starts(random: &mut Random, count: usize, needed: bool) -> Vec<Locality> {
    let mut starts = Vec::new();
    for address in 0..count {
        let here = random.choose(&[0, 0, 1, 1, 1, 2, 3, 4]);
        starts.extend(vec![Locality(address as u8); here]);
    }
    if needed && starts.is_empty() {
        starts.push(Locality(random.below(count) as u8));
    }
    starts
}

// How many instructions each definition and process has. Some definitions
// are bare names, but the last one has an instruction, and where there are
// no names each process has.
fn sizes(random: &mut Random, definitions: usize, starts: usize, total: usize) -> Vec<usize> {
    let mut sizes = vec![0; definitions + starts];
    match definitions {
        0 => sizes.fill(1),
        _ => sizes[definitions - 1] = 1,
    }
    let dealt: usize = sizes.iter().sum();
    for _ in dealt..total {
        let line = random.below(sizes.len());
        sizes[line] += 1;
    }
    sizes
}

fn rows(random: &mut Random, format: u8, count: usize) -> Vec<RowLine> {
    let mut net = Net::of(format, count as u8, 1);
    fill_rows(random, &mut net);
    rows_of(&net)
}

fn tuples(planner: &mut Planner, count: usize) -> Vec<Line> {
    let mut lines = Vec::new();
    for address in 0..count {
        for _ in 0..tuple_count(planner.random) {
            lines.push(Line::Held(Locality(address as u8), planner.tuple()));
        }
    }
    lines
}

// A process nested as deep as it may be, or nearly.
fn deep(random: &mut Random, format: u8) -> Source {
    let count = random.between(1, 3);
    let mut planner = Planner::new(random, format, count as u8, Vec::new());
    let depth = planner.random.between(30, DEPTH);
    let process = planner.deep(depth);
    let line = match planner.random.below(2) {
        0 => Line::Definition(0, process),
        _ => Line::Start(Locality(0), process),
    };
    let rows = rows(random, format, count);
    let lines = vec![line];
    Source { rows, lines }
}

#[cfg(test)]
mod tests;
