//! Faults in the rows of a tree, of either format.

use super::super::from_net::rows_of;
use super::super::source::*;
use crate::net::{Net, Rights, Row, ADDRESSES, ROW_BY_ORIGIN};
use crate::random::Random;

/// Puts one fault into the rows: rows wanting, over, out of order, of another
/// node or origin, with a right over an address that the net has not, or one
/// more than there can be.
pub fn put_row_fault(random: &mut Random, source: &mut Source) {
    if source.rows.is_empty() {
        return;
    }
    let at = random.below(source.rows.len());
    let other = random.below(source.rows.len());
    match random.below(15) {
        0 | 1 => {
            source.rows.remove(at);
        }
        2 => source.rows.insert(other, source.rows[at]),
        3 => source.rows.swap(at, other),
        4 => source.rows.truncate(at + 1),
        5 => source.rows[at].at = any_number(random, source),
        6 | 7 => change_origin(random, source, at),
        8 => one_more_at_the_end(random, source),
        9 => one_more_of_a_node(random, source, at),
        10 | 11 => right_beyond(random, source, at),
        12 => {
            // Beside a row that is wanting or over it does not count.
            right_beyond(random, source, at);
            put_row_fault(random, source);
        }
        13 => seventeenth_node(source),
        _ => seventeenth_origin(random, source),
    }
}

/// Takes rights from a row, mostly from a node's row for itself.
pub fn take_rights(random: &mut Random, source: &mut Source) {
    let own = |line: &&mut RowLine| line.origin.is_none_or(|origin| origin == line.at);
    let mostly_own = random.percent(80);
    let mut rows: Vec<&mut RowLine> = source.rows.iter_mut().collect();
    if mostly_own {
        rows.retain(own);
    }
    if rows.is_empty() {
        return;
    }
    let index = random.below(rows.len());
    let RowLine { at, row, .. } = &mut rows[index];
    match random.below(3) {
        0 => *row = Row::ZERO,
        1 => row.rights[*at as usize % ADDRESSES] = Rights::NONE,
        _ => row.create = false,
    }
}

// A number of a node or an origin, at times beyond those there are.
fn any_number(random: &mut Random, source: &Source) -> u8 {
    let count = source.address_count();
    let near = random.below(count + 2);
    random.choose(&[near, near, near, 15, 16, 17]) as u8
}

// Another origin, or a row of the other format.
fn change_origin(random: &mut Random, source: &mut Source, at: usize) {
    let number = any_number(random, source);
    let origin = &mut source.rows[at].origin;
    *origin = match origin {
        Some(_) if random.percent(25) => None,
        _ => Some(number),
    };
}

// A row of the last node for a further origin, or one of a further node.
fn one_more_at_the_end(random: &mut Random, source: &mut Source) {
    let count = source.address_count() as u8;
    let last = source.rows[source.rows.len() - 1];
    let (at, origin) = match (last.origin, random.below(2)) {
        (Some(_), 0) => (last.at, Some(count)),
        (Some(_), _) => (count, Some(0)),
        (None, _) => (count, None),
    };
    let row = Row::ZERO;
    source.rows.push(RowLine { at, origin, row });
}

// A node has a row for one origin more.
fn one_more_of_a_node(random: &mut Random, source: &mut Source, at: usize) {
    let node = source.rows[at].at;
    let after = source.rows.iter().rposition(|line| line.at == node);
    let after = after.map_or(0, |last| last + 1);
    let origin = source.rows[at].origin.map(|_| {
        let count = source.address_count() as u8;
        random.choose(&[count, count, 0, 16])
    });
    let row = Row::ZERO;
    let line = RowLine {
        at: node,
        origin,
        row,
    };
    source.rows.insert(after, line);
}

// Number 23, if no row is wanting or over.
fn right_beyond(random: &mut Random, source: &mut Source, at: usize) {
    let count = source.address_count();
    if count < ADDRESSES {
        let any = random.between(count, ADDRESSES - 1);
        let over = random.choose(&[count, any]);
        source.rows[at].row.rights[over].read = true;
    }
}

// Numbers 22.

// Rows for as many addresses as there can be; those that are there stay.
fn fill_up(source: &mut Source) {
    let mut net = Net::of(source.format(), ADDRESSES as u8, 1);
    for line in &source.rows {
        let rows = net.nodes.get_mut(line.at as usize);
        let rows = rows.map_or(&mut [][..], |node| &mut node.rows[..]);
        match line.origin {
            None => rows.fill(line.row),
            Some(origin) => {
                let mine = rows.get_mut(origin as usize);
                mine.into_iter().for_each(|row| *row = line.row);
            }
        }
    }
    source.rows = rows_of(&net);
}

// A row after the sixteenth node's last.
fn seventeenth_node(source: &mut Source) {
    fill_up(source);
    let (at, origin) = match source.format() {
        ROW_BY_ORIGIN => (ADDRESSES as u8, Some(0)),
        _ => (ADDRESSES as u8, None),
    };
    let row = Row::ZERO;
    source.rows.push(RowLine { at, origin, row });
}

// A node's row for a seventeenth origin; in format 1 there is none.
fn seventeenth_origin(random: &mut Random, source: &mut Source) {
    fill_up(source);
    if source.format() == ROW_BY_ORIGIN {
        let any = random.below(ADDRESSES);
        let node = random.choose(&[0, any]);
        let line = RowLine {
            at: node as u8,
            origin: Some(random.choose(&[16, 16, 0, 15, 17])),
            row: Row::ZERO,
        };
        source.rows.insert((node + 1) * ADDRESSES, line);
    }
}
