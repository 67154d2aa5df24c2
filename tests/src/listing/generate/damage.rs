//! Damage to a listing.

use crate::listing::{lines, MOST_DIGITS};
use crate::random::Random;

/// A way in which a listing is damaged.
#[derive(Clone, Copy, PartialEq, Eq, Debug)]
pub enum Damage {
    ByteChanged,
    ByteInserted,
    ByteRemoved,
    /// One number has more digits than it may have, all of them zeros before
    /// its own.
    NumberTooLong,
    LineLeftOut,
    LineDoubled,
    LinesSwapped,
    Cut,
    Continued,
}

impl Damage {
    pub const ALL: [Damage; 9] = [
        Damage::ByteChanged,
        Damage::ByteInserted,
        Damage::ByteRemoved,
        Damage::NumberTooLong,
        Damage::LineLeftOut,
        Damage::LineDoubled,
        Damage::LinesSwapped,
        Damage::Cut,
        Damage::Continued,
    ];
}

/// Damages a listing in one way. Where there is nothing to damage it stays.
pub fn damage(random: &mut Random, way: Damage, listing: &mut Vec<u8>) {
    if listing.is_empty() {
        return;
    }
    match way {
        Damage::ByteChanged => change_byte(random, listing),
        Damage::ByteInserted => {
            let at = random.below(listing.len() + 1);
            listing.insert(at, any_byte(random));
        }
        Damage::ByteRemoved => {
            listing.remove(random.below(listing.len()));
        }
        Damage::NumberTooLong => lengthen_number(random, listing),
        Damage::LineLeftOut | Damage::LineDoubled | Damage::LinesSwapped => {
            damage_lines(random, way, listing)
        }
        Damage::Cut => listing.truncate(cut_at(random, listing)),
        Damage::Continued => go_on(random, listing),
    }
}

// Bytes.

const CHARACTERS: &[u8] = b"0123456789 \n-@+\r\tafeinoprtu";

// Mostly a character of listings.
fn any_byte(random: &mut Random) -> u8 {
    match random.below(10) {
        0 => random.byte(),
        1 | 2 => b'0',
        _ => random.choose(CHARACTERS),
    }
}

// Puts another byte in the place of one, mostly a digit for a digit.
fn change_byte(random: &mut Random, listing: &mut [u8]) {
    let at = random.below(listing.len());
    let old = listing[at];
    while listing[at] == old {
        listing[at] = match random.below(3) {
            0 | 1 if old.is_ascii_digit() => random.choose(b"0123456789"),
            _ => any_byte(random),
        };
    }
}

// Numbers.

fn lengthen_number(random: &mut Random, listing: &mut Vec<u8>) {
    let digit = |at: usize| listing[at].is_ascii_digit();
    let first = |at: &usize| digit(*at) && (*at == 0 || !digit(*at - 1));
    let numbers: Vec<usize> = (0..listing.len()).filter(first).collect();
    if numbers.is_empty() {
        return;
    }
    let at = random.choose(&numbers);
    let rest = listing[at..].iter();
    let digits = rest.take_while(|byte| byte.is_ascii_digit()).count();
    let most = MOST_DIGITS + random.choose(&[1, 1, 1, 2, 10, 246]);
    let zeros = vec![b'0'; most.saturating_sub(digits)];
    listing.splice(at..at, zeros);
}

// Lines.

fn damage_lines(random: &mut Random, way: Damage, listing: &mut Vec<u8>) {
    let mut all: Vec<Vec<u8>> = lines(listing).map(<[u8]>::to_vec).collect();
    let at = any_line(random, all.len());
    match way {
        Damage::LineLeftOut => {
            all.remove(at);
        }
        Damage::LineDoubled => all.insert(at, all[at].clone()),
        _ => {
            let other = random.below(all.len());
            all.swap(at, other);
        }
    }
    *listing = all.concat();
}

// Any of so many lines, and the last more often than others.
fn any_line(random: &mut Random, count: usize) -> usize {
    match random.below(3) {
        0 => count - 1,
        _ => random.below(count),
    }
}

// Before any byte or, as often, before a line, or just the last newline.
fn cut_at(random: &mut Random, listing: &[u8]) -> usize {
    match random.below(8) {
        0 => listing.len() - 1,
        1..=4 => {
            let count = lines(listing).count();
            let kept = random.below(count);
            lines(listing).take(kept).map(<[u8]>::len).sum()
        }
        _ => random.below(listing.len()),
    }
}

const MORE: [&[u8]; 6] = [b"\n", b"\n\n", b"0", b" ", b"total 0\n", b"\0"];

// More after the end: little, or the listing again from some line on.
fn go_on(random: &mut Random, listing: &mut Vec<u8>) {
    let more = match random.below(3) {
        0 => {
            let passed = any_line(random, lines(listing).count());
            lines(listing).skip(passed).collect::<Vec<_>>().concat()
        }
        _ => random.choose(&MORE).to_vec(),
    };
    listing.extend(more);
}
