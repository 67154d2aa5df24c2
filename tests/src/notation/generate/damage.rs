//! Damaged texts: faults put into the tree, and damage to the text itself.

use super::super::print::text;
use super::faults::put_fault;
use super::{source_of, valid_text_of};
use crate::net::{FORMATS, SINGLE_ROW};
use crate::random::Random;

/// A text of either format with a fault put into its tree, mostly at fault in
/// just that.
pub fn faulty_text(random: &mut Random) -> Vec<u8> {
    let format = random.choose(&FORMATS);
    faulty_text_of(random, format)
}

/// The same of one format.
pub fn faulty_text_of(random: &mut Random, format: u8) -> Vec<u8> {
    let mut source = source_of(random, format);
    let times = random.choose(&[1, 1, 1, 2, 3]);
    for _ in 0..times {
        put_fault(random, &mut source);
    }
    text(&source)
}

/// A text one byte from a valid one of either format: changed, removed or
/// inserted.
pub fn one_byte_off(random: &mut Random) -> Vec<u8> {
    let format = random.choose(&FORMATS);
    one_byte_off_of(random, format)
}

/// The same of one format.
pub fn one_byte_off_of(random: &mut Random, format: u8) -> Vec<u8> {
    let mut text = valid_text_of(random, format);
    damage_byte(random, &mut text);
    text
}

/// A text of either format damaged in one or more ways; now and then it is
/// still accepted.
pub fn damaged_text(random: &mut Random) -> Vec<u8> {
    let format = random.choose(&FORMATS);
    damaged_text_of(random, format)
}

/// The same of one format.
pub fn damaged_text_of(random: &mut Random, format: u8) -> Vec<u8> {
    let mut text = match random.below(10) {
        0..=3 => faulty_text_of(random, format),
        4 => soup(random, format),
        _ => valid_text_of(random, format),
    };
    let times = random.choose(&[1, 1, 1, 2, 3]);
    for _ in 0..times {
        damage_part(random, &mut text);
    }
    text
}

// Rows by origin are most of a short text: what stands after them is damaged
// as often as the whole.
fn damage_part(random: &mut Random, text: &mut Vec<u8>) {
    let lines = text.split_inclusive(|byte| *byte == b'\n');
    let is_row = |line: &&[u8]| line.windows(6).any(|word| word == b" from ");
    let rows: usize = lines.take_while(is_row).map(<[u8]>::len).sum();
    if rows == 0 || random.percent(50) {
        return damage(random, text);
    }
    let mut after = text.split_off(rows);
    damage(random, &mut after);
    text.extend(after);
}

fn damage(random: &mut Random, text: &mut Vec<u8>) {
    match random.below(10) {
        0 | 1 => damage_byte(random, text),
        2 | 3 => damage_line(random, text),
        4 => text.truncate(random.below(text.len() + 1)),
        5 | 6 => damage_number(random, text),
        7 => take_rights(random, text),
        _ => insert_word(random, text),
    }
}

// Bytes.

const CHARACTERS: &[u8] = b"0123456789 \n:,.|()<>{}=@!-Aaxuvnhsireoutwlcdfm";

// Characters that stand for one another without leaving the notation.
const ALIKE: [&[u8]; 5] = [b"0123456789", b"xuv", b"iroe", b"A0", b",."];

// Mostly a character of the notation.
fn any_byte(random: &mut Random) -> u8 {
    match random.below(10) {
        0 => random.byte(),
        _ => random.choose(CHARACTERS),
    }
}

// Mostly one like the byte that it is put in the place of.
fn other_byte(random: &mut Random, byte: u8) -> u8 {
    let alike = ALIKE.iter().find(|alike| alike.contains(&byte));
    match alike {
        Some(alike) if random.percent(70) => random.choose(alike),
        _ => any_byte(random),
    }
}

/// Changes, removes or inserts one byte.
pub fn damage_byte(random: &mut Random, text: &mut Vec<u8>) {
    let at = random.below(text.len() + 1);
    match random.below(4) {
        0 => text.insert(at, any_byte(random)),
        _ if at == text.len() => text.push(any_byte(random)),
        1 => {
            text.remove(at);
        }
        _ => text[at] = other_byte(random, text[at]),
    }
}

// Lines: doubled, removed, or moved.
fn damage_line(random: &mut Random, text: &mut Vec<u8>) {
    let ended = text.split_inclusive(|byte| *byte == b'\n');
    let mut lines: Vec<Vec<u8>> = ended.map(<[u8]>::to_vec).collect();
    if lines.is_empty() {
        return;
    }
    let at = random.below(lines.len());
    match random.below(3) {
        0 => lines.insert(at, lines[at].clone()),
        1 => {
            lines.remove(at);
        }
        _ => {
            let line = lines.remove(at);
            lines.insert(random.below(lines.len() + 1), line);
        }
    }
    *text = lines.concat();
}

// Takes all rights from one row.
fn take_rights(random: &mut Random, text: &mut Vec<u8>) {
    let is_row = |at: &usize| text[*at..].starts_with(b" has");
    let rows: Vec<usize> = (0..text.len()).filter(is_row).collect();
    if rows.is_empty() {
        return;
    }
    let from = random.choose(&rows) + " has".len();
    let rest = text[from..].iter().position(|byte| *byte == b'\n');
    let to = rest.map_or(text.len(), |length| from + length);
    text.drain(from..to);
}

// Numbers at the edges of what is in range, and what is no number.
const NUMBERS: [&[&str]; 5] = [
    &["0", "1", "2", "3", "4", "7", "8", "15", "16", "17"],
    &["00", "01", "-0", "-1", "511", "512", "", "x"],
    &["2147483647", "2147483648"],
    &["-2147483648", "-2147483649"],
    &["99999999999", "18446744073709551616"],
];

// Puts another number in the place of one.
fn damage_number(random: &mut Random, text: &mut Vec<u8>) {
    let digit = |at: usize| text[at].is_ascii_digit();
    let first = |at: &usize| digit(*at) && (*at == 0 || !digit(*at - 1));
    let numbers: Vec<usize> = (0..text.len()).filter(first).collect();
    if numbers.is_empty() {
        return;
    }
    let from = random.choose(&numbers);
    let length = text[from..]
        .iter()
        .take_while(|byte| byte.is_ascii_digit())
        .count();
    let number = random.choose(&NUMBERS.concat()).bytes();
    text.splice(from..from + length, number);
}

// Words of the notation.
const WORDS: [&[&str]; 10] = [
    &["nil", "(", ")", "(nil | nil)", " | ", ".", "\n"],
    &["out(", "in(", "read(", "eval(", "newloc(u0)"],
    &["out(5)@self.", "in(!x0,!u0)@0."],
    &["eval(nil)@self.", "newloc(u0)."],
    &["!x0", "!u1", ",!x0", ",5", ",@1", "@1", "v0", "self"],
    &["A0", "A1", "A511", "A0 = ", "0 :: ", "1 :: "],
    &["A0 = nil\n", "0 :: nil\n", "0 :: <5>\n", "1 has\n"],
    &["0 has", " has", " n", " 0:i"],
    &[
        "0 from 0 has\n",
        "1 from 0",
        " from 1",
        " from",
        "0 from 16",
    ],
    &["@{0}", "@{}", "{", "}", "{0,1}", "@{1,0}", "out(5)@{0,1}."],
];

// Inserts a word of the notation, or puts it in the place of some bytes.
fn insert_word(random: &mut Random, text: &mut Vec<u8>) {
    let at = random.below(text.len() + 1);
    let gone = random.choose(&[0, 0, 1, 3, 6]).min(text.len() - at);
    let word = random.choose(&WORDS.concat()).bytes();
    text.splice(at..at + gone, word);
}

// Words one after another, at times after a row.
fn soup(random: &mut Random, format: u8) -> Vec<u8> {
    let mut text = match random.below(3) {
        0 => String::new(),
        _ if format == SINGLE_ROW => "0 has n 0:iroe\n".to_string(),
        _ => "0 from 0 has n 0:iroe\n".to_string(),
    };
    for _ in 0..random.below(20) {
        text += random.choose(&WORDS.concat());
    }
    text.into_bytes()
}
