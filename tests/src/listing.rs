//! Checking the old host's listings (document 02, slip 5; slip 8 for the mark
//! of a tuple).

pub mod by_hand;
pub mod generate;

use crate::register::register;
use std::fmt;

pub const LINE_DIFFERS: u8 = 41;
pub const LINES_WANTING: u8 = 42;
pub const LINES_LEFT_OVER: u8 = 43;

/// A number in a listing has no more digits than these, leading zeros among
/// them.
pub const MOST_DIGITS: usize = 10;

/// What the caller calls a listing.
#[derive(Clone, Copy, PartialEq, Eq, Debug)]
pub enum Age {
    /// From before the `total` line, the refusal's bit and the tuple's mark.
    Old,
    /// With all three.
    New,
}

impl Age {
    pub const BOTH: [Age; 2] = [Age::Old, Age::New];

    /// As the program `check_listing` takes it.
    pub fn argument(self) -> &'static str {
        match self {
            Age::Old => "old",
            Age::New => "new",
        }
    }
}

/// Why a listing is not accepted.
#[derive(Clone, Copy, PartialEq, Eq, Debug)]
pub struct Fault {
    pub number: u8,
    /// The line at fault, counted from 1.
    pub line: usize,
}

/// As the program `check_listing` prints it.
impl fmt::Display for Fault {
    fn fmt(&self, formatter: &mut fmt::Formatter) -> fmt::Result {
        write!(formatter, "{} {}", self.number, self.line)
    }
}

/// Whether the lines of a listing carry the words and values of our register
/// in order, or the first fault.
pub fn check_listing(image: &[u8], picks: &[u8], listing: &[u8], age: Age) -> Result<(), Fault> {
    compare(&wanted_lines(image, picks, age), listing)
}

/// What the program `check_listing` prints.
pub fn printed(checked: Result<(), Fault>) -> String {
    match checked {
        Ok(()) => "0\n".to_string(),
        Err(fault) => format!("{fault}\n"),
    }
}

/// The lines that a listing of this age must have, without padding and
/// newlines. There is at least one.
pub fn wanted_lines(image: &[u8], picks: &[u8], age: Age) -> Vec<String> {
    let register = register(image, picks);
    let lines = register.lines();
    match age {
        Age::Old => lines.filter_map(old_line).map(str::to_string).collect(),
        Age::New => lines.map(str::to_string).collect(),
    }
}

// A line of the register as old listings have it, if they have it.
fn old_line(line: &str) -> Option<&str> {
    match line.split(' ').next() {
        Some("total") => None,
        Some("refused") => Some(before(line, " at ")),
        Some("tuple") => Some(before(line, " from ")),
        _ => Some(line),
    }
}

fn before<'a>(line: &'a str, end: &str) -> &'a str {
    line.split_once(end).map_or(line, |(before, _)| before)
}

// From the first line on; the first fault met.
fn compare(wanted: &[String], listing: &[u8]) -> Result<(), Fault> {
    let mut found = lines(listing);
    for (index, wanted) in wanted.iter().enumerate() {
        let line = index + 1;
        match found.next() {
            None => return fault(LINES_WANTING, line),
            Some(found) if !carries_line(found, wanted) => return fault(LINE_DIFFERS, line),
            Some(_) => {}
        }
    }
    match found.next() {
        None => Ok(()),
        Some(_) => fault(LINES_LEFT_OVER, wanted.len() + 1),
    }
}

fn fault(number: u8, line: usize) -> Result<(), Fault> {
    Err(Fault { number, line })
}

/// The lines of a listing, each with its newline. Bytes after the last
/// newline are a line without one.
pub fn lines(listing: &[u8]) -> impl Iterator<Item = &[u8]> {
    listing.split_inclusive(|byte| *byte == b'\n')
}

// Whether a line ends with its newline and has the wanted words, a single
// space between each two and nothing else.
fn carries_line(found: &[u8], wanted: &str) -> bool {
    let Some(found) = found.strip_suffix(b"\n") else {
        return false;
    };
    let mut words = found.split(|byte| *byte == b' ');
    let carried = |wanted: &str| {
        let found = words.next();
        found.is_some_and(|found| carries_word(found, wanted.as_bytes()))
    };
    wanted.split(' ').all(carried) && words.next().is_none()
}

// Whether a word is the wanted one, padded if it is a number.
fn carries_word(found: &[u8], wanted: &[u8]) -> bool {
    match sign_and_digits(wanted) {
        None => found == wanted,
        Some((sign, digits)) => {
            let unsigned = found.strip_prefix(sign);
            unsigned.is_some_and(|found| carries_digits(found, digits))
        }
    }
}

// The wanted digits, and only zeros before them.
fn carries_digits(found: &[u8], wanted: &[u8]) -> bool {
    let padding = found.strip_suffix(wanted);
    let zeros = |padding: &[u8]| padding.iter().all(|byte| *byte == b'0');
    found.len() <= MOST_DIGITS && padding.is_some_and(zeros)
}

// A number of the register: what stands before its digits (a minus, an @ or
// nothing), and the digits. No other word of the register has a digit.
fn sign_and_digits(word: &[u8]) -> Option<(&[u8], &[u8])> {
    let first = word.iter().position(u8::is_ascii_digit)?;
    Some(word.split_at(first))
}

#[cfg(test)]
mod tests;
