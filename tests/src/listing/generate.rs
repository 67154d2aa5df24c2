//! Random listings for tests: padded as the old program pads, and damaged.
//! The same seed gives the same.

mod damage;
mod tally;

pub use damage::{damage, Damage};
pub use tally::Tally;

use super::{sign_and_digits, wanted_lines, Age, MOST_DIGITS};
use crate::by_hand::fill;
use crate::generate::{damaged_image, picks, valid_image, valid_net};
use crate::image::{read_image, write_image};
use crate::random::Random;

/// An image and its picks, and listings to be checked against them.
pub struct Case {
    pub image: Vec<u8>,
    pub picks: Vec<u8>,
    pub listings: Vec<Listing>,
}

/// A listing, and what the caller calls it.
pub struct Listing {
    pub called: Age,
    pub bytes: Vec<u8>,
}

/// The listings that agree on which program and model are compared: 1,400.
pub fn agreeing_trials() -> Vec<Case> {
    trials(0x5EED_0005, 700, agreeing)
}

/// Those that are called what they are not: 400.
pub fn misnamed_trials() -> Vec<Case> {
    trials(0x5EED_0105, 200, misnamed)
}

/// Those that are damaged: 4,000.
pub fn damaged_trials() -> Vec<Case> {
    trials(0x5EED_0205, 500, damaged)
}

fn trials(seed: u64, count: usize, make: fn(&mut Random) -> Case) -> Vec<Case> {
    let mut random = Random::new(seed);
    (0..count).map(|_| make(&mut random)).collect()
}

/// A run's listings in both ages, padded and not damaged.
pub fn agreeing(random: &mut Random) -> Case {
    let ages = Age::BOTH.map(|age| (age, age));
    of_a_run(random, &ages, |_, _| {})
}

/// A run's listings in both ages, each called the other.
pub fn misnamed(random: &mut Random) -> Case {
    let ages = [(Age::Old, Age::New), (Age::New, Age::Old)];
    of_a_run(random, &ages, |_, _| {})
}

/// Eight listings of a run, four in each age, padded and then damaged in one
/// or two ways; now and then one still agrees.
pub fn damaged(random: &mut Random) -> Case {
    let ages = Age::BOTH.map(|age| [(age, age); 4]).concat();
    of_a_run(random, &ages, |random, bytes| {
        let times = random.choose(&[1, 1, 1, 1, 2]);
        for _ in 0..times {
            let way = random.choose(&Damage::ALL);
            damage(random, way, bytes);
        }
    })
}

// For each two ages a listing made in the first and called the second.
fn of_a_run(
    random: &mut Random,
    ages: &[(Age, Age)],
    change: impl Fn(&mut Random, &mut Vec<u8>),
) -> Case {
    let (image, picks) = run(random);
    let mut listing = |(made, called): &(Age, Age)| {
        let mut bytes = padded(random, &wanted_lines(&image, &picks, *made));
        change(random, &mut bytes);
        let called = *called;
        Listing { called, bytes }
    };
    let listings = ages.iter().map(&mut listing).collect();
    Case {
        image,
        picks,
        listings,
    }
}

// An image, mostly accepted, and picks that then mostly perform.
fn run(random: &mut Random) -> (Vec<u8>, Vec<u8>) {
    let image = match random.below(8) {
        0 => damaged_image(random),
        1 | 2 => image_without_tuples(random),
        _ => valid_image(random),
    };
    let made = match read_image(&image) {
        Ok(net) => {
            let most = random.choose(&[0, 1, 5, 20, 40, 200]);
            let count = random.between(0, most);
            picks(random, &net, count)
        }
        Err(_) => vec![0; random.below(5)],
    };
    (image, made)
}

fn image_without_tuples(random: &mut Random) -> Vec<u8> {
    let mut net = valid_net(random);
    for at in 0..usize::from(net.address_count) {
        fill(&mut net, at, &[]);
    }
    write_image(&net)
}

// Padding.

/// These lines with each number padded at random.
pub fn padded(random: &mut Random, lines: &[String]) -> Vec<u8> {
    let one_width = random.between(1, MOST_DIGITS);
    match random.below(4) {
        0 => with_widths(lines, || one_width),
        1 => with_widths(lines, || random.choose(&[1, 1, 1, MOST_DIGITS])),
        _ => with_widths(lines, || random.between(1, MOST_DIGITS)),
    }
}

/// These lines with each number padded to the most digits it can have.
pub fn fully_padded(lines: &[String]) -> Vec<u8> {
    with_widths(lines, || MOST_DIGITS)
}

// These lines with each number padded to the next width, if it has fewer
// digits.
fn with_widths(lines: &[String], mut width: impl FnMut() -> usize) -> Vec<u8> {
    let mut line = |line: &String| {
        let words = line.split(' ').map(|word| padded_word(word, &mut width));
        words.collect::<Vec<_>>().join(" ") + "\n"
    };
    lines.iter().map(&mut line).collect::<String>().into_bytes()
}

fn padded_word(word: &str, mut width: impl FnMut() -> usize) -> String {
    let Some((sign, _)) = sign_and_digits(word.as_bytes()) else {
        return word.to_string();
    };
    let ((sign, digits), width) = (word.split_at(sign.len()), width());
    format!("{sign}{digits:0>width$}")
}

#[cfg(test)]
mod tests;
