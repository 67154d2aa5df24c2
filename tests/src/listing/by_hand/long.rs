//! The longest listing, and longer ones.

use super::Stated;
use crate::by_hand::{fill, longest, readings};
use crate::image::write_image;
use crate::listing::generate::{fully_padded, Case, Listing};
use crate::listing::{lines, wanted_lines, Age};
use crate::net::{ADDRESSES, TUPLES};
use crate::register::MOST_PICKS;

/// The bytes of the longest listing, line by line: the word, a space and ten
/// digits for each number, the minuses, `from` and the newline.
pub const LONGEST: usize = (3 + 2 * 11 + 1)
    + MOST_PICKS * (4 + 4 * 11 + 1)
    + ADDRESSES * (4 + 3 * 11 + 1)
    + ADDRESSES * TUPLES * (5 + 11 + 4 * 12 + 5 + 11 + 1)
    + (5 + 11 + 1);

/// The lines of the longest listing.
pub const LINES: usize = 1 + MOST_PICKS + ADDRESSES * (1 + TUPLES) + 1;

/// Everything full, readings below nought, and picks that change nothing.
fn run() -> (Vec<u8>, Vec<u8>) {
    let mut net = longest();
    for at in 0..ADDRESSES {
        fill(&mut net, at, &[readings(&[-1; 4]); TUPLES]);
    }
    (write_image(&net), vec![0x03; MOST_PICKS])
}

/// In each age the longest listing of all, others that are not cut where a
/// shorter one ends, and some that are longer than any that agrees.
pub fn long() -> Stated {
    let (image, picks) = run();
    let of_age = |age: Age| {
        let rows = rows(&wanted_lines(&image, &picks, age));
        rows.into_iter().map(move |(bytes, prints)| {
            let called = age;
            (Listing { called, bytes }, prints)
        })
    };
    let (listings, prints) = Age::BOTH.into_iter().flat_map(of_age).unzip();
    let case = Case {
        image,
        picks,
        listings,
    };
    Stated { case, prints }
}

// Listings that are as long as these lines can be or longer, and what is
// printed of each.
fn rows(wanted: &[String]) -> Vec<(Vec<u8>, String)> {
    let full = fully_padded(wanted);
    let with = |end: &[u8]| [&full[..], end].concat();
    let without = |bytes: usize| full[..full.len() - bytes].to_vec();
    let last = lines(&full).last().map_or(0, <[u8]>::len);
    let count = wanted.len();
    let (agrees, differs) = ("0".to_string(), format!("41 {count}"));
    let (wanting, left_over) = (format!("42 {count}"), format!("43 {}", count + 1));
    let endless = [without(1), vec![b'0'; 5_000_000]].concat();
    vec![
        (full.clone(), agrees),
        (with(b"0"), left_over.clone()),
        (with(b"\n"), left_over.clone()),
        (with(&full), left_over.clone()),
        (with(&vec![b'\n'; 10_000_000]), left_over),
        (without(1), differs.clone()),
        (without(last), wanting),
        (endless, differs),
        (vec![b'0'; 10_000_000], "41 1".to_string()),
    ]
}
