//! Nets in the planners' notation (document 01, "The planners' notation";
//! document 02, slips 3 and 13; the order of faults as issue 12 settles it, and
//! rows by origin and sets as issue 25 does).
//!
//! The text is read once, from its first character to its last. Each fault
//! is judged where it stands, so the first one met is the first in the text.
//! What only the whole text shows comes after it: 33, then 22 for the code,
//! then 30.

mod cursor;
mod draft;
mod lines;
mod names;
mod processes;
mod rows;
mod templates;
mod writer;

// For tests: texts by hand, those of the page and the longest; texts as trees,
// printed and compiled; random ones.
pub mod compile;
pub mod edges;
pub mod from_net;
pub mod generate;
pub mod longest;
pub mod page;
pub mod print;
pub mod source;

pub use writer::{text_of, unpacked};

use crate::image::{starts_keep_within, BEYOND_ROW};
use crate::net::Net;
use cursor::Cursor;
use draft::Draft;

/// Text outside the notation, or a number out of its range.
pub const OUTSIDE: u8 = 31;
/// Nested deeper than 32.
pub const TOO_DEEP: u8 = 32;
/// A name undefined, defined twice, or bare names in a circle.
pub const NAME: u8 = 33;

/// Most brackets and evals that stand open at once.
pub const DEPTH: usize = 32;
/// Names run from A0 to the one below this.
pub const NAMES: usize = 512;

/// The net that a text writes down, or the number of its first fault.
pub fn read_text(text: &[u8]) -> Result<Net, u8> {
    let mut cursor = Cursor::new(text);
    let rows = rows::rows(&mut cursor)?;
    let mut draft = Draft::new(rows);
    lines::lines(&mut cursor, &mut draft)?;
    let net = draft.net()?;
    if starts_keep_within(&net) {
        Ok(net)
    } else {
        Err(BEYOND_ROW)
    }
}

#[cfg(test)]
mod properties;
#[cfg(test)]
mod tests;
