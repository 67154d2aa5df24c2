//! A net as a text (document 02, slip 13): its rows, one definition for each
//! instruction, then address by address its processes and its tuples.

use super::from_net::from_net;
use super::print::text;
use crate::image::{fresh, read_image, NOT_FRESH};
use crate::net::Net;

/// The text of a net that an accepted image gives, or 36 where none does.
pub fn text_of(net: &Net) -> Result<Vec<u8>, u8> {
    if fresh(net) {
        Ok(text(&from_net(net)))
    } else {
        Err(NOT_FRESH)
    }
}

/// What the program `unpack` prints of an image: its net as a text, or what it
/// is refused with.
pub fn unpacked(image: &[u8]) -> Vec<u8> {
    match read_image(image) {
        Ok(net) => text(&from_net(&net)),
        Err(fault) => format!("refused {fault}\n").into_bytes(),
    }
}

#[cfg(test)]
mod tests;
