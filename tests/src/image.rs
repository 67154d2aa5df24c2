//! The image of a net, read and written (document 01, "The image" and
//! "Numbers for an image"; document 02, slip 2: where an image went bad;
//! slip 10: format 2, with a row for each origin; slip 11: its outs to a set).

mod fresh;
mod reader;
mod writer;

use crate::bits::FieldAt;
use crate::net::*;
use crate::sound::keeps_within;
pub use fresh::fresh;
use reader::Start;
use std::fmt;

pub const WRONG_FORMAT: u8 = 21;
pub const COUNT_OUT_OF_RANGE: u8 = 22;
pub const ADDRESS_OUT_OF_RANGE: u8 = 23;
pub const PLACE_OUT_OF_RANGE: u8 = 24;
pub const UNKNOWN_KIND: u8 = 25;
pub const FORMAL_IN_OUT: u8 = 26;
pub const FORMAL_TWICE: u8 = 27;
pub const BITS_END: u8 = 28;
pub const MORE_AFTER_CODE: u8 = 29;
pub const BEYOND_ROW: u8 = 30;
/// A net that no accepted image gives, and that is not written as one.
pub const NOT_FRESH: u8 = 36;

/// Why an image is refused.
#[derive(Clone, Copy, PartialEq, Eq, Debug)]
pub struct Fault {
    /// The number of the first fault.
    pub number: u8,
    /// The bit at which the field at fault begins, counted from 0.
    pub bit: usize,
}

/// As a register shows it after `refused`.
impl fmt::Display for Fault {
    fn fmt(&self, formatter: &mut fmt::Formatter) -> fmt::Result {
        write!(formatter, "{} at {}", self.number, self.bit)
    }
}

/// The net an image writes down, or its first fault.
pub fn read_image(bytes: &[u8]) -> Result<Net, Fault> {
    let (net, starts) = reader::read(bytes)?;
    let beyond = |start: &&Start| !start_keeps_within(&net, start.address, start.place);
    match starts.iter().find(beyond) {
        None => Ok(net),
        Some(start) => Err(Fault {
            number: BEYOND_ROW,
            bit: start.bit,
        }),
    }
}

/// The number and the bit that an image is refused with, both 0 where it is
/// accepted.
pub fn answer(bytes: &[u8]) -> (u8, usize) {
    match read_image(bytes) {
        Ok(_) => (0, 0),
        Err(fault) => (fault.number, fault.bit),
    }
}

/// The net of an image without the faults 21 to 29; rows are not judged.
pub fn read_layout(bytes: &[u8]) -> Result<Net, Fault> {
    Ok(reader::read(bytes)?.0)
}

/// Whether each busy process keeps within its node's row for the node itself.
pub fn starts_keep_within(net: &Net) -> bool {
    (0..net.address_count).all(|address| {
        let processes = net.nodes[address as usize].processes.iter();
        let mut busy = processes.filter(|process| process.busy);
        busy.all(|process| start_keeps_within(net, Locality(address), process.at))
    })
}

// Whether code started at a place keeps within the row of its address for
// that address.
fn start_keeps_within(net: &Net, address: Locality, place: Place) -> bool {
    let row = net.nodes[address.0 as usize].row_for(address);
    keeps_within(&net.code[..], net.code_length, place, address, row)
}

/// The accepted image that gives a net, or 36 where there is none.
pub fn image_of(net: &Net) -> Result<Vec<u8>, u8> {
    if fresh(net) {
        Ok(write_image(net))
    } else {
        Err(NOT_FRESH)
    }
}

/// The image of a net with counts in range. Nothing is judged; each
/// number is cut to the width of its field. In format 2 a node has its rows
/// for the origins in use, otherwise its row for itself.
pub fn write_image(net: &Net) -> Vec<u8> {
    write_with_fields(net).0
}

/// The image of a net, and where each of its fields lies.
pub fn write_with_fields(net: &Net) -> (Vec<u8>, Vec<FieldAt>) {
    writer::write(net)
}

#[cfg(test)]
mod tests;
