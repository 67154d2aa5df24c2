//! The nets whose texts are the longest of all.

use crate::by_hand::{fill, in_format_2, out_to_set, read, readings, stops, OWN};
use crate::net::*;

/// Of format 1 or 2: 16 addresses with every right, 512 instructions of the
/// most characters, all at places of three digits, 64 processes and 256 tuples
/// of four readings of eleven characters.
///
/// A line `A511 = read(..)@self.A511` with four such readings has 71
/// characters, of which a lower name takes one or two away; in format 2 one
/// with an out to all 16 addresses has 105.
pub fn longest_net(format: u8) -> Net {
    let mut net = stops(16, 512);
    for at in 0..ADDRESSES {
        net.each_row(at, |row| *row = Row::ALL);
        let own = Locality(at as u8);
        net.nodes[at].processes = [Process::starting(Place(511), own); SLOTS];
        fill(&mut net, at, &[readings(&[i32::MIN; FIELDS]); TUPLES]);
    }
    if format == ROW_BY_ORIGIN {
        net = in_format_2(net);
    }
    let fields = [TemplateField::Reading(i32::MIN); FIELDS];
    let all: Vec<u8> = (0..16).collect();
    let instruction = match format {
        ROW_BY_ORIGIN => out_to_set(&all, &fields, 511),
        _ => read(OWN, &fields, 511),
    };
    net.code.fill(instruction);
    net
}
