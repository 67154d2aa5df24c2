//! Lists about the border of what the programs read of them: 65,536 bytes.

use super::{list, Stated};
use crate::names::MOST_BYTES;

/// A list of so many bytes, 3 or more, of names of address 9.
pub fn filling(bytes: usize) -> Vec<u8> {
    let mut all = Vec::with_capacity(bytes);
    while all.len() < bytes {
        let left = bytes - all.len();
        // No single byte is left over.
        let name = match left {
            0..=16 => &"filling-filling"[..left - 1],
            17 => "filling",
            _ => "filling-filling",
        };
        all.extend(list(&[(9, name)]));
    }
    assert_eq!(all.len(), bytes);
    all
}

/// So many bytes before the border, these bytes, and what a list that ends
/// with them gives.
type Row = (
    usize,
    &'static [u8],
    Result<&'static [(u8, &'static str)], u8>,
);

const ROWS: [Row; 14] = [
    // To the border and not across it.
    (4, b"\x03abc", Ok(&[(0, "abc")])),
    (4, b"\x03abc\x11d", Ok(&[(0, "abc")])),
    // What stands after the border is not read.
    (0, b"\x03abc", Ok(&[])),
    (4, b"\x03abc\x00", Ok(&[(0, "abc")])),
    (4, b"\x03abc\x0F", Ok(&[(0, "abc")])),
    (4, b"\x03abc\x01 ", Ok(&[(0, "abc")])),
    // Across the border: cut short, by one byte or by all of the name.
    (3, b"\x03abc", Err(52)),
    (2, b"\x03abc", Err(52)),
    (1, b"\x03abc", Err(52)),
    // A byte out of range before the border or after it changes nothing.
    (2, b"\x03 bc", Err(52)),
    (2, b"\x03a c", Err(52)),
    // The last byte read has a length of 0.
    (1, b"\x00abc", Err(51)),
    // Faults before the border.
    (4, b"\x03ab ", Err(53)),
    (5, b"\x03ab \x03abc", Err(53)),
];

pub fn all() -> Vec<Stated> {
    let mut all = Vec::new();
    for (before, bytes, gives) in ROWS {
        let long = [&filling(MOST_BYTES - before)[..], bytes].concat();
        let gives = gives.map(<[(u8, &str)]>::to_vec);
        let with_filling = gives.map(|names| {
            let filled = [(9, "filling-filling")];
            [&filled[..], &names].concat()
        });
        for office_is_long in [false, true] {
            let (mut site, mut office) = (long.clone(), Vec::new());
            if office_is_long {
                std::mem::swap(&mut site, &mut office);
            }
            let gives = with_filling.clone();
            all.push(Stated {
                site,
                office,
                gives,
            });
        }
    }
    all
}
