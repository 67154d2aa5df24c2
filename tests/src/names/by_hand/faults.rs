//! Lists that are refused, and with which number.

use super::{list, Stated};

/// Entries at fault, alone in a list or at its end, and their numbers. Where
/// there is more than one fault the first met counts; within one entry 51
/// before 52 before 53.
const FAULTS: [(&[u8], u8); 24] = [
    // A length of 0, at the end and before more.
    (&[0x00], 51),
    (&[0xF0], 51),
    (&[0x50, b'a'], 51),
    (&[0x50, 0x00], 51),
    (&[0x50, 0xFF], 51),
    // An entry cut short, from its first byte on.
    (&[0x01], 52),
    (&[0x0F], 52),
    (&[0x02, b'a'], 52),
    (&[0xFF, b'a', b'b', b'c'], 52),
    (b"\x0F14 bytes, cut.", 52),
    // Cut short, and a byte out of range before that.
    (&[0x02, 0x00], 52),
    (&[0x03, b'a', b' '], 52),
    (&[0x0F, 0x7F, 0x80, 0xFF], 52),
    // A byte out of range: the nearest and the farthest, in each place.
    (&[0x01, 32], 53),
    (&[0x01, 127], 53),
    (&[0x01, 0], 53),
    (&[0x01, 255], 53),
    (&[0x03, b'\n', b'a', b'a'], 53),
    (&[0x03, b'a', b' ', b'a'], 53),
    (&[0x03, b'a', b'a', 0x80], 53),
    // A later entry has another fault.
    (&[0x01, b' ', 0x00], 53),
    (&[0x01, b' ', 0x02, b'a'], 53),
    (&[0x00, 0x01, b' '], 51),
    (&[0x01, b'a', 0x00, 0x01, b' '], 51),
];

pub fn all() -> Vec<Stated> {
    let mut all = Vec::new();
    for (fault, number) in FAULTS {
        for before in [list(&[]), list(&[(0, "good"), (1, "also")])] {
            let faulty = [&before[..], fault].concat();
            let good = list(&[(0, "name"), (2, "other")]);
            for (site, office) in [(&faulty, &good), (&good, &faulty)] {
                all.push(refused(site, office, number));
            }
            all.push(refused(&faulty, &[], number));
            all.push(refused(&[], &faulty, number));
        }
    }
    all.extend(both());
    all
}

fn refused(site: &[u8], office: &[u8], number: u8) -> Stated {
    Stated {
        site: site.to_vec(),
        office: office.to_vec(),
        gives: Err(number),
    }
}

// A fault in each list: the site's counts, wherever it stands.
fn both() -> Vec<Stated> {
    let one_of_each: [&[u8]; 3] = [&[0x00], &[0x02, b'a'], &[0x01, b' ']];
    let faults = one_of_each.into_iter().zip([51, 52, 53]);
    let late = list(&[(5, "long-before-it"); 100]);
    let mut all = Vec::new();
    for (site, number) in faults {
        let site = [&late[..], site].concat();
        all.extend(one_of_each.map(|office| refused(&site, office, number)));
    }
    all
}
