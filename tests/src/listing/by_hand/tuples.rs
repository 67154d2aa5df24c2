//! Lines of a tuple: readings and addresses with padding.

use super::{stated_after, Stated};
use crate::by_hand::{fill, stops};
use crate::image::write_image;
use crate::net::*;

/// A tuple's fields, and what may stand for them in its line; then what may
/// not.
type Table = (
    &'static [Field],
    &'static [&'static str],
    &'static [&'static str],
);

/// The minus stands before the padding.
const NEGATIVE: Table = (
    &[Field::Reading(-5)],
    &["-5", "-05", "-0005", "-0000000005"],
    &[
        "-00000000005",
        "0-5",
        "00-05",
        "--5",
        "- 5",
        "-",
        "-0",
        "-50",
        "5",
        "05",
        "@5",
        "-@5",
        "-5-",
        "-4294967301",
        "4294967291",
    ],
);

/// The @ stands before the padding.
const ADDRESS: Table = (
    &[Field::Address(Locality(1))],
    &["@1", "@01", "@0000000001"],
    &[
        "@00000000001",
        "0@1",
        "@@1",
        "@ 1",
        "@-1",
        "@",
        "@0",
        "@10",
        "@17",
        "@257",
        "@4294967297",
        "1",
        "01",
        "-1",
    ],
);

/// Ten digits already, so that no padding fits.
const LEAST: Table = (
    &[Field::Reading(i32::MIN)],
    &["-2147483648"],
    &[
        "-02147483648",
        "2147483648",
        "02147483648",
        "-2147483647",
        "-214748364",
        "-2147483648 ",
    ],
);

const MOST: Table = (
    &[Field::Reading(i32::MAX)],
    &["2147483647"],
    &["02147483647", "-2147483647", "2147483646", "214748364"],
);

const NINE_DIGITS: Table = (
    &[Field::Reading(214_748_364)],
    &["214748364", "0214748364"],
    &["00214748364", "2147483640", "4509715660"],
);

/// Nought has one digit of its own, and no minus.
const NOUGHTS: Table = (
    &[Field::Reading(0), Field::Address(Locality(0))],
    &["0 @0", "00 @000", "0000000000 @0000000000"],
    &[
        "00000000000 @0",
        "0 @00000000000",
        " @0",
        "0 @",
        "-0 @0",
        "+0 @0",
        "@0 0",
        "0@0",
        "4294967296 @0",
        "0 @16",
    ],
);

/// Zeros after or among the digits are of the value.
const HUNDREDS: Table = (
    &[Field::Reading(100), Field::Reading(-20)],
    &["100 -20", "000100 -0020", "0000000100 -0000000020"],
    &[
        "10 -20",
        "1000 -20",
        "0100 -2",
        "1 -20",
        "101 -20",
        "0x100 -20",
        "100. -20",
        "1,00 -20",
        "+100 -20",
        "01 00 -20",
    ],
);

const FOUR_FIELDS: Table = (
    &[
        Field::Reading(-1),
        Field::Address(Locality(1)),
        Field::Reading(7),
        Field::Address(Locality(0)),
    ],
    &[
        "-1 @1 7 @0",
        "-0000000001 @0000000001 0000000007 @0000000000",
    ],
    &[
        "-1 @1 7",
        "-1 @1 7 @0 0",
        "@1 -1 7 @0",
        "-1 @1 7 @0 @0",
        "-1@1 7 @0",
        "-1 @1 7 0",
        "-1 1 7 @0",
    ],
);

pub fn all() -> Vec<Stated> {
    let tables = [
        NEGATIVE,
        ADDRESS,
        LEAST,
        MOST,
        NINE_DIGITS,
        NOUGHTS,
        HUNDREDS,
        FOUR_FIELDS,
    ];
    tables.map(of_table).into()
}

// The tuple stands at the second of two addresses; its line is the fourth.
fn of_table((fields, right, wrong): Table) -> Stated {
    let mut net = stops(2, 1);
    fill(&mut net, 1, &[Tuple::of(fields)]);
    let head = "net 2 1\nnode 0 0 0\nnode 1 1 0\ntuple 1 ";
    let right = right.iter().map(|text| (text, "0"));
    let wrong = wrong.iter().map(|text| (text, "41 4"));
    let lines = right.chain(wrong).map(|(text, prints)| {
        let (old, new) = (format!("{text}\n"), format!("{text} from 1\ntotal 1\n"));
        [(old, prints, "41 4"), (new, "41 4", prints)]
    });
    let lines: Vec<_> = lines.flatten().collect();
    let rows = lines.iter().map(|(text, old, new)| (&text[..], *old, *new));
    stated_after(head, &write_image(&net), &[], &rows.collect::<Vec<_>>())
}
