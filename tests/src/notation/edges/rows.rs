//! Point 1: the rows.

use super::{rows, texts, Edge};

pub fn edges() -> Vec<Edge> {
    [
        texts(&FORM),
        texts(&NUMBERS),
        texts(&RIGHTS),
        texts(&WITHOUT_A_ROW),
        seventeen(),
    ]
    .concat()
}

const FORM: [(&str, u8); 19] = [
    ("", 31),
    ("\n", 31),
    ("A0 = nil\n", 31),
    ("0 :: nil\n", 31),
    ("\n0 has\nA0 = nil\n", 31),
    ("0 has\nA0 = nil\n", 0),
    ("0 has n\nA0 = nil\n", 0),
    ("0 has", 31),
    ("0 has ", 31),
    ("0 has \nA0 = nil\n", 31),
    ("0 hasn\nA0 = nil\n", 31),
    ("0 has n \nA0 = nil\n", 31),
    ("0 has  n\nA0 = nil\n", 31),
    ("0 has n n\nA0 = nil\n", 31),
    ("0 has N\nA0 = nil\n", 31),
    (" 0 has\nA0 = nil\n", 31),
    ("0  has\nA0 = nil\n", 31),
    ("0 has\r\nA0 = nil\n", 31),
    ("0 Has\nA0 = nil\n", 31),
];

const NUMBERS: [(&str, u8); 9] = [
    ("0 has\n1 has\nA0 = nil\n", 0),
    ("1 has\nA0 = nil\n", 31),
    ("0 has\n0 has\nA0 = nil\n", 31),
    ("0 has\n2 has\nA0 = nil\n", 31),
    ("00 has\nA0 = nil\n", 31),
    ("0 has\n01 has\nA0 = nil\n", 31),
    ("-0 has\nA0 = nil\n", 31),
    ("16 has\nA0 = nil\n", 31),
    ("4294967296 has\nA0 = nil\n", 31),
];

const RIGHTS: [(&str, u8); 22] = [
    ("0 has n 0:io 1:r\n1 has\nA0 = nil\n", 0),
    ("0 has 0:iroe\nA0 = nil\n", 0),
    ("0 has 0:e\nA0 = nil\n", 0),
    ("0 has 1:i\n1 has 0:r 1:e\nA0 = nil\n", 0),
    ("0 has 0:i n\nA0 = nil\n", 31),
    ("0 has 0\nA0 = nil\n", 31),
    ("0 has 0:\nA0 = nil\n", 31),
    ("0 has :i\nA0 = nil\n", 31),
    ("0 has 0:oi\nA0 = nil\n", 31),
    ("0 has 0:ii\nA0 = nil\n", 31),
    ("0 has 0:n\nA0 = nil\n", 31),
    ("0 has 0: i\nA0 = nil\n", 31),
    ("0 has 0:i \nA0 = nil\n", 31),
    ("0 has 0:i  1:r\n1 has\nA0 = nil\n", 31),
    ("0 has n0:i\nA0 = nil\n", 31),
    ("0 has 0:i 0:r\nA0 = nil\n", 31),
    ("0 has 1:i 0:r\n1 has\nA0 = nil\n", 31),
    ("0 has 0:i,1:r\n1 has\nA0 = nil\n", 31),
    ("0 has 00:i\nA0 = nil\n", 31),
    ("0 has 01:i\n1 has\nA0 = nil\n", 31),
    ("0 has 16:i\nA0 = nil\n", 31),
    ("0 has @0:i\nA0 = nil\n", 31),
];

// A right over an address without a row: 23, after the other faults of the
// rows and before any later line. Later lines that look like rows are none.
const WITHOUT_A_ROW: [(&str, u8); 15] = [
    ("0 has 1:i\n", 23),
    ("0 has 15:e\nA0 = nil\n", 23),
    ("0 has\n1 has 2:r\nA0 = nil\n", 23),
    ("0 has 1:i", 31),
    ("0 has 1:i\n1 has 1:x\n", 31),
    ("0 has 2:i\n2 has\n", 31),
    ("0 has 1:i 16:i\nA0 = nil\n", 31),
    ("0 has 1:i\nx", 23),
    ("0 has 1:i\n1 ha", 23),
    ("0 has 1:i\n\n1 has\n", 23),
    ("0 has 1:i\nA0 = nil\n1 has\n", 23),
    ("0 has\nA0 = nil\n0 has\n", 31),
    ("0 has\nA0 = nil\n1 has\n", 23),
    ("0 has\nA0 = nil\n16 has\n", 31),
    ("0 has\n1 hs\nA0 = nil\n", 23),
];

// A seventeenth row is 22 whatever its line holds, if it is one.
fn seventeen() -> Vec<Edge> {
    let after = [
        ("A0 = nil\n", 0),
        ("16 has\nA0 = nil\n", 22),
        ("16 has", 22),
        ("16 has x", 22),
        ("0 has 99:x\n", 22),
        ("0016 has\n", 22),
        ("99999999999999999999 has\n", 22),
        ("16 ha", 31),
        ("15 :: nil\n", 0),
        ("16 :: nil\n", 31),
        ("A0 = nil\n16 has\n", 31),
        ("A0 = nil\n15 has\n", 31),
    ];
    let edge = |(lines, number): (&str, u8)| (rows(16) + lines, number);
    let mut all: Vec<(String, u8)> = after.into_iter().map(edge).collect();
    all.push((rows(15) + "16 has\n", 31));
    all.push((rows(15) + "15 has 0:e 15:i\nA0 = nil\n", 0));
    all.push((rows(15) + "15 has 15:x\n16 has\n", 31));
    let bytes = |(text, number): (String, u8)| (text.into_bytes(), number);
    all.into_iter().map(bytes).collect()
}
