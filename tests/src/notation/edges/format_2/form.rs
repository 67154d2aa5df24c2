//! Point 1, the first line decides, and point 3, what stands in a row; its 23
//! comes after the rows' other faults.

use super::super::{texts, Edge};

pub fn edges() -> Vec<Edge> {
    [
        texts(&FIRST_LINE),
        texts(&FORM),
        texts(&RIGHTS),
        texts(&BEYOND),
    ]
    .concat()
}

// What opens with the other format's word is no row, and ends them.
const FIRST_LINE: [(&str, u8); 19] = [
    ("0 from 0 has\nA0 = nil\n", 0),
    ("0 has\n0 from 0 has\nA0 = nil\n", 31),
    ("0 has\n1 from 0 has\nA0 = nil\n", 23),
    ("0 has\n1 from", 23),
    ("0 has\n15 from 0 has\nA0 = nil\n", 23),
    ("0 has\n16 from 0 has\nA0 = nil\n", 31),
    ("0 has 1:i\n0 from 0 has\nA0 = nil\n", 23),
    ("0 has\n1 has\n0 from 0 has\nA0 = nil\n", 31),
    ("0 from 0 has\n0 has\nA0 = nil\n", 31),
    ("0 from 0 has\n1 has\nA0 = nil\n", 23),
    ("0 from 0 has\n16 has\nA0 = nil\n", 31),
    ("0 from 0 has 1:i\n0 has\nA0 = nil\n", 23),
    ("0 from 0 has\n0 from 1 has\n1 has\nA0 = nil\n", 31),
    ("0 from 0 has\nA0 = nil\n0 from 1 has\n", 31),
    ("0 from 0 has\nA0 = nil\n1 from 0 has\n", 23),
    ("0 from 0 has 1:i\nA0 = nil\n0 from 1 has\n", 23),
    ("0 from 0 has\n\n0 from 1 has\nA0 = nil\n", 31),
    ("0 from 0 has 1:i\n\n", 23),
    ("0 from 0 has\n", 22),
];

const FORM: [(&str, u8); 33] = [
    ("0 from 0 has n\nA0 = nil\n", 0),
    ("0 from 0 has", 31),
    ("0 from 0 has ", 31),
    ("0 from 0", 31),
    ("0 from ", 31),
    ("0 from", 31),
    ("0 fro", 31),
    ("0 from 0\nA0 = nil\n", 31),
    ("0 from 0 had\nA0 = nil\n", 31),
    ("0 from 0 hasn\nA0 = nil\n", 31),
    ("0 from has\nA0 = nil\n", 31),
    ("0 from  has\nA0 = nil\n", 31),
    ("0 from0 has\nA0 = nil\n", 31),
    ("0 from 0has\nA0 = nil\n", 31),
    ("0 fromm 0 has\nA0 = nil\n", 31),
    ("0 From 0 has\nA0 = nil\n", 31),
    ("0from 0 has\nA0 = nil\n", 31),
    ("from 0 has\nA0 = nil\n", 31),
    (" 0 from 0 has\nA0 = nil\n", 31),
    ("0  from 0 has\nA0 = nil\n", 31),
    ("0 from  0 has\nA0 = nil\n", 31),
    ("0 from 0  has\nA0 = nil\n", 31),
    ("0 from 0 has \nA0 = nil\n", 31),
    ("0 from 0 has\r\nA0 = nil\n", 31),
    ("0 from 00 has\nA0 = nil\n", 31),
    ("0 from -0 has\nA0 = nil\n", 31),
    ("0 from @0 has\nA0 = nil\n", 31),
    ("0 from self has\nA0 = nil\n", 31),
    ("0 from 0,1 has\nA0 = nil\n", 31),
    ("00 from 0 has\nA0 = nil\n", 31),
    ("-0 from 0 has\nA0 = nil\n", 31),
    ("0 has from 0\nA0 = nil\n", 31),
    ("0 from 0 from 0 has\nA0 = nil\n", 31),
];

// After ` has` a row is as in format 1.
const RIGHTS: [(&str, u8); 18] = [
    ("0 from 0 has n 0:iroe\nA0 = nil\n", 0),
    ("0 from 0 has 0:e\nA0 = nil\n", 0),
    ("0 from 0 has 0:i n\nA0 = nil\n", 31),
    ("0 from 0 has n n\nA0 = nil\n", 31),
    ("0 from 0 has 0\nA0 = nil\n", 31),
    ("0 from 0 has 0:\nA0 = nil\n", 31),
    ("0 from 0 has :i\nA0 = nil\n", 31),
    ("0 from 0 has 0:oi\nA0 = nil\n", 31),
    ("0 from 0 has 0:ri\nA0 = nil\n", 31),
    ("0 from 0 has 0:ii\nA0 = nil\n", 31),
    ("0 from 0 has 0:n\nA0 = nil\n", 31),
    ("0 from 0 has 0:i \nA0 = nil\n", 31),
    ("0 from 0 has n0:i\nA0 = nil\n", 31),
    ("0 from 0 has 0:i 0:r\nA0 = nil\n", 31),
    ("0 from 0 has 1:i 0:r\nA0 = nil\n", 31),
    ("0 from 0 has 00:i\nA0 = nil\n", 31),
    ("0 from 0 has 16:i\nA0 = nil\n", 31),
    ("0 from 0 has {0}:i\nA0 = nil\n", 31),
];

// A right over an address that the net has not: 23, after all other faults of
// the rows, rows wanting and over among them, and before any later line.
const BEYOND: [(&str, u8); 17] = [
    ("0 from 0 has 1:i\nA0 = nil\n", 23),
    ("0 from 0 has 15:e\nA0 = nil\n", 23),
    ("0 from 0 has 1:i\nx", 23),
    ("0 from 0 has 1:i\n", 23),
    ("0 from 0 has 1:i", 31),
    ("0 from 0 has 1:i 16:i\nA0 = nil\n", 31),
    (
        "0 from 0 has 1:i\n0 from 1 has\n1 from 0 has\n1 from 1 has\nA0 = nil\n",
        0,
    ),
    (
        "0 from 0 has\n0 from 1 has 1:r\n1 from 0 has 0:o\n1 from 1 has 1:e\nA0 = nil\n",
        0,
    ),
    // As many rows as that, but not as many addresses.
    (
        "0 from 0 has 2:i\n0 from 1 has\n1 from 0 has\n1 from 1 has\nA0 = nil\n",
        23,
    ),
    (
        "0 from 0 has\n0 from 1 has 3:i\n1 from 0 has\n1 from 1 has\nA0 = nil\n",
        23,
    ),
    (
        "0 from 0 has\n0 from 1 has\n1 from 0 has 2:i\n1 from 1 has\nA0 = nil\n",
        23,
    ),
    (
        "0 from 0 has\n0 from 1 has\n1 from 0 has\n1 from 1 has 2:i\nA0 = nil\n",
        23,
    ),
    // A row wanting, over, not as expected, or not well written.
    (
        "0 from 0 has 2:i\n0 from 1 has\n1 from 0 has\nA0 = nil\n",
        31,
    ),
    ("0 from 0 has 1:i\n1 from 0 has\nA0 = nil\n", 31),
    ("0 from 0 has 1:i\n0 from 0 has\nA0 = nil\n", 31),
    (
        "0 from 0 has 2:i\n0 from 1 has\n1 from 0 has\n1 from 1 has 0:x\nA0 = nil\n",
        31,
    ),
    ("0 from 0 has 1:i\n0 from", 31),
];
