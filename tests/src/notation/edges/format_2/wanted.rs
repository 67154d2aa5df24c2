//! Point 2: which rows there have to be, the seventeenth among them, and how
//! many addresses they make.

use super::super::{texts, Edge};
use super::{after_rows, rows_by_origin, table};

pub fn edges() -> Vec<Edge> {
    [
        texts(&WANTED),
        each_wanting_or_over(),
        after_rows(&rows_by_origin(2), &COUNT),
        seventeenth_origin(),
        seventeenth_of_a_later_node(),
        seventeenth_node(),
        fifteen(),
    ]
    .concat()
}

// Two nodes or more: the first row that is not the one expected.
const WANTED: [(&str, u8); 24] = [
    (
        "0 from 0 has\n0 from 1 has\n1 from 0 has\n1 from 1 has\nA0 = nil\n",
        0,
    ),
    ("1 from 0 has\nA0 = nil\n", 31),
    ("0 from 1 has\nA0 = nil\n", 31),
    ("16 from 0 has\nA0 = nil\n", 31),
    ("0 from 16 has\nA0 = nil\n", 31),
    ("99999999999 from 0 has\nA0 = nil\n", 31),
    ("0 from 99999999999 has\nA0 = nil\n", 31),
    // One node and a row over.
    ("0 from 0 has\n0 from 0 has\nA0 = nil\n", 31),
    ("0 from 0 has\n1 from 0 has\nA0 = nil\n", 31),
    ("0 from 0 has\n1 from 1 has\nA0 = nil\n", 31),
    ("0 from 0 has\n1 from", 31),
    ("0 from 0 has\n7 from 7 has\nA0 = nil\n", 31),
    ("0 from 0 has\n00 from 1 has\nA0 = nil\n", 31),
    // Two nodes, of which the second has none, too few, too many.
    ("0 from 0 has\n0 from 1 has\nA0 = nil\n", 31),
    ("0 from 0 has\n0 from 1 has\n", 31),
    ("0 from 0 has\n0 from 1 has\n1 from 0 has\nA0 = nil\n", 31),
    ("0 from 0 has\n0 from 1 has\n1 from 1 has\nA0 = nil\n", 31),
    (
        "0 from 0 has\n0 from 1 has\n1 from 0 has\n1 from 1 has\n1 from 2 has\nA0 = nil\n",
        31,
    ),
    (
        "0 from 0 has\n0 from 1 has\n1 from 0 has\n1 from 1 has\n2 from 0 has\nA0 = nil\n",
        31,
    ),
    (
        "0 from 0 has\n0 from 1 has\n1 from 0 has\n1 from 1 has\n0 from 0 has\nA0 = nil\n",
        31,
    ),
    // By origin first, an origin left out, a node left out.
    (
        "0 from 0 has\n1 from 0 has\n0 from 1 has\n1 from 1 has\nA0 = nil\n",
        31,
    ),
    (
        "0 from 0 has\n0 from 2 has\n1 from 0 has\n1 from 2 has\nA0 = nil\n",
        31,
    ),
    (
        "0 from 0 has\n0 from 1 has\n2 from 0 has\n2 from 1 has\nA0 = nil\n",
        31,
    ),
    (
        "0 from 1 has\n0 from 0 has\n1 from 1 has\n1 from 0 has\nA0 = nil\n",
        31,
    ),
];

// Three nodes: each row left away, written twice, in the place of the next.
fn each_wanting_or_over() -> Vec<Edge> {
    let rows = table(3);
    let mut all = vec![rows.clone()];
    for at in 0..rows.len() {
        let mut without = rows.clone();
        without.remove(at);
        let mut twice = rows.clone();
        twice.insert(at, rows[at].clone());
        let mut swapped = rows.clone();
        swapped.swap(at, (at + 1) % rows.len());
        all.extend([without, twice, swapped]);
    }
    let edge = |(index, rows): (usize, Vec<String>)| {
        let number = if index == 0 { 0 } else { 31 };
        ((rows.concat() + "A0 = nil\n").into_bytes(), number)
    };
    all.into_iter().enumerate().map(edge).collect()
}

// Four rows, and two addresses: what later lines are judged by.
const COUNT: [(&str, u8); 14] = [
    ("1 :: nil\n", 0),
    ("2 :: nil\n", 23),
    ("3 :: nil\n", 23),
    ("4 :: nil\n", 23),
    ("16 :: nil\n", 31),
    ("0 :: <@1>\nA0 = nil\n", 0),
    ("0 :: <@2>\nA0 = nil\n", 23),
    ("0 :: <@3>\nA0 = nil\n", 23),
    ("A0 = out(@1)@1.nil\n", 0),
    ("A0 = out(@2)@1.nil\n", 23),
    ("A0 = out(5)@2.nil\n", 23),
    ("A0 = in(5)@3.nil\n", 23),
    ("A0 = eval(nil)@2.nil\n", 23),
    ("3", 23),
];

// The sixteen rows of node 0 and what follows them: a row that names node 0 is
// 22 whatever it holds.
fn seventeenth_origin() -> Vec<Edge> {
    let more = [
        ("0 from 16 has\n", 22),
        ("0 from 15 has\n", 22),
        ("0 from 0 has 99:x\n", 22),
        ("0 from x\n", 22),
        ("0 from", 22),
        ("0 fromage", 22),
        ("00 from 16 has\n", 31),
        ("0000 from 16 has\n", 31),
        ("0  from 16 has\n", 31),
        ("-0 from 16 has\n", 31),
        ("1 from 16 has\n", 31),
        ("01 from 0 has\n", 31),
        ("2 from 0 has\n", 31),
        ("16 from 0 has\n", 31),
        ("99999999999 from 0 has\n", 31),
        ("0 fro", 31),
        ("0 has\n", 31),
        ("1 from 0 has\n", 31),
        ("0 :: nil\n", 31),
        ("A0 = nil\n", 31),
        ("", 31),
    ];
    let sixteen = table(16)[..16].concat();
    let mut edges = after_rows(&sixteen, &more);
    // With a fault in the sixteenth, or without it, there is no seventeenth.
    let fifteen = table(16)[..15].concat();
    let more = [
        ("0 from 16 has\n", 31),
        ("0 from 15 has 0:x\n0 from 16 has\n", 31),
        ("0 from 15 has 15:e\n0 from 16 has\n", 22),
        ("0 from 15 has 16:e\n0 from 16 has\n", 31),
        ("1 from 0 has\n0 from 16 has\n", 31),
    ];
    edges.extend(after_rows(&fifteen, &more));
    edges
}

// The sixteen rows of nodes 0 and 1: now node 1 has no further one.
fn seventeenth_of_a_later_node() -> Vec<Edge> {
    let more = [
        ("1 from 16 has\n", 22),
        ("1 from 0 has\n", 22),
        ("1 from", 22),
        ("01 from 16 has\n", 31),
        ("0 from 16 has\n", 31),
        ("2 from 16 has\n", 31),
        ("2 from 0 has\n2 from 16 has\n", 31),
        ("2 from 0 has\n1 from 16 has\n", 31),
        ("11 from 0 has\n", 31),
        ("1 has\n", 31),
        ("", 31),
    ];
    let mut edges = after_rows(&table(16)[..32].concat(), &more);
    // One row fewer: another origin is expected there.
    let more = [("1 from 16 has\n", 31), ("2 from 0 has\n", 31)];
    edges.extend(after_rows(&table(16)[..31].concat(), &more));
    edges
}

// All 256 rows and what follows them: any row is 22, if it is one.
fn seventeenth_node() -> Vec<Edge> {
    let more = [
        ("A0 = nil\n", 0),
        ("15 :: nil\n", 0),
        ("16 from 0 has\n", 22),
        ("16 from 0 has x", 22),
        ("16 from", 22),
        ("15 from 16 has\n", 22),
        ("0 from 0 has\n", 22),
        ("0016 from 0 has\n", 22),
        ("015 from 16 has\n", 22),
        ("99999999999999999999 from 0 has\n", 22),
        ("16 fro", 31),
        ("16 has\n", 31),
        ("15 has\n", 31),
        ("16 :: nil\n", 31),
        ("A0 = nil\n16 from 0 has\n", 31),
        ("A0 = nil\n15 from 16 has\n", 31),
    ];
    let mut edges = after_rows(&rows_by_origin(16), &more);
    let more = [
        ("15 from 15 has 0:x\n16 from 0 has\n", 31),
        ("15 from 15 has n 0:e 15:i\nA0 = nil\n", 0),
        ("15 from 16 has\n", 31),
        ("16 from 0 has\n", 31),
        ("A0 = nil\n", 31),
    ];
    edges.extend(after_rows(&table(16)[..255].concat(), &more));
    edges
}

// Fifteen nodes: a row over is no seventeenth.
fn fifteen() -> Vec<Edge> {
    let more = [
        ("A0 = nil\n", 0),
        ("14 from 15 has\n", 31),
        ("15 from 0 has\n", 31),
        ("16 from 0 has\n", 31),
        ("14 from 16 has\n", 31),
        ("15 :: nil\n", 23),
        ("15 has\n", 23),
    ];
    after_rows(&rows_by_origin(15), &more)
}
