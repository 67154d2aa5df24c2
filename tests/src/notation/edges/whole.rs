//! Point 6: what is judged once the whole text is read. 33 comes first,
//! then 22 for the code, then 30.

use super::{after_a_row, chain, texts, Edge};

pub fn edges() -> Vec<Edge> {
    [
        after_a_row(&NAMES),
        texts(&CODE),
        texts(&REACHING),
        many_names(),
    ]
    .concat()
}

const NAMES: [(&str, u8); 28] = [
    ("0 :: A0\nA0 = nil\n", 0),
    ("A0 = nil\n0 :: A0\n", 0),
    ("A5 = nil\nA3 = A5\n0 :: A3\n", 0),
    ("A3 = A5\n0 :: A3\nA5 = nil\n", 0),
    ("0 :: A0\n", 33),
    ("0 :: A0\nA1 = nil\n", 33),
    ("A0 = A1\n", 33),
    ("A0 = out(5)@self.A1\n", 33),
    ("A0 = (nil | A1)\n", 33),
    ("A0 = eval(A1)@self.nil\n", 33),
    ("A0 = nil\nA0 = nil\n", 33),
    ("A0 = nil\n0 :: A0\nA0 = A0\n", 33),
    ("A0 = A0\n", 33),
    ("A0 = A0\nA1 = nil\n0 :: A1\n", 33),
    ("A0 = A1\nA1 = A0\n", 33),
    ("A0 = A1\nA1 = A2\nA2 = A1\nA3 = nil\n", 33),
    ("A0 = out(5)@self.A0\n", 0),
    ("A0 = (A0 | A0)\n", 0),
    ("A0 = eval(A0)@self.A0\n", 0),
    ("A0 = A1\nA1 = newloc(u0).A0\n", 0),
    ("0 :: A0\nx\n", 31),
    ("0 :: A0\n1 :: nil\n", 23),
    ("0 :: A0\n0 :: out(!x0)@0.nil\n", 26),
    ("0 :: A0\n0 :: in(!x0,!u0)@0.nil\n", 27),
    ("A0 = nil\nA0 = nil\n0 :: A512\n", 31),
    ("A0 = A0\nA0 = out(1,2,3,4,5)@0.nil\n", 22),
    ("0 :: <5>\n0 :: A0\n", 33),
    ("0 :: A0\n0 :: A0\nA0 = nil\n", 0),
];

const CODE: [(&str, u8); 5] = [
    ("0 has\n", 22),
    ("0 has n 0:iroe\n", 22),
    ("0 has\n0 :: <5>\n", 22),
    ("0 has\n0 :: A0\n", 33),
    ("0 has 1:i\n0 :: A0\n", 23),
];

// A starting process beyond its row, where i includes r; the sent place of
// an eval is not followed, and actions at a variable are judged when they
// run.
const REACHING: [(&str, u8); 28] = [
    ("0 has 0:o\n0 :: out(5)@self.nil\n", 0),
    ("0 has 0:o\n0 :: out(5)@0.nil\n", 0),
    ("0 has n 0:ire\n0 :: out(5)@self.nil\n", 30),
    ("0 has n 0:roe\n0 :: in(5)@self.nil\n", 30),
    ("0 has n 0:oe\n0 :: read(5)@self.nil\n", 30),
    ("0 has 0:r\n0 :: read(5)@self.nil\n", 0),
    ("0 has 0:i\n0 :: read(5)@self.nil\n", 0),
    ("0 has 0:i\n0 :: read(5)@0.nil\n", 0),
    ("0 has 0:i\n1 has 1:i\n1 :: read(5)@0.nil\n", 30),
    ("0 has 0:r\n0 :: in(5)@self.nil\n", 30),
    ("0 has 0:i\n0 :: read(!x0)@self.in(v0)@0.nil\n", 0),
    ("0 has n 0:iro\n0 :: eval(nil)@self.nil\n", 30),
    ("0 has 0:iroe\n0 :: newloc(u0).nil\n", 30),
    ("0 has\n0 :: out(5)@v0.nil\n", 0),
    ("0 has\nA0 = out(5)@self.nil\n", 0),
    ("0 has\nA0 = out(5)@self.nil\n0 :: A0\n", 30),
    ("0 has\n0 :: A1\nA1 = A0\nA0 = out(5)@self.nil\n", 30),
    ("0 has\n0 :: (nil | out(5)@self.nil)\n", 30),
    ("0 has 0:e\n0 :: eval(out(5)@self.nil)@self.nil\n", 0),
    ("0 has 0:e\n0 :: eval(nil)@self.out(5)@self.nil\n", 30),
    ("0 has 0:o\n1 has\n1 :: out(5)@self.nil\n", 30),
    ("0 has\n1 has 1:o\n1 :: out(5)@self.nil\n", 0),
    ("0 has\n1 has 0:o\n1 :: out(5)@0.nil\n", 0),
    ("0 has 1:o\n1 has\n0 :: nil\n0 :: out(5)@0.nil\n", 30),
    ("0 has\n0 :: out(5)@self.A0\n", 33),
    ("0 has\n0 :: out(5)@self.nil\n0 :: ni\n", 31),
    ("0 has\n0 :: out(5)@self.nil\n1 :: nil\n", 23),
    ("0 has\n0 :: out(5)@self.A0\nA0 = out(5)@v0.A0\n", 30),
];

// Every name there is: in a row of bare names, in one circle, and beside
// too many instructions.
fn many_names() -> Vec<Edge> {
    let to = |name: usize, next: usize| format!("A{name} = A{next}\n");
    let row: String = (0..511).map(|name| to(name, name + 1)).collect();
    let long = [
        (row.clone() + "A511 = nil\n0 :: A0\n", 0),
        (row.clone() + "A511 = A0\n", 33),
        (row.clone() + "A511 = A511\n", 33),
        (row.clone() + "A511 = A256\n0 :: nil\n", 33),
        (row.clone() + "A511 = nil\nA0 = A1\n", 33),
        (row, 33),
        (format!("A0 = {}\n0 :: A1\n", chain(600)), 33),
        (format!("A0 = {}\n0 :: A0\n", chain(600)), 22),
    ];
    let borrowed = long.each_ref().map(|(lines, number)| (&lines[..], *number));
    let mut edges = after_a_row(&borrowed);
    // 22 for the code comes before 30.
    let beyond = format!("0 has\n0 :: {}\n", chain(600));
    edges.push((beyond.into_bytes(), 22));
    edges
}
