//! Point 5: a starting process is judged by its node's row for itself, after
//! all else; at a set it needs o at each member.

use super::super::{texts, Edge};
use super::after_rows;

pub fn edges() -> Vec<Edge> {
    [texts(&ONE), two(), sets()].concat()
}

const ONE: [(&str, u8); 13] = [
    ("0 from 0 has 0:o\n0 :: out(5)@self.nil\n", 0),
    ("0 from 0 has n 0:ire\n0 :: out(5)@self.nil\n", 30),
    ("0 from 0 has\nA0 = out(5)@self.nil\n", 0),
    ("0 from 0 has 0:i\n0 :: read(5)@self.nil\n", 0),
    ("0 from 0 has 0:r\n0 :: in(5)@self.nil\n", 30),
    ("0 from 0 has 0:iroe\n0 :: newloc(u0).nil\n", 30),
    ("0 from 0 has n\n0 :: newloc(u0).nil\n", 0),
    ("0 from 0 has 0:e\n0 :: eval(out(5)@{0}.nil)@self.nil\n", 0),
    ("0 from 0 has\n0 :: out(5)@v0.nil\n", 0),
    ("0 from 0 has\n0 :: out(5)@self.A0\n", 33),
    ("0 from 0 has\n0 :: out(5)@self.nil\nA0 = A0\n", 33),
    ("0 from 0 has\n0 :: out(5)@self.nil\nx", 31),
    ("0 from 0 has\n0 :: <5>\n", 22),
];

// Each of the four rows of two nodes holds o over both, and no other: it
// counts for what starts at its node, where it is the node's own.
fn two() -> Vec<Edge> {
    let expected = [[0, 30], [30, 30], [30, 30], [30, 0]];
    let mut all = Vec::new();
    for (holding, numbers) in expected.iter().enumerate() {
        let row = |at: usize| {
            let held = if at == holding { " 0:o 1:o" } else { "" };
            format!("{} from {} has{held}\n", at / 2, at % 2)
        };
        let rows: String = (0..4).map(row).collect();
        for (at, number) in numbers.iter().enumerate() {
            for target in ["0", "1", "self", "{0,1}", "{1}"] {
                let line = format!("{at} :: out(5)@{target}.nil\n");
                all.extend(after_rows(&rows, &[(&line, *number)]));
            }
        }
    }
    all
}

// The office may put at 0 and 2 of three.
fn sets() -> Vec<Edge> {
    let others =
        "1 from 0 has\n1 from 1 has\n1 from 2 has\n2 from 0 has\n2 from 1 has\n2 from 2 has\n";
    let rows = format!("0 from 0 has 0:o 2:o\n0 from 1 has 1:o\n0 from 2 has 0:iroe\n{others}");
    let lines = [
        ("0 :: out(5)@{}.nil\n", 0),
        ("0 :: out(5)@{0}.nil\n", 0),
        ("0 :: out(5)@{0,2}.nil\n", 0),
        ("0 :: out(5)@{1}.nil\n", 30),
        ("0 :: out(5)@{0,1}.nil\n", 30),
        ("0 :: out(5)@{0,1,2}.nil\n", 30),
        ("0 :: out(5)@{0,2}.out(5)@{1,2}.nil\n", 30),
        ("1 :: out(5)@{}.nil\n", 0),
        ("1 :: out(5)@{1}.nil\n", 30),
        ("A0 = out(5)@{0,1,2}.A0\n", 0),
        ("A0 = out(5)@{0,1,2}.A0\n0 :: A0\n", 30),
        ("0 :: (out(v0)@{0}.nil | out(v0)@{2}.nil)\n", 0),
    ];
    after_rows(&rows, &lines)
}
