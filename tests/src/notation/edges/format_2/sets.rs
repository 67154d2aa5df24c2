//! Point 4: a set is the target of an out in format 2, and of nothing else;
//! its addresses ascend, and each is judged as every other address.

use super::super::{after_a_row, Edge};
use super::{after_rows, full_rows};

pub fn edges() -> Vec<Edge> {
    [
        written(),
        after_rows(&full_rows(3), &ELSEWHERE),
        after_rows(&full_rows(3), &ORDER),
        after_a_row(&FORMAT_1),
        sixteen(),
    ]
    .concat()
}

// As targets, in a net of three.
const TARGETS: [(&str, u8); 56] = [
    ("{}", 0),
    ("{0}", 0),
    ("{2}", 0),
    ("{0,2}", 0),
    ("{0,1,2}", 0),
    // Not ascending.
    ("{0,0}", 31),
    ("{2,0}", 31),
    ("{2,1}", 31),
    ("{0,2,1}", 31),
    ("{0,2,2}", 31),
    ("{1,1,2}", 31),
    ("{2,1,3}", 31),
    // Not below the count, or no address.
    ("{3}", 23),
    ("{0,3}", 23),
    ("{0,1,2,3}", 23),
    ("{3,0}", 23),
    ("{3,3}", 23),
    ("{15}", 23),
    ("{3,16}", 23),
    ("{3", 23),
    ("{0,3x", 23),
    ("{16}", 31),
    ("{0,16}", 31),
    ("{16,3}", 31),
    ("{99999999999}", 31),
    ("{00}", 31),
    ("{01}", 31),
    ("{0,01}", 31),
    ("{-0}", 31),
    ("{-1}", 31),
    // Not as it is written.
    ("{", 31),
    ("{0", 31),
    ("{0,", 31),
    ("{0,}", 31),
    ("{,}", 31),
    ("{,0}", 31),
    ("{0,,1}", 31),
    ("{ }", 31),
    ("{ 0}", 31),
    ("{0 }", 31),
    ("{0, 1}", 31),
    ("{0 1}", 31),
    ("{0;1}", 31),
    ("{0-2}", 31),
    ("{@0}", 31),
    ("{self}", 31),
    ("{v0}", 31),
    ("{!x0}", 31),
    ("{0)", 31),
    ("(0}", 31),
    ("}", 31),
    ("{}}", 31),
    ("{{}}", 31),
    ("{0}{1}", 31),
    ("{0}1", 31),
    ("0{1}", 31),
];

// Each in a process and in a definition.
fn written() -> Vec<Edge> {
    let edges = TARGETS.map(|(target, number)| {
        let start = format!("0 :: out(5)@{target}.nil\n");
        let definition = format!("A0 = out(5,@2)@{target}.A0\n");
        after_rows(&full_rows(3), &[(&start, number), (&definition, number)])
    });
    edges.concat()
}

const ELSEWHERE: [(&str, u8); 21] = [
    ("0 :: in(5)@{0}.nil\n", 31),
    ("0 :: in(5)@{}.nil\n", 31),
    ("0 :: read(5)@{0,1}.nil\n", 31),
    ("0 :: read(5)@{}.nil\n", 31),
    ("0 :: eval(nil)@{0}.nil\n", 31),
    ("0 :: eval(nil)@{}.nil\n", 31),
    ("0 :: newloc({0}).nil\n", 31),
    ("0 :: newloc(u0)@{0}.nil\n", 31),
    ("0 :: out({0})@self.nil\n", 31),
    ("0 :: out(@{0})@self.nil\n", 31),
    ("0 :: in(@{0})@self.nil\n", 31),
    ("0 :: <{0}>\nA0 = nil\n", 31),
    ("0 :: <@{0}>\nA0 = nil\n", 31),
    ("{0} :: nil\n", 31),
    ("0 :: out(5){0}.nil\n", 31),
    ("0 :: out(5)@@{0}.nil\n", 31),
    ("0 :: out(5)@ {0}.nil\n", 31),
    ("0 :: out(5)@{0} .nil\n", 31),
    ("0 :: out(5)@{0}nil\n", 31),
    ("0 :: out(5)@{0}\n", 31),
    ("0 :: out(5)@{0}.\n", 31),
];

// The first fault in the text, and sets inside brackets and evals.
const ORDER: [(&str, u8); 16] = [
    ("0 :: out(!x0)@{16}.nil\n", 26),
    ("0 :: out(@3)@{16}.nil\n", 23),
    ("0 :: out(@16)@{3}.nil\n", 31),
    ("0 :: out(1,2,3,4,5)@{16}.nil\n", 22),
    ("0 :: out()@{3}.nil\n", 31),
    ("0 :: in(!x0,!x0)@{0}.nil\n", 27),
    ("0 :: out(5)@{3}.x\n", 23),
    ("0 :: out(5)@{1,0}.out(!x0)@self.nil\n", 31),
    ("0 :: out(5)@{0}.out(!x0)@self.nil\n", 26),
    ("0 :: out(5)@{0,1}.A0\n", 33),
    ("0 :: out(5,@2,self,v7)@{0,1,2}.out(5)@{}.nil\n", 0),
    ("0 :: (out(5)@{0}.nil | out(5)@{}.nil)\n", 0),
    ("0 :: eval(out(5)@{0,2}.nil)@self.out(5)@{1}.nil\n", 0),
    ("0 :: eval(out(5)@{2,0}.nil)@3.nil\n", 31),
    ("0 :: eval(out(5)@{0,2}.nil)@3.nil\n", 23),
    ("A0 = out(5)@{0,2}.A0\n1 :: A0\n2 :: (A0 | A0)\n", 0),
];

// In format 1 no brace stands anywhere.
const FORMAT_1: [(&str, u8); 10] = [
    ("0 :: out(5)@{0}.nil\n", 31),
    ("0 :: out(5)@{}.nil\n", 31),
    ("0 :: out(5)@{1}.nil\n", 31),
    ("0 :: out(5)@{16}.nil\n", 31),
    ("A0 = out(5)@{0}.A0\n", 31),
    ("0 :: in(5)@{0}.nil\n", 31),
    ("0 :: eval(nil)@{0}.nil\n", 31),
    ("0 :: out(!x0)@{0}.nil\n", 26),
    ("0 :: out(@1)@{0}.nil\n", 23),
    ("0 :: out(1,2,3,4,5)@{0}.nil\n", 22),
];

// All addresses that there can be, and one more.
fn sixteen() -> Vec<Edge> {
    let list: Vec<String> = (0..16).map(|address| address.to_string()).collect();
    let all = list.join(",");
    let lines = [
        (format!("{{{all}}}"), 0),
        ("{15}".to_string(), 0),
        ("{9,10}".to_string(), 0),
        ("{10,9}".to_string(), 31),
        (format!("{{{all},16}}"), 31),
        (format!("{{{all},15}}"), 31),
        (format!("{{{all},0}}"), 31),
        (format!("{{{all},}}"), 31),
    ];
    let edges = lines.map(|(set, number)| {
        let line = format!("15 :: out(5)@{set}.nil\n");
        after_rows(&full_rows(16), &[(&line, number)])
    });
    edges.concat()
}
