//! Point 3: fields, tuples, templates and targets.

use super::{after_a_row, Edge};

pub fn edges() -> Vec<Edge> {
    [
        after_a_row(&FORMALS),
        after_a_row(&VARIABLES),
        readings(),
        after_a_row(&ADDRESSES),
        after_a_row(&LISTS),
    ]
    .concat()
}

// 26 at the first character of the formal, 27 once its number is read.
const FORMALS: [(&str, u8); 24] = [
    ("0 :: in(!x0,!u1)@self.nil\n", 0),
    ("0 :: read(!u7,!x6,v7,v6)@v7.nil\n", 0),
    ("0 :: out(!x0)@self.nil\n", 26),
    ("0 :: out(!u0)@self.nil\n", 26),
    ("0 :: out(!", 26),
    ("0 :: out(!x9", 26),
    ("0 :: out(5,!!", 26),
    ("0 :: out(x,!x0)@self.nil\n", 31),
    ("0 :: out(@1,!x0)@self.nil\n", 23),
    ("0 :: in(!x0,!x0)@self.nil\n", 27),
    ("0 :: in(!x0,!u0)@self.nil\n", 27),
    ("0 :: read(!u3,5,self,!x3)@self.nil\n", 27),
    ("0 :: in(!x0,!x0", 27),
    ("0 :: in(!x0,!x0)@9.nil\n", 27),
    ("0 :: in(!x0,!x0!", 27),
    ("0 :: in(!x0,!x00)@self.nil\n", 31),
    ("0 :: in(!x1,!x10)@self.nil\n", 31),
    ("0 :: in(!x0,!v0)@self.nil\n", 31),
    ("0 :: in(!x0,!x)@self.nil\n", 31),
    ("0 :: in(!x0,!", 31),
    ("0 :: in(! x0)@self.nil\n", 31),
    ("0 :: in(x0)@self.nil\n", 31),
    ("0 :: in(v0,v0,!x0)@self.nil\n", 0),
    ("0 :: in(!x0)@self.in(!x0)@self.nil\n", 0),
];

const VARIABLES: [(&str, u8); 13] = [
    ("0 :: in(!x7)@v7.nil\n", 0),
    ("0 :: in(!x8)@v7.nil\n", 31),
    ("0 :: in(!u8)@v7.nil\n", 31),
    ("0 :: in(!x7)@v8.nil\n", 31),
    ("0 :: out(v7)@self.nil\n", 0),
    ("0 :: out(v8)@self.nil\n", 31),
    ("0 :: out(v07)@self.nil\n", 31),
    ("0 :: out(v)@self.nil\n", 31),
    ("0 :: out(v-1)@self.nil\n", 31),
    ("0 :: out(x0)@self.nil\n", 31),
    ("0 :: out(u0)@self.nil\n", 31),
    ("0 :: out(5)@u0.nil\n", 31),
    ("0 :: newloc(u00).nil\n", 31),
];

// The least and the greatest reading and one beyond, in a tuple and in
// templates.
fn readings() -> Vec<Edge> {
    let readings = [
        ("-2147483648", 0),
        ("2147483647", 0),
        ("-2147483649", 31),
        ("2147483648", 31),
        ("4294967295", 31),
        ("4294967301", 31),
        ("18446744073709551621", 31),
        ("-1", 0),
        ("0", 0),
        ("-0", 31),
        ("00", 31),
        ("05", 31),
        ("-05", 31),
        ("+5", 31),
        ("--5", 31),
        ("-", 31),
        ("5.0", 31),
        ("5 ", 31),
    ];
    let edges = readings.map(|(reading, number)| {
        let tuple = format!("0 :: <{reading}>\nA0 = nil\n");
        let out = format!("0 :: out(1,{reading})@self.nil\n");
        let taken = format!("0 :: in({reading},!x0)@self.nil\n");
        [tuple, out, taken].map(|lines| after_a_row(&[(&lines, number)]))
    });
    edges.concat().concat()
}

// 31 for the form or above 15, 23 where it is not below the number of rows.
const ADDRESSES: [(&str, u8); 27] = [
    ("0 :: out(@0)@0.nil\n", 0),
    ("0 :: out(@1)@0.nil\n", 23),
    ("0 :: out(@15)@0.nil\n", 23),
    ("0 :: out(@16)@0.nil\n", 31),
    ("0 :: out(@00)@0.nil\n", 31),
    ("0 :: out(@01)@0.nil\n", 31),
    ("0 :: out(@)@0.nil\n", 31),
    ("0 :: out(@-1)@0.nil\n", 31),
    ("0 :: out(@self)@0.nil\n", 31),
    ("0 :: out(@1", 23),
    ("0 :: out(5)@1.nil\n", 23),
    ("0 :: out(5)@16.nil\n", 31),
    ("0 :: out(5)@00.nil\n", 31),
    ("0 :: out(5)@@0.nil\n", 31),
    ("0 :: out(5)@.nil\n", 31),
    ("0 :: out(5)@1", 23),
    ("0 :: read(@1)@0.nil\n", 23),
    ("0 :: in(5)@1.nil\n", 23),
    ("0 :: eval(nil)@0.nil\n", 0),
    ("0 :: eval(nil)@1.nil\n", 23),
    ("0 :: eval(nil)@16.nil\n", 31),
    ("0 :: eval(out(@1)@0.nil)@16.nil\n", 23),
    ("0 :: <@0>\nA0 = nil\n", 0),
    ("0 :: <@1>\nA0 = nil\n", 23),
    ("0 :: <@16>\nA0 = nil\n", 31),
    ("0 :: <5,@1", 23),
    ("1 :: <@16>\nA0 = nil\n", 23),
];

const LISTS: [(&str, u8); 25] = [
    ("0 :: out(5,@0,self,v0)@self.nil\n", 0),
    ("0 :: out()@self.nil\n", 31),
    ("0 :: in()@self.nil\n", 31),
    ("0 :: read()@self.nil\n", 31),
    ("0 :: out(,5)@self.nil\n", 31),
    ("0 :: out(5,)@self.nil\n", 31),
    ("0 :: out(5, 6)@self.nil\n", 31),
    ("0 :: out(5;6)@self.nil\n", 31),
    ("0 :: out(5)@selfish.nil\n", 31),
    ("0 :: out(sel)@self.nil\n", 31),
    ("0 :: out(selfv0)@self.nil\n", 31),
    ("0 :: out(<5>)@self.nil\n", 31),
    ("0 :: out(A0)@self.nil\n", 31),
    ("0 :: <5,@0,-1,@0>\nA0 = nil\n", 0),
    ("0 :: <>\nA0 = nil\n", 31),
    ("0 :: <,5>\nA0 = nil\n", 31),
    ("0 :: <5,>\nA0 = nil\n", 31),
    ("0 :: <5\nA0 = nil\n", 31),
    ("0 :: <5>.nil\nA0 = nil\n", 31),
    ("0 :: < 5>\nA0 = nil\n", 31),
    ("0 :: <self>\nA0 = nil\n", 31),
    ("0 :: <v0>\nA0 = nil\n", 31),
    ("0 :: <!x0>\nA0 = nil\n", 31),
    ("0 :: <@v0>\nA0 = nil\n", 31),
    ("0 :: <(5)>\nA0 = nil\n", 31),
];
