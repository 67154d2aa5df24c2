//! Point 2, how later lines open and the forms of processes, and point 5,
//! what is outside the notation.

use super::{after_a_row, Edge};

pub fn edges() -> Vec<Edge> {
    [
        after_a_row(&DEFINITIONS),
        after_a_row(&ADDRESSES),
        after_a_row(&PROCESSES),
        after_a_row(&OUTSIDE),
        bytes_outside(),
    ]
    .concat()
}

const DEFINITIONS: [(&str, u8); 18] = [
    ("A0 = nil\n", 0),
    ("A511 = nil\n", 0),
    ("A512 = nil\n", 31),
    ("A00 = nil\n", 31),
    ("A01 = nil\n", 31),
    ("A-1 = nil\n", 31),
    ("A = nil\n", 31),
    ("A99999999999 = nil\n", 31),
    ("a0 = nil\n", 31),
    ("A0=nil\n", 31),
    ("A0  = nil\n", 31),
    ("A0 =  nil\n", 31),
    ("A0 = \n", 31),
    ("A0 = nil \n", 31),
    ("A0 :: nil\n", 31),
    ("A0 = <5>\nA1 = nil\n", 31),
    ("0 :: A511\nA511 = nil\n", 0),
    ("0 :: A512\nA512 = nil\n", 31),
];

const ADDRESSES: [(&str, u8); 16] = [
    ("0 :: nil\n", 0),
    ("1 :: nil\n", 23),
    ("15 :: nil\n", 23),
    ("16 :: nil\n", 31),
    ("00 :: nil\n", 31),
    ("01 :: nil\n", 31),
    ("-0 :: nil\n", 31),
    ("@0 :: nil\n", 31),
    ("self :: nil\n", 31),
    ("1", 23),
    ("1x", 23),
    ("1 = nil\n", 23),
    ("0 = nil\n", 31),
    ("0 ::nil\n", 31),
    ("0:: nil\n", 31),
    ("0 : : nil\n", 31),
];

const PROCESSES: [(&str, u8); 26] = [
    ("0 :: (nil | nil)\n", 0),
    ("0 :: (nil|nil)\n", 31),
    ("0 :: ( nil | nil)\n", 31),
    ("0 :: (nil | nil )\n", 31),
    ("0 :: (nil)\n", 31),
    ("0 :: (nil | nil | nil)\n", 31),
    ("0 :: (nil | nil).nil\n", 31),
    ("0 :: nil.nil\n", 31),
    ("0 :: nil | nil\n", 31),
    ("0 :: out(5)@self\n", 31),
    ("0 :: out(5)@self.\n", 31),
    ("0 :: out(5).nil\n", 31),
    ("0 :: out(5)@0. nil\n", 31),
    ("0 :: out (5)@0.nil\n", 31),
    ("0 :: out(5)@0.(nil | nil)\n", 0),
    ("0 :: eval(nil)@self.nil\n", 0),
    ("0 :: eval()@self.nil\n", 31),
    ("0 :: eval(5)@self.nil\n", 31),
    ("0 :: eval(nil).nil\n", 31),
    ("0 :: eval((nil | nil))@v7.nil\n", 0),
    ("0 :: newloc(u7).nil\n", 0),
    ("0 :: newloc(v7).nil\n", 31),
    ("0 :: newloc(!u7).nil\n", 31),
    ("0 :: newloc(7).nil\n", 31),
    ("0 :: newloc(u7)@0.nil\n", 31),
    ("0 :: newloc(u8).nil\n", 31),
];

const OUTSIDE: [(&str, u8); 14] = [
    ("0 :: nil", 31),
    ("0 :: nil\n0 :: ni", 31),
    ("A0 = A1", 31),
    ("0 :: <5>", 31),
    ("0 :: nil\n\n", 31),
    ("\n0 :: nil\n", 31),
    ("0 :: nil\n 0 :: nil\n", 31),
    ("0 :: nil\n# words\n", 31),
    ("0 :: nil\r\n", 31),
    ("0 :: nil\t\n", 31),
    ("0 ::\tnil\n", 31),
    ("0 :: Nil\n", 31),
    ("0 :: out(\n5)@0.nil\n", 31),
    ("0 :: nil\n:: nil\n", 31),
];

// Bytes that no text holds, each in the place of one that belongs.
fn bytes_outside() -> Vec<Edge> {
    let good = b"0 has\n0 :: out(5)@v0.nil\n";
    let mut all = vec![(good.to_vec(), 0)];
    for byte in [0, 0x7F, 0x80, 0xA0, 0xC3, 0xFF] {
        for at in 0..good.len() {
            let mut text = good.to_vec();
            text[at] = byte;
            all.push((text, 31));
        }
    }
    all
}
