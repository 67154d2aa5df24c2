//! The example of rows by origin, and what a reader is told of the rows that a
//! net of format 2 has at the end.

use super::nets::start;
use super::Example;
use crate::by_hand::*;
use crate::net::*;
use std::fmt::Write;

pub fn rows_by_origin() -> Example {
    Example {
        name: "rows_by_origin",
        title: "Rows by origin",
        about: "\
A net of format 2: what code may do at a node rests on where it came from. Addresses 0 and 1
send the same code to address 2, an out at `self`. Node 2 has a row for code from 0, with o,
and one for code from 1, with r alone. So the code from 0 is let in and the same code from 1
is refused; other code from 1, which only reads, is let in.

Code from 0 may also create at node 2. What it creates becomes address 3, and node 2 gains
all four rights there in its row for code from 0 and in no other: the code from 0 puts a tuple
at address 3, and node 2's own code, which learns of address 3 from a tuple, may not.
",
        text: "\
0 from 0 has 2:e
0 from 1 has
0 from 2 has
1 from 0 has
1 from 1 has 2:e
1 from 2 has
2 from 0 has n 2:o
2 from 1 has 2:r
2 from 2 has 2:i
A0 = out(40)@self.nil
0 :: eval(A0)@2.eval(newloc(u0).out(v0)@self.out(7)@v0.nil)@2.nil
1 :: eval(A0)@2.nil
1 :: eval(read(!x0)@self.nil)@2.nil
2 :: in(!u0)@self.out(8)@v0.nil
",
        net: rows_by_origin_net(),
        picks: &PICKS,
        listing: None,
        names: None,
    }
}

const PICKS: [(u8, &str); 17] = [
    (0x10, "eval of A0 from 1: node 2's row for 1 lacks o"),
    (0x00, "eval of A0 from 0: it stands in slot 1 of address 2"),
    (0x24, "out, by code from 0: puts `<40>` at address 2"),
    (0x24, "stop: the slot is free"),
    (0x10, "eval of A0 from 1: refused as before"),
    (
        0x14,
        "eval of the read from 1: it stands in slot 1 of address 2",
    ),
    (0x24, "read, by code from 1: x0 is 40, `<40>` stays"),
    (0x24, "stop: the slot is free"),
    (0x00, "eval from 0: it stands in slot 1 of address 2"),
    (
        0x24,
        "newloc, by code from 0: address 3 is opened, u0 is @3",
    ),
    (0x24, "out, by code from 0: puts `<@3>` at address 2"),
    (0x20, "in, by node 2's own code: takes `<@3>`, u0 is @3"),
    (
        0x20,
        "out at address 3, by node 2's own code: its row lacks o there",
    ),
    (0x24, "out at address 3, by code from 0: puts `<7>` there"),
    (0x24, "stop: the slot is free"),
    (0x00, "stop: the slot is free"),
    (0x14, "stop: the slot is free"),
];

fn rows_by_origin_net() -> Net {
    let held = Target::Variable(0);
    let code = [
        out(OWN, &[TemplateField::Reading(40)], 1),
        Instruction::STOP,
        eval(written(2), 0, 3),
        eval(written(2), 4, 8),
        new(0, 5),
        out(OWN, &[TemplateField::Variable(0)], 6),
        out(held, &[TemplateField::Reading(7)], 7),
        Instruction::STOP,
        Instruction::STOP,
        eval(written(2), 0, 10),
        Instruction::STOP,
        eval(written(2), 12, 14),
        read(OWN, &[TemplateField::FormalReading(0)], 13),
        Instruction::STOP,
        Instruction::STOP,
        take(OWN, &[TemplateField::FormalAddress(0)], 16),
        out(held, &[TemplateField::Reading(8)], 17),
    ];
    let mut net = in_format_2(net(3, &code));
    net.nodes[0].processes[0].at = Place(2);
    start(&mut net, 1, 9);
    start(&mut net, 1, 11);
    start(&mut net, 2, 15);
    grant_from(&mut net, 0, 0, 2, SEND);
    grant_from(&mut net, 1, 1, 2, SEND);
    grant_from(&mut net, 2, 0, 2, PUT);
    net.nodes[2].rows[0].create = true;
    grant_from(&mut net, 2, 1, 2, READ);
    grant_from(&mut net, 2, 2, 2, TAKE);
    net
}

impl Example {
    // The rows of the creator and of the address that it opened, if it opened
    // one.
    pub(super) fn about_rows_after(&self) -> String {
        let after = self.net_after();
        let created = self.net.address_count;
        if after.address_count == created {
            return String::new();
        }
        let rows = table_of_rows(&after, created as usize - 1);
        format!(
            "## The rows at the end\n\n\
             Those of addresses {} and {created}; the others are as they were. Address {created} has for code from \
             itself a copy of what its creator has for its own code, and all four rights over itself for code from \
             itself and from its creator.\n\n\
             {rows}\n",
            created - 1
        )
    }
}

// The rows that hold something, from a node on.
fn table_of_rows(net: &Net, first: usize) -> String {
    let mut table = String::from("| at address | for code from | has |\n|---|---|---|\n");
    for (at, node) in net.nodes.iter().enumerate().skip(first) {
        let rows = node.rows.iter().enumerate();
        for (origin, row) in rows.filter(|(_, row)| **row != Row::ZERO) {
            let shown = format!("{row:?}");
            let held = shown.trim_start_matches("has ");
            writeln!(table, "| {at} | {origin} | `{held}` |").expect("a string takes every line");
        }
    }
    table
}

#[cfg(test)]
mod tests {
    use super::*;
    /// The same code is refused from 1 and let in from 0; at the new address
    /// code from 0 may what the node's own may not.
    #[test]
    fn the_answers() {
        let example = rows_by_origin();
        let mut net = example.net.clone();
        let answers = example.pick_bytes();
        let answers = answers
            .iter()
            .map(|byte| crate::step::pick(&mut net, *byte));
        let expected = [5, 0, 0, 1, 5, 0, 0, 1, 0, 0, 0, 0, 4, 0, 1, 1, 1];
        assert!(answers.eq(expected));
        assert_eq!(net.address_count, 4);
        assert_eq!(net.nodes[3].tuples[0], from(2, readings(&[7])));
    }
}
