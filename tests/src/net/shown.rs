//! Nets as failures show them: rights by their letters, sets by their members,
//! and no record that is zero.

use super::*;
use std::fmt::{Debug, Formatter, Result};

/// The letters of what is held, in the order i, r, o, e.
impl Debug for Rights {
    fn fmt(&self, out: &mut Formatter) -> Result {
        let held = [self.take, self.read, self.put, self.send];
        let letters = "iroe".chars().zip(held);
        out.write_str(
            &letters
                .filter(|one| one.1)
                .map(|one| one.0)
                .collect::<String>(),
        )
    }
}

/// As in the planners' notation: n, then the addresses over which there are
/// rights.
impl Debug for Row {
    fn fmt(&self, out: &mut Formatter) -> Result {
        out.write_str(if self.create { "has n" } else { "has" })?;
        let all = self.rights.iter().enumerate();
        for (over, rights) in all.filter(|(_, rights)| **rights != Rights::NONE) {
            write!(out, " {over}:{rights:?}")?;
        }
        Ok(())
    }
}

/// As document 02, slip 13, writes it.
impl Debug for Set {
    fn fmt(&self, out: &mut Formatter) -> Result {
        let members: Vec<String> = self.members().map(|member| member.0.to_string()).collect();
        write!(out, "{{{}}}", members.join(","))
    }
}

/// One row where all are equal.
impl Debug for Node {
    fn fmt(&self, out: &mut Formatter) -> Result {
        let mut node = out.debug_struct("Node");
        if self.rows == [self.rows[0]; ADDRESSES] {
            node.field("each_row", &self.rows[0]);
        } else {
            node.field("rows", &Others(&self.rows, &Row::ZERO));
        }
        node.field("processes", &Others(&self.processes, &Process::FREE));
        node.field("tuple_count", &self.tuple_count);
        node.field("tuples", &Others(&self.tuples, &Tuple::ZERO));
        node.finish()
    }
}

impl Debug for Net {
    fn fmt(&self, out: &mut Formatter) -> Result {
        let mut net = out.debug_struct("Net");
        net.field("format", &self.format);
        net.field("address_count", &self.address_count);
        net.field("code_length", &self.code_length);
        net.field("nodes", &Others(&self.nodes[..], &Node::ZERO));
        net.field("code", &Others(&self.code[..], &Instruction::STOP));
        net.finish()
    }
}

/// Records by their numbers, without those that are zero.
struct Others<'a, T>(&'a [T], &'a T);

impl<T: Debug + PartialEq> Debug for Others<'_, T> {
    fn fmt(&self, out: &mut Formatter) -> Result {
        let all = self.0.iter().enumerate();
        out.debug_map()
            .entries(all.filter(|(_, one)| *one != self.1))
            .finish()
    }
}

#[cfg(test)]
mod tests {
    use crate::by_hand::*;
    use crate::net::*;

    #[test]
    fn rows_are_shown_by_their_letters() {
        let mut row = Row::ZERO;
        assert_eq!(format!("{row:?}"), "has");
        row.create = true;
        row.rights[0] = Rights { take: true, ..PUT };
        row.rights[15] = Rights::ALL;
        assert_eq!(format!("{row:?}"), "has n 0:io 15:iroe");
    }

    #[test]
    fn sets_are_shown_by_their_members() {
        assert_eq!(format!("{:?}", Set::EMPTY), "{}");
        assert_eq!(format!("{:?}", Set(0xA001)), "{0,2,15}");
    }

    #[test]
    fn zero_records_are_left_away() {
        let mut net = paper_net();
        let shown = format!("{net:?}");
        assert!(shown.contains("each_row: has 0:o,"), "{shown}");
        assert!(shown.len() < 600, "{shown}");
        net.nodes[0].rows[9] = Row::ZERO;
        net.nodes[3].tuples[4].from = Locality(1);
        let shown = format!("{net:?}");
        assert!(shown.contains("rows: {0: has 0:o, 1: has 0:o,"), "{shown}");
        assert!(shown.contains("8: has 0:o, 10: has 0:o,"), "{shown}");
        assert!(shown.contains("3: Node") && shown.contains("tuples: {4: Tuple"));
    }
}
