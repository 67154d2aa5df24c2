//! The nets that texts of format 2 give, and long ones.

use super::*;
use crate::notation::edges::{deepest_of_format_2, full_rows, rows_by_origin, widest_of_format_2};

fn net_of(text: &str) -> Net {
    read_text(text.as_bytes()).expect("it is accepted")
}

#[test]
fn the_paper_s_net_in_format_2() {
    let text = "0 from 0 has 0:o\n0 :: out(5)@self.nil\n";
    assert_eq!(net_of(text), in_format_2(paper_net()));
}

/// Each row is where its node and its origin say, and no other holds a right.
#[test]
fn each_row_has_its_place() {
    let text = "\
        0 from 0 has n\n0 from 1 has 0:i\n0 from 2 has 1:r\n\
        1 from 0 has 2:o\n1 from 1 has\n1 from 2 has 0:e\n\
        2 from 0 has n 0:iroe 2:io\n2 from 1 has 1:re\n2 from 2 has 2:iro\n\
        A0 = nil\n";
    let mut expected = in_format_2(stops(3, 1));
    for (at, origin) in [(0, 0), (2, 0)] {
        expected.nodes[at].rows[origin].create = true;
    }
    let both = |one: Rights, other: Rights| Rights {
        take: one.take || other.take,
        read: one.read || other.read,
        put: one.put || other.put,
        send: one.send || other.send,
    };
    for (at, origin, over, rights) in [
        (0, 1, 0, TAKE),
        (0, 2, 1, READ),
        (1, 0, 2, PUT),
        (1, 2, 0, SEND),
        (2, 0, 0, Rights::ALL),
        (2, 0, 2, both(TAKE, PUT)),
        (2, 1, 1, both(READ, SEND)),
        (2, 2, 2, both(both(TAKE, READ), PUT)),
    ] {
        grant_from(&mut expected, at, origin, over, rights);
    }
    assert_eq!(net_of(text), expected);
}

#[test]
fn sixteen_nodes() {
    let net = net_of(&(full_rows(16) + "A0 = nil\n"));
    assert_eq!((net.format, net.address_count), (2, 16));
    assert!(net
        .nodes
        .iter()
        .all(|node| node.rows == [Row::ALL; ADDRESSES]));
    let none = net_of(&(rows_by_origin(16) + "A0 = nil\n"));
    assert_eq!(none, in_format_2(stops(16, 1)));
}

/// A set of one is no address, and the empty set is one.
#[test]
fn outs_to_sets() {
    let text = full_rows(3) + "0 :: out(5)@{0,2}.out(v1,self)@{1}.out(@2)@{}.out(5)@1.nil\n";
    let net = net_of(&text);
    let five = [TemplateField::Reading(5)];
    let expected = [
        out_to_set(&[0, 2], &five, 1),
        out_to_set(&[1], &[TemplateField::Variable(1), TemplateField::Own], 2),
        out_to_set(&[], &[TemplateField::Address(Locality(2))], 3),
        out(written(1), &five, 4),
        STOP,
    ];
    assert_eq!(net.code[..5], expected);
    assert_eq!(net.code_length, 5);
    let text = full_rows(16) + "A0 = out(5)@{0,1,2,3,4,5,6,7,8,9,10,11,12,13,14,15}.A0\n";
    let all: Vec<u8> = (0..16).collect();
    assert_eq!(net_of(&text).code[0], out_to_set(&all, &five, 0));
}

/// Processes have their own nodes as origins, and tuples as marks.
#[test]
fn processes_and_tuples() {
    let lines = "1 :: <5>\n1 :: nil\n0 :: nil\n1 :: <@0>\n";
    let net = net_of(&(rows_by_origin(2) + lines));
    let mut expected = in_format_2(stops(2, 2));
    expected.nodes[1].processes[0] = Process::starting(Place(0), Locality(1));
    expected.nodes[0].processes[0] = Process::starting(Place(1), Locality(0));
    fill(&mut expected, 1, &[readings(&[5]), one_address(0)]);
    assert_eq!(net, expected);
}

#[test]
fn the_deepest_and_the_widest() {
    let deepest = read_text(&deepest_of_format_2()).expect("it is accepted");
    let is_set = |one: &&Instruction| matches!(one.action, Action::OutToSet { .. });
    assert_eq!(deepest.code.iter().filter(is_set).count(), 2);
    let text = widest_of_format_2();
    assert!(text.len() <= 65_535, "{}", text.len());
    let net = read_text(&text).expect("it is accepted");
    assert_eq!((net.address_count, net.code_length), (16, 512));
    assert_eq!(net.code.iter().filter(is_set).count(), 448);
    let full = |node: &Node| node.busy_slots() == 4 && node.tuple_count == 16;
    assert!(net.nodes.iter().all(full));
}

/// Texts of a million bytes, most of them in the rows.
#[test]
fn long_texts_of_format_2() {
    let row = "0 from 0 has n 0:iroe\n";
    let zeros = "0".repeat(1_000_000);
    let (sixteen, all) = (rows_by_origin(16), "0 from 0 has\n".repeat(80_000));
    let fifteen = rows_by_origin(15).repeat(400);
    for (text, expected) in [
        (format!("{row}0 :: {}\n", chain(120_000)), 22),
        (
            format!("{row}{}", "A0 = out(5)@{0}.A1\n".repeat(60_000)),
            33,
        ),
        (format!("{zeros} from 0 has\n"), 31),
        (format!("0 from {zeros} has\n"), 31),
        (format!("{sixteen}{zeros} from 0 has\n"), 22),
        (format!("{row}0 :: out(5)@{{{zeros}}}.nil\n"), 31),
        (format!("{row}0 :: out(5)@{{{}", "0,".repeat(500_000)), 31),
        (format!("{sixteen}{all}"), 22),
        (all, 31),
        (fifteen, 31),
    ] {
        assert!(text.len() > 1_000_000);
        assert_eq!(number(text.as_bytes()), expected);
    }
}
