//! The edges; the nets that texts give (point 7: the numbers of
//! instructions); texts far longer than any net.

mod format_2;

use super::edges::{brackets, chain, edges, evals};
use super::*;
use crate::by_hand::*;
use crate::net::*;

/// The number a text is refused with, 0 when it is accepted.
fn number(text: &[u8]) -> u8 {
    read_text(text).err().unwrap_or(0)
}

#[test]
fn each_edge_has_its_number() {
    for (text, expected) in edges() {
        let shown = String::from_utf8_lossy(&text[..text.len().min(300)]);
        assert_eq!(number(&text), expected, "{shown}");
    }
}

#[test]
fn every_number_is_met() {
    let met: Vec<u8> = edges().iter().map(|(_, number)| *number).collect();
    let all = [0, 22, 23, 26, 27, 30, 31, 32, 33];
    assert!(all.iter().all(|number| met.contains(number)));
    assert!(met.iter().all(|number| all.contains(number)));
}

/// The code of an accepted text.
fn code(text: &str) -> Vec<Instruction> {
    let net = read_text(text.as_bytes()).expect("it is accepted");
    net.code[..net.code_length as usize].to_vec()
}

const STOP: Instruction = Instruction::STOP;

#[test]
fn the_paper_s_net() {
    let text = "0 has 0:o\n0 :: out(5)@self.nil\n";
    assert_eq!(read_text(text.as_bytes()), Ok(paper_net()));
}

#[test]
fn the_paper_s_row() {
    let net = read_text(b"0 has n 0:io 1:r\n1 has\nA0 = nil\n").expect("it is accepted");
    let mut expected = stops(2, 1);
    grant_create(&mut expected, 0);
    grant(&mut expected, 0, 0, Rights { put: true, ..TAKE });
    grant(&mut expected, 0, 1, READ);
    assert_eq!(net, expected);
}

/// i lets a process read, and r is not written into the row.
#[test]
fn a_row_with_i_alone_comes_back_unchanged() {
    let text = "0 has 0:i\nA0 = read(5)@self.A0\n0 :: A0\n";
    let net = read_text(text.as_bytes()).expect("it is accepted");
    assert!(net.nodes[0].rows.iter().all(|row| row.rights[0] == TAKE));
    assert_eq!(print::text(&from_net::from_net(&net)), text.as_bytes());
}

#[test]
fn every_field_and_target() {
    let text = "0 has\n1 has\nA0 = out(5,@1,self,v0)@1.in(!x0,!u1)@self.read(-1)@v2.A0\n";
    let put = [
        TemplateField::Reading(5),
        TemplateField::Address(Locality(1)),
        TemplateField::Own,
        TemplateField::Variable(0),
    ];
    let formals = [
        TemplateField::FormalReading(0),
        TemplateField::FormalAddress(1),
    ];
    let expected = [
        out(written(1), &put, 1),
        take(OWN, &formals, 2),
        read(Target::Variable(2), &[TemplateField::Reading(-1)], 0),
    ];
    assert_eq!(code(text), expected);
}

/// A fork has its number from its bracket, before both its branches.
#[test]
fn forks() {
    let left = code("0 has\nA0 = ((nil | newloc(u1).nil) | nil)\n");
    let expected = [fork(1, 5), fork(2, 3), STOP, new(1, 4), STOP, STOP];
    assert_eq!(left, expected);
    let right = code("0 has\nA0 = (nil | (nil | newloc(u1).nil))\n");
    let expected = [fork(1, 2), STOP, fork(3, 4), STOP, new(1, 5), STOP];
    assert_eq!(right, expected);
}

/// An eval comes before the process that it sends, and that before the one
/// that follows.
#[test]
fn evals_inside_and_after_one_another() {
    let text = "0 has\nA0 = eval(newloc(u0).eval(nil)@v0.nil)@0.newloc(u1).nil\n";
    let expected = [
        eval(written(0), 1, 5),
        new(0, 2),
        eval(Target::Variable(0), 3, 4),
        STOP,
        STOP,
        new(1, 6),
        STOP,
    ];
    assert_eq!(code(text), expected);
}

/// A name makes no instruction and stands for the first of its body, where
/// a bare name stands for that name's first.
#[test]
fn names() {
    let text = "0 has n 0:e\n\
        A9 = A4\n\
        0 :: A9\n\
        A511 = (A9 | A4)\n\
        A4 = newloc(u0).eval(A511)@self.A7\n\
        A7 = nil\n\
        0 :: A7\n";
    let net = read_text(text.as_bytes()).expect("it is accepted");
    let expected = [fork(1, 1), new(0, 2), eval(OWN, 0, 3), STOP];
    assert_eq!(net.code[..4], expected);
    assert_eq!(net.code_length, 4);
    let places = net.nodes[0].processes.map(|process| process.at.0);
    assert_eq!(places, [1, 3, 0, 0]);
    assert_eq!(net.nodes[0].busy_slots(), 2);
}

/// Instructions are numbered through all lines as they stand; processes
/// fill the slots and tuples are added in the order of their lines.
#[test]
fn lines_in_any_order() {
    let text = "0 has\n1 has\n\
        1 :: <1>\n\
        1 :: nil\n\
        A0 = newloc(u7).nil\n\
        0 :: <@1,-2>\n\
        1 :: A0\n\
        0 :: nil\n\
        1 :: <2>\n\
        1 :: nil\n";
    // Address 1 lacks n, so the text is refused; with n it is accepted.
    assert_eq!(number(text.as_bytes()), 30);
    let text = text.replace("1 has\n", "1 has n\n");
    let mut expected = stops(2, 5);
    grant_create(&mut expected, 1);
    expected.code[1] = new(7, 2);
    let started = |at: u8, places: &[u16]| {
        let mut processes = [Process::FREE; SLOTS];
        for (process, place) in processes.iter_mut().zip(places) {
            *process = Process::starting(Place(*place), Locality(at));
        }
        processes
    };
    expected.nodes[0].processes = started(0, &[3]);
    expected.nodes[1].processes = started(1, &[0, 1, 4]);
    fill(&mut expected, 0, &[Tuple::of(&[address(1), reading(-2)])]);
    fill(&mut expected, 1, &[readings(&[1]), readings(&[2])]);
    assert_eq!(read_text(text.as_bytes()), Ok(expected));
}

#[test]
fn starting_processes_have_their_own_node_as_origin() {
    let text = "0 has\n1 has\n2 has\n2 :: nil\n1 :: nil\n0 :: nil\n2 :: nil\n";
    let net = read_text(text.as_bytes()).expect("it is accepted");
    let origins = |at: usize| net.nodes[at].processes.map(|process| process.origin.0);
    assert_eq!([0, 1, 2].map(origins), [[0; 4], [1, 0, 0, 0], [2, 2, 0, 0]]);
    assert_eq!(net.nodes[2].busy_slots(), 2);
}

#[test]
fn tuples_are_from_their_own_node() {
    let text = "0 has\n1 has\n2 has\nA0 = nil\n2 :: <5>\n1 :: <5>\n2 :: <@0>\n";
    let mut expected = stops(3, 1);
    fill_marked(&mut expected, 1, &[from(1, readings(&[5]))]);
    let second = [from(2, readings(&[5])), from(2, one_address(0))];
    fill_marked(&mut expected, 2, &second);
    assert_eq!(read_text(text.as_bytes()), Ok(expected));
}

#[test]
fn the_deepest_processes() {
    let text = |process: String| format!("0 has 0:e\n0 :: {process}\n");
    let forks = code(&text(brackets(32)));
    assert_eq!((forks.len(), forks[31]), (65, fork(32, 33)));
    assert_eq!(forks[0], fork(1, 64));
    let sent = code(&text(evals(32)));
    assert_eq!((sent.len(), sent[0]), (65, eval(written(0), 1, 64)));
    assert_eq!(sent[31], eval(written(0), 32, 33));
}

#[test]
fn the_widest_net() {
    let net = read_text(&edges::widest()).expect("it is accepted");
    assert_eq!((net.address_count, net.code_length), (16, 512));
    let full = |node: &Node| node.busy_slots() == 4 && node.tuple_count == 16;
    assert!(net.nodes.iter().all(full));
}

/// Texts of a million bytes and more, which no net needs. A reader that
/// went back over what it has read would not come to an end here.
#[test]
fn long_texts() {
    let row = "0 has n 0:iroe\n";
    let after = |lines: String, expected| {
        let text = format!("{row}{lines}");
        assert!(text.len() > 1_000_000);
        assert_eq!(number(text.as_bytes()), expected);
    };
    after(format!("0 :: {}\n", chain(120_000)), 22);
    after("A0 = nil\n".repeat(120_000), 33);
    after("A0 = A1\n".repeat(130_000), 33);
    after("A0 = (A1 | A1)\n".repeat(70_000), 33);
    let sent = "eval((nil | nil))@0.".repeat(60_000);
    after(format!("0 :: {sent}nil\n"), 22);
    let deep = format!("A0 = {}\n", evals(32));
    after(deep.repeat(3_000), 33);
    after(format!("0 :: <{}>\n", "1".repeat(1_000_000)), 31);
    after(format!("{} has\n", "0".repeat(1_000_000)), 31);
    after(format!("{} :: nil\n", "1".repeat(1_000_000)), 31);
    after(format!("0 :: {}", "(".repeat(1_000_000)), 32);
}
