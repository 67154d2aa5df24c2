//! A new: the rows of the new node and of its creator, and what code may do
//! at both.

use super::*;
use crate::by_hand::*;

pub fn all() -> Vec<Stated> {
    together([
        rows_by_own_code(),
        rows_by_code_from_elsewhere(),
        twice(),
        at_a_new_node(),
        gain(),
        sent_to_the_new_node(),
        sent_from_the_new_node(),
        within_the_new_node(),
    ])
}

const NEW: usize = 3;

/// The row with all four rights over an address besides.
fn and_all_over(row: Row, over: usize) -> Row {
    let mut row = row;
    row.rights[over] = Rights::ALL;
    row
}

/// Three addresses whose rows are all different, each with n, and code that
/// opens addresses one after another.
fn varied() -> Net {
    let mut net = idle(3, &[new(0, 0)]);
    for at in 0..3 {
        for origin in 0..3 {
            let row = &mut net.nodes[at].rows[origin];
            row.create = true;
            for (over, rights) in row.rights[..3].iter_mut().enumerate() {
                let held = [1, 2, 4, 8].map(|bit| (5 * at + 3 * origin + 7 * over) & bit != 0);
                let [take, read, put, send] = held;
                *rights = Rights {
                    take,
                    read,
                    put,
                    send,
                };
            }
        }
    }
    net
}

/// The net after a process in slot 0 of a node opened an address.
fn opened(before: &Net, host: usize) -> Net {
    let mut after = before.clone();
    let created = Locality(after.address_count);
    after.address_count += 1;
    after.nodes[host].processes[0].variables[0] = Value::Address(created);
    after
}

/// By code of node 1 itself: the gain is in the same row as the rights that
/// the new node's row for itself has.
fn rows_by_own_code() -> Vec<Stated> {
    let mut net = varied();
    start(&mut net, 1, 0, 1);
    let [first, own, last] = [0, 1, 2].map(|origin| net.nodes[1].rows[origin]);
    let mut after = opened(&net, 1);
    after.nodes[1].rows[1] = and_all_over(own, NEW);
    let gained = and_all_over(own, NEW);
    after.nodes[NEW].rows[..4].copy_from_slice(&[first, gained, last, gained]);
    vec![Stated::new("new by a node's own code", net, &[0x10], &[0]).ending(after)]
}

/// By code from node 0 at node 1: the creator gains in its row for 0, and in
/// no other; the new node has that row as it stood.
fn rows_by_code_from_elsewhere() -> Vec<Stated> {
    let mut net = varied();
    start(&mut net, 1, 0, 0);
    let [first, own, last] = [0, 1, 2].map(|origin| net.nodes[1].rows[origin]);
    let mut after = opened(&net, 1);
    after.nodes[1].rows[0] = and_all_over(first, NEW);
    let gained = and_all_over(own, NEW);
    after.nodes[NEW].rows[..4].copy_from_slice(&[first, gained, last, gained]);
    let still_empty = |node: &Node| node.rows[NEW] == Row::ZERO;
    assert!(after.nodes[..3].iter().all(still_empty));
    vec![Stated::new("new by code from elsewhere", net, &[0x10], &[0]).ending(after)]
}

/// The second new node has the creator's rows with what it gained at the
/// first.
fn twice() -> Vec<Stated> {
    let mut net = varied();
    start(&mut net, 2, 0, 0);
    let [first, middle, own] = [0, 1, 2].map(|origin| net.nodes[2].rows[origin]);
    let mut after = opened(&opened(&net, 2), 2);
    let once = and_all_over(first, 3);
    after.nodes[2].rows[0] = and_all_over(once, 4);
    let third = and_all_over(own, 3);
    after.nodes[3].rows[..4].copy_from_slice(&[first, middle, third, third]);
    let fourth = and_all_over(own, 4);
    after.nodes[4].rows[..5].copy_from_slice(&[once, middle, fourth, Row::ZERO, fourth]);
    vec![Stated::new(
        "two news by code from elsewhere",
        net,
        &[0x20, 0x20],
        &[0, 0],
    )
    .ending(after)]
}

/// Node 0 opens address 3 and sends code there that opens address 4: code
/// from 0 at node 3, whose row for 0 gains.
fn at_a_new_node() -> Vec<Stated> {
    let mut net = idle(3, &[new(0, 1), eval(HELD, 2, 3), new(1, 3)]);
    start(&mut net, 0, 0, 0);
    grant_from(&mut net, 0, 0, 2, PUT);
    grant_from(&mut net, 0, 1, 1, READ);
    net.nodes[0].rows[0].create = true;
    let mut after = net.clone();
    after.address_count = 5;
    let own = and_all_over(net.nodes[0].rows[0], 3);
    let other = net.nodes[0].rows[1];
    after.nodes[0].rows[0] = own;
    after.nodes[3].rows[..4].copy_from_slice(&[own, other, Row::ZERO, own]);
    let of_4 = [own, other, Row::ZERO, own, own];
    after.nodes[4].rows[..5].copy_from_slice(&of_4);
    after.nodes[3].rows[0] = and_all_over(own, 4);
    after.nodes[4].rows[3] = and_all_over(own, 4);
    after.nodes[4].rows[4] = and_all_over(own, 4);
    start_holding(&mut after, 3, 0, 3);
    after.nodes[3].processes[0].at = Place(3);
    after.nodes[3].processes[0].variables[1] = Value::Address(Locality(4));
    after.nodes[0].processes[0].at = Place(3);
    after.nodes[0].processes[0].variables[0] = Value::Address(Locality(3));
    let picks = [0x00, 0x00, 0x30];
    vec![Stated::new("new at a new node", net, &picks, &[0, 0, 0]).ending(after)]
}

/// At node 1 a process of one origin opens an address and puts it into the
/// store there; one of another takes it. Each then puts a tuple at the new
/// address, which only the first may.
fn gain() -> Vec<Stated> {
    let held = [TemplateField::Variable(0)];
    let code = [
        new(0, 1),
        out(OWN, &held, 4),
        take(OWN, &[TemplateField::FormalAddress(0)], 4),
        Instruction::STOP,
        out(HELD, &held, 3),
    ];
    let run = |name: &str, creator: u8, other: u8| {
        let mut net = idle(3, &code);
        grant(&mut net, 1, 1, Rights { take: true, ..PUT });
        grant_create(&mut net, 1);
        start(&mut net, 1, 0, creator);
        start(&mut net, 1, 2, other);
        let picks = [0x10, 0x10, 0x14, 0x14, 0x10, 0x10];
        Stated::new(name, net, &picks, &[0, 0, 0, 4, 0, 1])
    };
    vec![
        run("code from 0 creates, the node's own gains nothing", 0, 1),
        run("code from 0 creates, code from 2 gains nothing", 0, 2),
        run(
            "the node's own code creates, code from 0 gains nothing",
            1,
            0,
        ),
    ]
}

/// Code that node 1 sends to an address it opened: it may do everything
/// there, whatever the origin of what sent it, and elsewhere what node 1 lets
/// its own code do.
fn sent_to_the_new_node() -> Vec<Stated> {
    let mut all = Vec::new();
    for (origin, by, answer) in [(1, 1, 0), (0, 1, 0), (1, 0, 5), (0, 0, 5)] {
        let code = [
            new(0, 1),
            eval(HELD, 2, 4),
            out(OWN, &OWN_ADDRESS, 3),
            out(written(2), &OWN_ADDRESS, 4),
        ];
        let mut net = idle(3, &code);
        start(&mut net, 1, 0, origin);
        net.nodes[1].rows[origin as usize].create = true;
        // In the creator's row for itself, or for code from elsewhere.
        grant_from(&mut net, 1, by, 2, PUT);
        let name = format!("sent to a new node by code of {origin}, o at 2 for {by}");
        let there = if answer == 0 { [0, 0, 1] } else { [7; 3] };
        let picks = [0x10, 0x10, 0x30, 0x30, 0x30];
        let answers = [0, answer, there[0], there[1], there[2]];
        all.push(Stated::new(&name, net, &picks, &answers));
    }
    all
}

/// Node 0 opens address 2 and sends code there, which sends on: to node 1, or
/// back to node 0. Both have an empty row for code from 2.
fn sent_from_the_new_node() -> Vec<Stated> {
    let mut all = Vec::new();
    for target in 0..2 {
        let run = |name: &str, sent: Instruction, answers: &[u8]| {
            let code = [new(0, 1), eval(HELD, 2, 4), eval(written(target), 3, 4)];
            let mut net = idle(2, &[&code[..], &[sent]].concat());
            start(&mut net, 0, 0, 0);
            grant_create(&mut net, 0);
            for at in 0..2 {
                (0..2).for_each(|over| grant(&mut net, at, over, Rights::ALL));
            }
            let (slot, host) = (if target == 0 { 1 } else { 0 }, target);
            let picks = [0x00, 0x00, 0x20, host << 4 | slot << 2];
            let name = format!("{name} sent from a new node to {target}");
            Stated::new(&name, net, &picks, answers)
        };
        all.extend([
            run("an out", out(OWN, &OWN_ADDRESS, 4), &[0, 0, 5, 7]),
            run("a new", new(1, 4), &[0, 0, 5, 7]),
            run("a stop", Instruction::STOP, &[0, 0, 0, 1]),
            // At a variable, here the new address: judged when it runs.
            run(
                "an out at a variable",
                out(HELD, &OWN_ADDRESS, 4),
                &[0, 0, 0, 4],
            ),
        ]);
    }
    all
}

/// A node that was opened by code from 0 at node 1, and at it code of each
/// origin: what puts at the new node itself, and what at node 2. Node 1's own
/// code may put at 2 and code from 0 may not, or the other way round.
fn within_the_new_node() -> Vec<Stated> {
    let mut all = Vec::new();
    for by in [0, 1] {
        let mut before = idle(3, &[out(HELD, &OWN_ADDRESS, 0)]);
        grant_from(&mut before, 1, by, 2, PUT);
        let rows = before.nodes[1].rows;
        let mut net = before;
        net.address_count = 4;
        net.nodes[1].rows[0] = and_all_over(rows[0], NEW);
        let gained = and_all_over(rows[1], NEW);
        net.nodes[NEW].rows[..4].copy_from_slice(&[rows[0], gained, rows[2], gained]);
        for (held, allowed) in [(3, [false, true, false, true]), (2, may_put_at_2(by))] {
            let mut net = net.clone();
            (0..4).for_each(|origin| start_holding(&mut net, NEW, origin, held));
            let name = format!("at a new node, o at 2 for {by}, puts at {held}");
            let answers = allowed.map(|allowed| if allowed { 0 } else { 4 });
            let picks = [0x30, 0x34, 0x38, 0x3C];
            all.push(Stated::new(&name, net, &picks, &answers));
        }
    }
    all
}

// Code of the creator and of the new node itself may what the creator's own
// code may; code from 0 what it may at the creator.
fn may_put_at_2(by: usize) -> [bool; 4] {
    [by == 0, by == 1, false, by == 1]
}
