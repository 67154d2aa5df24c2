//! What a process may do is in its host's row for its origin.

use super::*;
use crate::by_hand::*;

const FIVE: [TemplateField; 1] = [TemplateField::Reading(5)];

pub fn all() -> Vec<Stated> {
    together([each_action(), creation(), reading(), forks()])
}

/// Each action with its right, at a target.
fn actions(target: Target) -> [(&'static str, Instruction, Rights); 4] {
    [
        ("in", take(target, &FIVE, 1), TAKE),
        ("read", read(target, &FIVE, 1), READ),
        ("out", out(target, &FIVE, 1), PUT),
        ("eval", eval(target, 1, 1), SEND),
    ]
}

/// At node 1, by code of each origin, at a variable that holds address 2, at
/// this address as written, and at self.
fn each_action() -> Vec<Stated> {
    let mut all = Vec::new();
    for (target, at) in [(HELD, 2), (written(2), 2), (OWN, 1)] {
        for (name, instruction, right) in actions(target) {
            for origin in 0..3 {
                let mut net = idle(3, &[instruction]);
                start_holding(&mut net, 1, origin, 2);
                fill(&mut net, at, &[readings(&[5])]);
                let mut other = net.clone();
                grant_from(&mut net, 1, origin.into(), at, right);
                let held = format!("{name} with its right in the row for its origin, {origin}");
                all.push(Stated::new(&held, net, &[0x10], &[0]));
                // The target's rows are of no avail either.
                grant(&mut other, 2, 2, Rights::ALL);
                grant_all_but(&mut other, 1, origin.into(), at, Rights::ALL);
                let lacking = format!("{name} with all rights in all rows but that for {origin}");
                let before = other.clone();
                all.push(Stated::new(&lacking, other, &[0x10], &[4]).ending(before));
            }
        }
    }
    all
}

/// The same for n.
fn creation() -> Vec<Stated> {
    let mut all = Vec::new();
    for origin in 0..3 {
        let mut net = idle(3, &[new(0, 1)]);
        start(&mut net, 1, 0, origin);
        let mut other = net.clone();
        net.nodes[1].rows[origin as usize].create = true;
        let held = format!("new with n in the row for its origin, {origin}");
        all.push(Stated::new(&held, net, &[0x10], &[0]));
        grant_create(&mut other, 1);
        other.nodes[1].rows[origin as usize].create = false;
        let lacking = format!("new with n in all rows but that for {origin}");
        let before = other.clone();
        all.push(Stated::new(&lacking, other, &[0x10], &[4]).ending(before));
    }
    all
}

/// i includes r in one row, and not from one row to another.
fn reading() -> Vec<Stated> {
    let net = |origin: usize| {
        let mut net = idle(2, &[read(HELD, &FIVE, 1)]);
        start_holding(&mut net, 1, 0, 1);
        fill(&mut net, 1, &[readings(&[5])]);
        grant_from(&mut net, 1, origin, 1, TAKE);
        net
    };
    vec![
        Stated::new(
            "read with i in the row for its origin",
            net(0),
            &[0x10],
            &[0],
        ),
        Stated::new("read with i in the row for its host", net(1), &[0x10], &[4]),
    ]
}

/// Both branches of a fork act under the origin of what forked.
fn forks() -> Vec<Stated> {
    let net = |origin: usize| {
        let mut net = idle(2, &[fork(1, 1), out(HELD, &FIVE, 2)]);
        start_holding(&mut net, 1, 0, 1);
        grant_from(&mut net, 1, origin, 1, PUT);
        net
    };
    let picks = [0x10, 0x10, 0x14];
    vec![
        Stated::new("o for the origin of a fork", net(0), &picks, &[0, 0, 0]),
        Stated::new("o for the host of a fork", net(1), &picks, &[0, 4, 4]),
    ]
}
