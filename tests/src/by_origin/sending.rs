//! Sent code is judged by the target's row for the node that sent it, and
//! acts under that row.

use super::*;
use crate::by_hand::*;

pub fn all() -> Vec<Stated> {
    together([
        first_hop(),
        second_hop(),
        sent_back(),
        to_itself(),
        forked(),
        barred_or_full(),
    ])
}

/// Node 0 may send to 1, by its row for itself, and sends an out at self.
fn sending_to_1() -> Net {
    let mut net = idle(3, &[eval(written(1), 1, 2), out(OWN, &OWN_ADDRESS, 2)]);
    start(&mut net, 0, 0, 0);
    grant_from(&mut net, 0, 0, 1, SEND);
    net
}

fn first_hop() -> Vec<Stated> {
    let picks = [0x00, 0x10, 0x10];
    let (mut held, mut lacking) = (sending_to_1(), sending_to_1());
    grant_from(&mut held, 1, 0, 1, PUT);
    grant_all_but(&mut lacking, 1, 0, 1, Rights::ALL);
    // The sender's own rights do not matter.
    grant(&mut lacking, 0, 0, Rights::ALL);
    let mut after = held.clone();
    after.nodes[0].processes[0].at = Place(2);
    fill(&mut after, 1, &[one_address(1)]);
    let before = lacking.clone();
    vec![
        Stated::new("o for the sender alone", held, &picks, &[0, 0, 1]).ending(after),
        Stated::new("o for all but the sender", lacking, &picks, &[5, 7, 7]).ending(before),
    ]
}

/// Node 0 sends to 1, and the code there sends on to 2, by node 1's row for
/// origin 0. Its origin is then 1.
fn second_hop() -> Vec<Stated> {
    let net = |by: usize| {
        let sends = [eval(written(1), 1, 3), eval(written(2), 2, 3)];
        let mut net = idle(3, &[&sends[..], &[out(OWN, &OWN_ADDRESS, 3)]].concat());
        start(&mut net, 0, 0, 0);
        grant_from(&mut net, 0, 0, 1, SEND);
        grant_from(&mut net, 1, by, 2, SEND);
        net
    };
    let picks = [0x00, 0x10, 0x20];
    let (mut held, mut lacking) = (net(0), net(0));
    grant_from(&mut held, 2, 1, 2, PUT);
    grant_all_but(&mut lacking, 2, 1, 2, Rights::ALL);
    let mut after = held.clone();
    after.nodes[0].processes[0].at = Place(3);
    start(&mut after, 1, 3, 0);
    start(&mut after, 2, 3, 1);
    fill(&mut after, 2, &[one_address(2)]);
    let mut barred = net(1);
    grant(&mut barred, 2, 2, Rights::ALL);
    vec![
        Stated::new("o for the last sender alone", held, &picks, &[0, 0, 0]).ending(after),
        Stated::new("o for all but the last sender", lacking, &picks, &[0, 5, 7]),
        Stated::new("e between for the node between", barred, &picks, &[5, 7, 7]),
    ]
}

/// Node 0 sends to 1, and the code there sends back: at node 0 its origin is
/// 1, and not 0 again.
fn sent_back() -> Vec<Stated> {
    let net = |origin: usize| {
        let sends = [eval(written(1), 1, 3), eval(written(0), 2, 3)];
        let mut net = idle(2, &[&sends[..], &[out(OWN, &OWN_ADDRESS, 3)]].concat());
        start(&mut net, 0, 0, 0);
        grant_from(&mut net, 0, 0, 1, SEND);
        grant_from(&mut net, 1, 0, 0, SEND);
        grant_from(&mut net, 0, origin, 0, PUT);
        net
    };
    let picks = [0x00, 0x10, 0x04];
    vec![
        Stated::new(
            "sent back, o for the other node",
            net(1),
            &picks,
            &[0, 0, 0],
        ),
        Stated::new(
            "sent back, o for the node itself",
            net(0),
            &picks,
            &[0, 5, 7],
        ),
    ]
}

/// Code from node 0 at node 1 sends code to node 1 itself, which then has
/// node 1 as origin.
fn to_itself() -> Vec<Stated> {
    let net = |origin: usize| {
        let mut net = idle(2, &[eval(OWN, 1, 2), out(OWN, &OWN_ADDRESS, 2)]);
        start(&mut net, 1, 0, 0);
        grant_from(&mut net, 1, 0, 1, SEND);
        let rights = Rights {
            put: true,
            send: origin == 0,
            ..NONE
        };
        grant_from(&mut net, 1, origin, 1, rights);
        net
    };
    let mut after = net(1);
    after.nodes[1].processes[0].at = Place(2);
    start(&mut after, 1, 2, 1);
    fill(&mut after, 1, &[one_address(1)]);
    let picks = [0x10, 0x14];
    vec![
        Stated::new("to itself, o for itself", net(1), &picks, &[0, 0]).ending(after),
        Stated::new("to itself, o for the first sender", net(0), &picks, &[5, 7]),
    ]
}

/// Sent code that forks: on arrival both branches are judged by the row for
/// the sender, and they act under it.
fn forked() -> Vec<Stated> {
    let net = |origin: usize| {
        let code = [
            eval(written(1), 1, 3),
            fork(2, 2),
            out(OWN, &OWN_ADDRESS, 3),
        ];
        let mut net = idle(3, &code);
        start(&mut net, 2, 0, 2);
        grant_from(&mut net, 2, 2, 1, SEND);
        grant_from(&mut net, 1, origin, 1, PUT);
        net
    };
    let picks = [0x20, 0x10, 0x10, 0x14, 0x10];
    vec![
        Stated::new(
            "a sent fork, o for the sender",
            net(2),
            &picks,
            &[0, 0, 0, 0, 1],
        ),
        Stated::new(
            "a sent fork, o for the target",
            net(1),
            &picks,
            &[5, 7, 7, 7, 7],
        ),
    ]
}

/// 4 before 5, and 5 before 3.
fn barred_or_full() -> Vec<Stated> {
    let mut full = sending_to_1();
    (0..4).for_each(|_| start(&mut full, 1, 2, 1));
    let mut unsent = full.clone();
    grant(&mut unsent, 0, 1, Rights::ALL);
    grant_from(&mut unsent, 0, 0, 1, PUT);
    let (mut barred, mut admitted) = (full.clone(), full);
    grant_all_but(&mut barred, 1, 0, 1, Rights::ALL);
    grant_from(&mut admitted, 1, 0, 1, PUT);
    vec![
        Stated::new("e for all but the origin", unsent, &[0], &[4]),
        Stated::new("o for all but the sender, no slot", barred, &[0], &[5]),
        Stated::new("o for the sender, no slot", admitted, &[0], &[3]),
    ]
}
