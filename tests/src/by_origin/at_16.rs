//! The most addresses: creation of the last one, and rows for 16 origins.

use super::*;
use crate::by_hand::*;

pub fn all() -> Vec<Stated> {
    together([creation_at_15(), creation_at_16(), every_origin()])
}

/// Fifteen addresses, of which node 9 lets code of each origin create, and
/// put at the address of its origin.
fn fifteen() -> Net {
    let mut net = idle(15, &[new(7, 0)]);
    grant_create(&mut net, 9);
    (0..15).for_each(|origin| grant_from(&mut net, 9, origin, origin, PUT));
    net
}

/// By code from 4 at node 9: address 15 has a row for each of the 16 origins.
fn creation_at_15() -> Vec<Stated> {
    let mut net = fifteen();
    start(&mut net, 9, 0, 4);
    let mut after = net.clone();
    after.address_count = 16;
    after.nodes[9].processes[0].variables[7] = Value::Address(Locality(15));
    after.nodes[15].rows = net.nodes[9].rows;
    after.nodes[15].rows[15] = net.nodes[9].rows[9];
    grant_from(&mut after, 15, 9, 15, Rights::ALL);
    grant_from(&mut after, 15, 15, 15, Rights::ALL);
    grant_from(&mut after, 9, 4, 15, Rights::ALL);
    let picks = [0xF0, 0x90, 0xF0, 0x90];
    vec![Stated::new("creation at 15 addresses", net, &picks, &[8, 0, 7, 3]).ending(after)]
}

/// 3 where the row for the origin has n, 4 where all but that have.
fn creation_at_16() -> Vec<Stated> {
    let mut all = Vec::new();
    for origin in [0, 4, 9, 15] {
        let mut net = idle(16, &[new(0, 1)]);
        start(&mut net, 9, 0, origin);
        let mut lacking = net.clone();
        net.nodes[9].rows[origin as usize].create = true;
        let name = format!("creation at 16 addresses with n for {origin}");
        all.push(Stated::new(&name, net, &[0x90], &[3]));
        grant_create(&mut lacking, 9);
        lacking.nodes[9].rows[origin as usize].create = false;
        let name = format!("creation at 16 addresses with n for all but {origin}");
        all.push(Stated::new(&name, lacking, &[0x90], &[4]));
    }
    all
}

/// At node 15 code of each origin may put at the address of that origin, and
/// nowhere else.
fn every_origin() -> Vec<Stated> {
    let mut net = idle(16, &[out(HELD, &OWN_ADDRESS, 1)]);
    (0..16).for_each(|origin| grant_from(&mut net, 15, origin, origin, PUT));
    let run = |origin: u8, held: u8, answer: u8| {
        let mut net = net.clone();
        start_holding(&mut net, 15, origin, held);
        let name = format!("at 16 addresses, code from {origin} puts at {held}");
        Stated::new(&name, net, &[0xF0], &[answer])
    };
    let all = (0..16).flat_map(|origin| {
        let other = (origin + 1) % 16;
        [run(origin, origin, 0), run(origin, other, 4)]
    });
    all.collect()
}
