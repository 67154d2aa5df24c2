//! Rows by origin in random runs: what a step leaves of them, when the format
//! and the origins do not matter, and that sound nets stay sound.

use super::*;
use crate::generate::{by_origin_net, picks, sound_net_of};
use crate::random::Random;

/// Steps from random nets of format 2, half of them sound nets that no run
/// reaches: the net before, the pick, its answer and the net after.
fn steps(seed: u64, runs: usize, mut look: impl FnMut(&Net, u8, u8, &Net)) {
    let mut random = Random::new(seed);
    for index in 0..runs {
        let mut net = match index % 2 {
            0 => sound_net_of(&mut random, ROW_BY_ORIGIN),
            _ => by_origin_net(&mut random),
        };
        for byte in picks(&mut random, &net, 60) {
            let before = net.clone();
            let answer = pick(&mut net, byte);
            look(&before, byte, answer, &net);
        }
    }
}

// The node and the origin of what a pick is of.
fn host_and_origin(net: &Net, byte: u8) -> (usize, usize) {
    let host = pick_address(byte).0 as usize;
    let process = &net.nodes[host].processes[pick_slot(byte) as usize];
    (host, process.origin.0 as usize)
}

#[test]
fn the_format_and_soundness_are_kept() {
    steps(27, 400, |before, _, answer, after| {
        assert_eq!(after.format, ROW_BY_ORIGIN);
        assert!(sound(after));
        assert!(answer <= STOPPED || before == after);
    });
}

/// No step but a new changes a row; a new changes them as is stated here
/// right by right.
#[test]
fn only_a_new_changes_rows() {
    let (mut news, mut foreign) = (0, 0);
    steps(28, 1_500, |before, byte, _, after| {
        let created = before.address_count as usize;
        if after.address_count == before.address_count {
            let same = |(one, other): (&Node, &Node)| one.rows == other.rows;
            assert!(before.nodes.iter().zip(after.nodes.iter()).all(same));
            return;
        }
        let (host, origin) = host_and_origin(before, byte);
        for (at, node) in after.nodes.iter().enumerate() {
            for (from, row) in node.rows.iter().enumerate() {
                assert_eq!(
                    *row,
                    stated_row(before, (host, origin), created, (at, from))
                );
            }
        }
        news += 1;
        foreign += usize::from(host != origin);
    });
    assert!(news > 1_000 && foreign > 200, "{news} {foreign}");
}

// The row of a node for an origin after this process opened an address.
fn stated_row(before: &Net, process: (usize, usize), created: usize, row: (usize, usize)) -> Row {
    let (creator, origin) = process;
    let (at, from) = row;
    let copied = match (at == created, from == created) {
        (false, _) => before.nodes[at].rows[from],
        (true, false) => before.nodes[creator].rows[from],
        (true, true) => before.nodes[creator].rows[creator],
    };
    let gains = match at == created {
        true => from == created || from == creator,
        false => at == creator && from == origin,
    };
    let mut row = copied;
    if gains {
        row.rights[created] = Rights::ALL;
    }
    row
}

/// An address that was opened a moment ago: nobody else has a right over it,
/// and code from it none anywhere else.
#[test]
fn a_new_address_is_unknown_elsewhere() {
    steps(29, 400, |before, byte, _, after| {
        if after.address_count == before.address_count {
            return;
        }
        let created = before.address_count as usize;
        let (host, origin) = host_and_origin(before, byte);
        for (at, node) in after
            .nodes
            .iter()
            .enumerate()
            .filter(|one| one.0 != created)
        {
            assert_eq!(node.rows[created], Row::ZERO);
            for (from, row) in node.rows.iter().enumerate() {
                let gained = (at, from) == (host, origin);
                assert_eq!(row.rights[created] == Rights::ALL, gained);
                assert!(gained || row.rights[created] == Rights::NONE);
            }
        }
    });
}

// Takes n away from all rows, so that no new is performed.
fn without_creation(net: &mut Net) {
    let rows = net.nodes.iter_mut().flat_map(|node| &mut node.rows);
    rows.for_each(|row| row.create = false);
}

/// As long as no address is opened, a net of format 2 whose nodes have the
/// same row for each origin in use is like that of format 1.
#[test]
fn equal_rows_are_a_single_row() {
    let mut random = Random::new(30);
    let mut met = [0; 7];
    for _ in 0..600 {
        let mut net = sound_net_of(&mut random, SINGLE_ROW);
        without_creation(&mut net);
        let mut other = in_format_2(net.clone());
        for byte in picks(&mut random, &net, 60) {
            let answer = pick(&mut net, byte);
            assert_eq!(pick(&mut other, byte), answer);
            met[usize::from(answer.min(6))] += 1;
        }
        assert_eq!(other, in_format_2(net));
    }
    assert!(met.iter().all(|count| *count > 100), "{met:?}");
}

/// In format 1 every row is document 01's one.
#[test]
fn in_format_1_rows_stay_equal() {
    let mut random = Random::new(31);
    let mut news = 0;
    for _ in 0..600 {
        let mut net = sound_net_of(&mut random, SINGLE_ROW);
        for byte in picks(&mut random, &net, 60) {
            let (before, created) = (net.clone(), net.address_count as usize);
            pick(&mut net, byte);
            if net.address_count == before.address_count {
                continue;
            }
            let host = pick_address(byte).0 as usize;
            let mut row = before.nodes[host].rows[0];
            row.rights[created] = Rights::ALL;
            for at in [host, created] {
                assert_eq!(net.nodes[at].rows, [row; ADDRESSES]);
            }
            news += 1;
        }
    }
    assert!(news > 200, "{news}");
}
