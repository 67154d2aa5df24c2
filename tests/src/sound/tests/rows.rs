//! The format of a sound net, and its rows in each format.

use super::*;
use crate::by_hand::{in_format_2, stops};

/// Each node, each of its rows, and each address.
fn all_rights() -> impl Iterator<Item = (usize, usize, usize)> {
    let each = || 0..ADDRESSES;
    let rows = each().flat_map(move |at| each().map(move |origin| (at, origin)));
    rows.flat_map(move |(at, origin)| each().map(move |over| (at, origin, over)))
}

/// Whatever else a net without rights holds.
#[test]
fn there_are_two_formats() {
    for format in 0..=255 {
        let mut net = small();
        net.nodes[..2]
            .iter_mut()
            .for_each(|node| node.rows.fill(Row::ZERO));
        net.format = format;
        assert_eq!(sound(&net), format == 1 || format == 2);
    }
}

/// Rows with rights stand in both formats only where all 16 origins are in
/// use.
#[test]
fn rows_of_one_format_are_not_sound_in_the_other() {
    for addresses in 1..=16 {
        let mut net = stops(addresses, 1);
        net.each_row(0, |row| row.create = true);
        assert!(sound(&net));
        net.format = ROW_BY_ORIGIN;
        assert_eq!(sound(&net), addresses == 16);
        let mut net = in_format_2(net);
        assert!(sound(&net));
        net.format = SINGLE_ROW;
        assert_eq!(sound(&net), addresses == 16);
    }
}

/// At a node in use or not, for a used origin or not.
#[test]
fn in_format_1_no_row_differs_from_the_others() {
    for at in 0..ADDRESSES {
        for origin in 0..ADDRESSES {
            assert!(!after(|net| net.nodes[at].rows[origin].create = true));
            assert!(!after(|net| net.nodes[at].rows[origin].rights[0] = SEND));
        }
        assert_eq!(
            after(|net| net.each_row(at, |row| row.create = true)),
            at < 2
        );
    }
    assert!(!after(|net| net.nodes[1].rows[15] = Row::ZERO));
    assert!(!after(|net| net.nodes[1].rows[..15].fill(Row::ZERO)));
}

/// The rows for origins in use may hold any rights over addresses in use; the
/// others hold none, n not either.
#[test]
fn in_format_2_rows_for_unused_origins_hold_nothing() {
    let net = in_format_2(small());
    assert!(sound(&net));
    let one_of_each = [TAKE, READ, PUT, SEND];
    for (at, origin, over) in all_rights() {
        let mut changed = net.clone();
        changed.nodes[at].rows[origin].rights[over] = one_of_each[over % 4];
        let used = at < 2 && origin < 2;
        assert_eq!(sound(&changed), used && over < 2);
        let mut changed = net.clone();
        changed.nodes[at].rows[origin].create = true;
        assert_eq!(sound(&changed), used);
    }
}

#[test]
fn at_16_addresses_every_row_of_format_2_may_hold_any_right() {
    let net = in_format_2(stops(16, 1));
    for (at, origin, over) in all_rights().step_by(7) {
        let mut changed = net.clone();
        changed.nodes[at].rows[origin].rights[over] = READ;
        changed.nodes[over].rows[at].create = true;
        assert!(sound(&changed));
    }
}
