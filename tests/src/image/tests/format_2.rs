//! Images of format 2: each node has a row for each address as origin, and
//! there are outs to a set.
//!
//! Of an image with two addresses the bits are: 19 the row of node 0 for
//! origin 0, 28 that for origin 1, 37 and 46 those of node 1, 55 the process
//! count of node 0.

use super::*;
use crate::bits::Sort;

/// Two addresses, no process, no tuple and one stop, with these four rows.
fn two(rows: [&str; 4]) -> Vec<u8> {
    let rows = rows.join(" ");
    bits(&format!(
        "0010 00010 0000000001 {rows} 000 000 00000 00000 000"
    ))
}

const NOTHING: &str = "0 0000 0000";

#[test]
fn one_stop_is_accepted() {
    let mut image = ONE_STOP;
    image[0] = 0x20;
    assert_eq!(read_image(&image), Ok(in_format_2(stops(1, 1))));
    assert_eq!(write_image(&in_format_2(stops(1, 1))), image);
}

/// A net with one address has as many bits in both formats.
#[test]
fn the_register_s_image_with_the_other_format() {
    let mut image = PAPER_IMAGE;
    image[0] = 0x20;
    let net = read_image(&image).unwrap();
    assert_eq!(net, in_format_2(paper_net()));
    assert_eq!(net.nodes[0].rows[1..], [Row::ZERO; 15]);
    assert_eq!(write_image(&net), image);
}

/// Of a node one row after another, then those of the next node.
#[test]
fn rows_stand_by_node_and_then_by_origin() {
    for place in 0..4 {
        let mut rows = [NOTHING; 4];
        rows[place] = "1 1000 0001";
        let net = read_image(&two(rows)).unwrap();
        let mut expected = in_format_2(stops(2, 1));
        let (at, origin) = (place / 2, place % 2);
        expected.nodes[at].rows[origin].create = true;
        grant_from(&mut expected, at, origin, 0, TAKE);
        grant_from(&mut expected, at, origin, 1, SEND);
        assert_eq!(net, expected);
        assert_eq!(write_image(&net), two(rows));
    }
}

/// Of each node in use; the others have no row.
#[test]
fn rows_for_unused_origins_are_empty() {
    let net = read_image(&two(["1 1111 1111"; 4])).unwrap();
    for (at, node) in net.nodes.iter().enumerate() {
        for (origin, row) in node.rows.iter().enumerate() {
            let held = at < 2 && origin < 2;
            assert_eq!(row.create, held);
            assert_eq!(row.rights[1] == Rights::ALL, held);
            assert!(held || *row == Row::ZERO);
        }
    }
}

/// In format 1 a single row goes to every origin, used or not.
#[test]
fn format_1_has_one_row_for_all_origins() {
    let rows = "1 1111 0000 0 0000 0010";
    let image = bits(&format!(
        "0001 00010 0000000001 {rows} 000 000 00000 00000 000"
    ));
    let net = read_image(&image).unwrap();
    for (node, create) in net.nodes[..2].iter().zip([true, false]) {
        assert_eq!(node.rows, [node.rows[0]; ADDRESSES]);
        assert_eq!(node.rows[0].create, create);
    }
    assert!(net.nodes[2..].iter().all(|node| *node == Node::ZERO));
}

/// The same bits after the format are another image.
#[test]
fn a_format_1_image_of_two_addresses_read_as_format_2() {
    let (mut image, fields) = write_with_fields(&stops(2, 1));
    assert_eq!(fields.last().map(FieldAt::end), Some(56));
    assert_eq!(answer(&image), ACCEPTED);
    image[0] ^= 0x30;
    // One bit is left after the four rows.
    assert_eq!(answer(&image), (28, 55));
    let (mut image, _) = write_with_fields(&in_format_2(stops(2, 1)));
    image[0] ^= 0x30;
    // Twelve bits of counts, three of a stop, and then a whole byte.
    assert_eq!(answer(&image), (29, 56));
}

/// The row that ends early, its n and its rights.
#[test]
fn a_cut_row_is_28() {
    let image = two(["1 1111 1111"; 4]);
    let begins = [0, 4, 9, 24, 29, 38, 47, 55];
    for (length, bit) in begins.into_iter().enumerate() {
        assert_eq!(answer(&image[..length]), (28, bit));
    }
}

/// A new started at a node needs n in the node's row for itself.
#[test]
fn starting_processes_are_judged_by_the_row_for_the_node_itself() {
    let image = |rows: [&str; 4], processes: &str| {
        let rows = rows.join(" ");
        let tail = "00000 00000 101 000 000000000";
        answer(&bits(&format!(
            "0010 00010 0000000001 {rows} {processes} {tail}"
        )))
    };
    let (n, none) = ("1 0000 0000", NOTHING);
    let (first, second) = ("001 000000000 000", "000 001 000000000");
    assert_eq!(image([n, none, none, none], first), ACCEPTED);
    assert_eq!(image([none, n, n, n], first), (30, 58));
    assert_eq!(image([none, none, none, n], second), ACCEPTED);
    assert_eq!(image([n, n, n, none], second), (30, 61));
}

#[test]
fn sixteen_addresses_have_256_rows() {
    let mut net = in_format_2(stops(16, 1));
    for at in 0..ADDRESSES {
        for origin in 0..ADDRESSES {
            net.nodes[at].rows[origin].create = (at + origin) % 3 == 0;
            grant_from(&mut net, at, origin, (at * origin) % 16, PUT);
        }
    }
    let (bytes, fields) = write_with_fields(&net);
    assert_eq!(
        fields.last().map(FieldAt::end),
        Some(19 + 256 * 65 + 16 * 8 + 3)
    );
    assert_eq!(read_image(&bytes), Ok(net));
}

#[test]
fn the_longest_image_has_17339_bytes() {
    let net = longest_of_format_2();
    let mut bytes = write_image(&net);
    assert_eq!(bytes.len(), 17_339);
    assert_eq!(read_image(&bytes), Ok(net));
    assert_eq!(answer(&bytes[..17_338]), (28, 117_978 + 15_600 + 5_120));
    bytes.push(0);
    assert_eq!(answer(&bytes), (29, 117_987 + 15_600 + 5_120));
}

#[test]
fn the_longest_image_without_sets_has_16699_bytes() {
    let net = longest_without_sets();
    let bytes = write_image(&net);
    assert_eq!(bytes.len(), 16_699);
    assert_eq!(read_image(&bytes), Ok(net));
}

/// As many bits in each part as an accepted image can have, added up.
#[test]
fn no_image_is_longer() {
    let rows = 16 * 16 * (1 + 16 * 4);
    let processes = 16 * (3 + 4 * 9);
    let tuples = 16 * (5 + 16 * (2 + 4 * (1 + 32)));
    let to_a_set = 3 + 16 + 2 + 4 * (3 + 32) + 9;
    let bits: usize = 4 + 5 + 10 + rows + processes + tuples + 512 * to_a_set;
    assert_eq!(bits.div_ceil(8), 17_339);
    let of_format_1 = bits - 15 * 16 * (1 + 16 * 4) - 512 * 10;
    assert_eq!(of_format_1.div_ceil(8), 14_749);
}

// Outs to a set.

/// One address and one instruction, of these bits, in this format.
fn one(format: u8, code: &str) -> Vec<u8> {
    bits(&format!(
        "{format:04b} 00001 0000000001 0 0000 000 00000 {code}"
    ))
}

/// The members, then what an out has after its target.
#[test]
fn an_out_to_a_set_is_read() {
    let head = "0010 00011 0000000001 0 0010 0010 0010";
    let none = "0 0000 0000 0000 ".repeat(8);
    let rest = "001 000000000 000 000 00000 00000 00000";
    let code = "111 1010000000000000 10 010 001 0010 011 111 000000000";
    let image = bits(&format!("{head} {none} {rest} {code}"));
    let mut net = in_format_2(stops(3, 1));
    (0..3).for_each(|over| grant_from(&mut net, 0, 0, over, PUT));
    net.nodes[0].processes[0] = Process::starting(Place(0), Locality(0));
    let fields = [
        TemplateField::Own,
        TemplateField::Address(Locality(2)),
        TemplateField::Variable(7),
    ];
    net.code[0] = out_to_set(&[0, 2], &fields, 0);
    assert_eq!(read_image(&image), Ok(net.clone()));
    assert_eq!(write_image(&net), image);
}

/// Whatever its members and what follows.
#[test]
fn action_7_in_format_1_is_25() {
    for set in ["0000000000000000", "1000000000000000", "0100000000000000"] {
        let code = format!("111 {set} 00 010 000000000");
        assert_eq!(answer(&one(1, &code)), (25, 32));
    }
    assert_eq!(
        answer(&one(2, "111 1000000000000000 00 010 000000000")),
        ACCEPTED
    );
    assert_eq!(
        answer(&one(2, "111 0000000000000000 00 010 000000000")),
        ACCEPTED
    );
}

/// Each set of one member, and all of them, at each count: the 16 bits are
/// at fault together, from their first one on.
#[test]
fn a_member_not_below_the_count_is_23() {
    for count in 1..=16u8 {
        let mut net = in_format_2(stops(count, 1));
        for member in 0..16 {
            net.code[0] = out_to_set(&[member], &[TemplateField::Own], 0);
            let (bytes, fields) = write_with_fields(&net);
            let members = fields.iter().find(|field| field.sort == Sort::Members);
            let bit = members.expect("there is a set").first_bit;
            let expected = if member < count { ACCEPTED } else { (23, bit) };
            assert_eq!(answer(&bytes), expected, "{member} of {count}");
        }
        let all: Vec<u8> = (0..count).collect();
        net.code[0] = out_to_set(&all, &[TemplateField::Own], 0);
        assert_eq!(read_image(&write_image(&net)), Ok(net));
    }
}

/// The set is judged once its last bit is read.
#[test]
fn a_cut_set_is_28() {
    let image = one(2, "111 0111111111111111 00 010 000000000");
    assert_eq!(answer(&image[..6]), (28, 35));
    assert_eq!(answer(&image[..7]), (23, 35));
}

/// Each member needs o in the node's row for itself, and none does where
/// there is none.
#[test]
fn a_start_without_o_at_a_member_is_30() {
    let mut net = in_format_2(net(3, &[out_to_set(&[0, 2], &[TemplateField::Own], 1)]));
    (0..3).for_each(|origin| grant_from(&mut net, 0, origin, 2, PUT));
    let bit = 19 + 9 * 13 + 3;
    assert_eq!(answer(&write_image(&net)), (30, bit));
    grant_from(&mut net, 0, 1, 0, PUT);
    grant_from(&mut net, 0, 2, 0, PUT);
    assert_eq!(answer(&write_image(&net)), (30, bit));
    grant_from(&mut net, 0, 0, 0, PUT);
    assert_eq!(answer(&write_image(&net)), ACCEPTED);
    let others = Rights {
        put: false,
        ..Rights::ALL
    };
    grant_from(&mut net, 0, 0, 2, others);
    assert_eq!(answer(&write_image(&net)), (30, bit));
    net.code[0] = out_to_set(&[], &[TemplateField::Own], 1);
    net.nodes[0].rows = Node::ZERO.rows;
    assert_eq!(answer(&write_image(&net)), ACCEPTED);
    // What comes after it is reached.
    net.code[1] = new(0, 1);
    assert_eq!(answer(&write_image(&net)), (30, bit));
}
