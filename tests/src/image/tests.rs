//! The numbers for an image, where it went bad and the edges of document 01,
//! on bits written out by hand.
//!
//! Of an image with one address the bits are: 0 the format, 4 the address
//! count, 9 the code length, 19 n, 20 the four rights, 24 the process count,
//! 27 the first starting place, or the tuple count where there is none. What
//! `with_tuple` and `with_code` write begins at bit 32.

mod format_2;

use super::*;
use crate::by_hand::*;

const ACCEPTED: (u8, usize) = (0, 0);

#[test]
fn no_bytes_are_28() {
    assert_eq!(answer(&[]), (28, 0));
}

#[test]
fn one_stop_is_accepted() {
    assert_eq!(read_image(&ONE_STOP), Ok(stops(1, 1)));
    assert_eq!(write_image(&stops(1, 1)), ONE_STOP);
}

#[test]
fn more_after_the_code_is_29() {
    let images = more_than_one_stop();
    assert!(images.iter().all(|image| answer(image) == (29, 35)));
}

#[test]
fn the_register_s_image() {
    assert_eq!(read_image(&PAPER_IMAGE), Ok(paper_net()));
    assert_eq!(write_image(&paper_net()), PAPER_IMAGE);
}

#[test]
fn the_register_s_image_without_o_is_30() {
    let mut bytes = PAPER_IMAGE;
    bytes[2] = 0x40;
    assert_eq!(answer(&bytes), (30, 27));
    for rights in 0..16 {
        bytes[2] = 0x40 | rights;
        let held = rights & 2 == 2;
        assert_eq!(answer(&bytes), if held { ACCEPTED } else { (30, 27) });
    }
}

#[test]
fn thirty_comes_after_all_others() {
    let mut bytes = PAPER_IMAGE.to_vec();
    bytes[2] = 0x40;
    bytes[11] |= 1;
    assert_eq!(answer(&bytes), (29, 95));
    bytes.pop();
    assert_eq!(answer(&bytes), (28, 83));
}

#[test]
fn a_format_other_than_1_and_2_is_21() {
    for format in 0..16u8 {
        let known = format == 1 || format == 2;
        let expected = if known { (28, 4) } else { (21, 0) };
        assert_eq!(answer(&[format << 4]), expected);
    }
}

#[test]
fn the_address_count_is_1_to_16() {
    for count in 0..32 {
        let bytes = bits(&format!("0001 {count:05b}"));
        let in_range = (1..=16).contains(&count);
        let expected = if in_range { (28, 9) } else { (22, 4) };
        assert_eq!(answer(&bytes), expected, "{count} addresses");
    }
    let net = stops(16, 1);
    assert_eq!(read_image(&write_image(&net)), Ok(net));
}

#[test]
fn the_code_length_is_1_to_512() {
    for length in 0..1024 {
        let bytes = bits(&format!("0001 00001 {length:010b}"));
        let in_range = (1..=512).contains(&length);
        let expected = if in_range { (28, 24) } else { (22, 9) };
        assert_eq!(answer(&bytes), expected, "{length} instructions");
    }
    let net = stops(1, 512);
    assert_eq!(read_image(&write_image(&net)), Ok(net));
}

#[test]
fn the_process_count_is_0_to_4() {
    for count in 0..8 {
        let places = "000000000".repeat(count);
        let text = format!("0001 00001 0000000001 0 0000 {count:03b} {places} 00000 000");
        let expected = if count <= 4 { ACCEPTED } else { (22, 24) };
        assert_eq!(answer(&bits(&text)), expected);
    }
}

#[test]
fn the_tuple_count_is_0_to_16() {
    for count in 0..32 {
        let tuples = "00 1 0000".repeat(count);
        let text = format!("0001 00001 0000000001 0 0000 000 {count:05b} {tuples} 000");
        let expected = if count <= 16 { ACCEPTED } else { (22, 27) };
        assert_eq!(answer(&bits(&text)), expected);
    }
}

#[test]
fn readings_are_twos_complement() {
    let read = |reading: &str| {
        let net = read_image(&with_tuple(&format!("00 0 {reading} 000"))).unwrap();
        net.nodes[0].tuples[0]
    };
    let tuple = |reading| Tuple::of(&[Field::Reading(reading)]);
    assert_eq!(read(&"1".repeat(32)), tuple(-1));
    assert_eq!(read(&format!("1{}", "0".repeat(31))), tuple(-2147483648));
    assert_eq!(read(&format!("0{}", "1".repeat(31))), tuple(2147483647));
    assert_eq!(read(&"0".repeat(32)), tuple(0));
}

#[test]
fn readings_in_code_are_twos_complement() {
    let ones = "1".repeat(32);
    let net = read_image(&with_code(&format!("001 01 00 000 {ones} 000000000 000"))).unwrap();
    assert_eq!(net.code[0].fields[0], TemplateField::Reading(-1));
}

// What two instructions of these bits are answered with.
fn code(code: &str) -> (u8, usize) {
    answer(&with_code(code))
}

#[test]
fn an_address_past_the_count_is_23() {
    let tuple = |text: &str| answer(&with_tuple(text));
    assert_eq!(tuple("00 1 0000 000"), ACCEPTED);
    assert_eq!(tuple("00 1 0001 000"), (23, 35));
    assert_eq!(tuple("01 1 0000 1 1111 000"), (23, 40));
    assert_eq!(code("001 00 0000 00 010 000000000 000"), ACCEPTED);
    assert_eq!(code("001 00 0001 00 010 000000000 000"), (23, 37));
    assert_eq!(code("010 01 00 001 0000 000000000 000"), ACCEPTED);
    assert_eq!(code("010 01 00 001 0001 000000000 000"), (23, 42));
    assert_eq!(code("100 00 0001 000000000 000000000 000"), (23, 37));
}

#[test]
fn a_place_past_the_length_is_24() {
    let start = |place: &str| {
        answer(&bits(&format!(
            "0001 00001 0000000001 0 0000 001 {place} 00000 000"
        )))
    };
    assert_eq!(start("000000000"), ACCEPTED);
    assert_eq!(start("000000001"), (24, 27));
    assert_eq!(start("100000000"), (24, 27));
    assert_eq!(code("001 01 00 010 000000001 000"), ACCEPTED);
    assert_eq!(code("001 01 00 010 000000010 000"), (24, 42));
    assert_eq!(code("100 01 000000010 000000000 000"), (24, 37));
    assert_eq!(code("100 01 000000000 000000010 000"), (24, 46));
    assert_eq!(code("101 111 000000001 000"), ACCEPTED);
    assert_eq!(code("101 111 000000010 000"), (24, 38));
    assert_eq!(code("110 000000001 000000001 000"), ACCEPTED);
    assert_eq!(code("110 000000010 000000000 000"), (24, 35));
    assert_eq!(code("110 000000000 000000010 000"), (24, 44));
}

#[test]
fn an_unknown_kind_is_25() {
    assert_eq!(code("111"), (25, 32));
    assert_eq!(code("000 111"), (25, 35));
    assert_eq!(code("001 11"), (25, 35));
    assert_eq!(code("100 11"), (25, 35));
    for action in ["001", "010", "011"] {
        assert_eq!(code(&format!("{action} 01 00 110")), (25, 39));
        assert_eq!(code(&format!("{action} 01 01 010 111")), (25, 42));
    }
}

#[test]
fn a_formal_in_an_out_is_26() {
    assert_eq!(code("001 01 00 100 000 000000000 000"), (26, 39));
    assert_eq!(code("001 01 00 101 000 000000000 000"), (26, 39));
    assert_eq!(code("001 01 01 010 101 000 000000000 000"), (26, 42));
    assert_eq!(code("010 01 00 100 000 000000000 000"), ACCEPTED);
    assert_eq!(code("011 01 00 101 000 000000000 000"), ACCEPTED);
}

#[test]
fn a_formal_in_an_out_is_judged_before_its_variable() {
    // 19 + 13 bits, then 16 bits: two own fields and the kind of the third.
    let bytes = with_code("001 01 10 010 010 100");
    assert_eq!(bytes.len() * 8, 19 + 13 + 16);
    assert_eq!(answer(&bytes), (26, 45));
    let bytes = with_code("010 01 10 010 010 100");
    assert_eq!(answer(&bytes), (28, 48));
}

#[test]
fn a_variable_formal_twice_is_27() {
    assert_eq!(code("010 01 01 100 011 100 011 000000000 000"), (27, 48));
    assert_eq!(code("011 01 01 100 011 101 011 000000000 000"), (27, 48));
    assert_eq!(
        code("010 01 10 101 111 010 101 111 000000000 000"),
        (27, 51)
    );
    assert_eq!(code("010 01 01 100 011 100 010 000000000 000"), ACCEPTED);
    assert_eq!(code("010 01 01 100 011 011 011 000000000 000"), ACCEPTED);
    assert_eq!(code("010 01 01 011 011 100 011 000000000 000"), ACCEPTED);
}

#[test]
fn twenty_seven_waits_for_the_second_variable() {
    // The second variable's last bit is the first of a byte.
    let bytes = with_code("010 01 11 010 010 100 011 100 011");
    assert_eq!(answer(&bytes), (27, 54));
    assert_eq!(answer(&bytes[..bytes.len() - 1]), (28, 54));
    // A fault later in bit order is not reported.
    assert_eq!(code("010 01 01 100 011 100 011 111111111 111"), (27, 48));
}

#[test]
fn the_first_fault_in_bit_order_is_reported() {
    assert_eq!(answer(&bits("0011 00000 0000000000")), (21, 0));
    assert_eq!(answer(&bits("0010 00000 0000000000")), (22, 4));
    assert_eq!(
        answer(&bits("0001 00001 0000000001 0 0000 101 111111111")),
        (22, 24)
    );
    assert_eq!(
        answer(&bits("0001 00001 0000000001 0 0000 001 111111111 11111")),
        (24, 27)
    );
    assert_eq!(answer(&with_tuple("00 1 0001 111")), (23, 35));
    assert_eq!(code("001 00 0001 00 110"), (23, 37));
    assert_eq!(code("001 01 00 110 000000000 000 1"), (25, 39));
    // A wrong target written after a right action, before a wrong place.
    assert_eq!(code("100 11 111111111 111111111"), (25, 35));
    assert_eq!(code("100 01 111111111 111111111"), (24, 37));
}

#[test]
fn a_kind_is_judged_before_the_bits_end() {
    // A third action, in bits 38 to 40, and no place after it.
    let wrong = bits("0001 00001 0000000011 0 0000 000 00000 000 000 111");
    assert_eq!(answer(&wrong), (25, 38));
    let right = bits("0001 00001 0000000011 0 0000 000 00000 000 000 110");
    assert_eq!(answer(&right), (28, 41));
    // An action in the last 3 bits of the last byte: 32 + 21 + 3 bits.
    assert_eq!(code("110 000000000 000000000 111"), (25, 53));
    assert_eq!(code("110 000000000 000000000 110"), (28, 56));
}

#[test]
fn a_cut_image_is_28() {
    let (full, fields) = write_with_fields(&longest());
    for length in (0..full.len()).step_by(28) {
        let early = fields.iter().find(|field| field.end() > length * 8);
        let bit = early.expect("a field is cut").first_bit;
        assert_eq!(answer(&full[..length]), (28, bit));
    }
    assert_eq!(answer(&full[..full.len() - 1]), (28, 117_978));
    // The reading lies in bits 51 to 82.
    let bits = [0, 4, 9, 24, 27, 36, 48, 51, 51, 51, 51, 83];
    for (length, bit) in bits.into_iter().enumerate() {
        assert_eq!(answer(&PAPER_IMAGE[..length]), (28, bit));
    }
}

/// Two addresses: the rows' fields begin at 19 (n), 20 and 24 (rights), 28 (n),
/// 29 and 33 (rights), and the process counts, the first of them in the last
/// byte's padding, at 37 and 40.
#[test]
fn the_four_rights_over_an_address_are_one_field() {
    let image = bits("0001 00010 0000000001 1 1111 1111 1 1111 1111");
    assert_eq!(answer(&image[..3]), (28, 24));
    assert_eq!(answer(&image[..4]), (28, 29));
    assert_eq!(answer(&image), (28, 40));
}

#[test]
fn the_longest_image_has_14749_bytes() {
    let net = longest();
    let mut bytes = write_image(&net);
    assert_eq!(bytes.len(), 14_749);
    assert_eq!(read_image(&bytes), Ok(net));
    bytes.push(0);
    assert_eq!(answer(&bytes), (29, 117_987));
}

#[test]
fn processes_fill_slots_from_0() {
    let bytes = bits("0001 00010 0000000010 0 0000 0000 0 0000 0000 000 010 000000001 000000000 00000 00000 000 000");
    let net = read_image(&bytes).unwrap();
    assert_eq!(net.nodes[0], Node::ZERO);
    let slots = net.nodes[1].processes;
    assert_eq!(
        slots[..2],
        [1, 0].map(|place| Process::starting(Place(place), Locality(1)))
    );
    assert_eq!(slots[2..], [Process::FREE; 2]);
}

/// Three addresses with a process each, and two at the last.
#[test]
fn starting_processes_have_their_own_node_as_origin() {
    let rows = "0 0000 0000 0000".repeat(3);
    let start = "000000000";
    let starts = format!("001 {start} 001 {start} 010 {start} {start}");
    let head = format!("0001 00011 0000000001 {rows}");
    let bytes = bits(&format!("{head} {starts} 00000 00000 00000 000"));
    let net = read_image(&bytes).unwrap();
    let origins = |at: usize| net.nodes[at].processes.map(|process| process.origin.0);
    assert_eq!([0, 1, 2].map(origins), [[0; 4], [1, 0, 0, 0], [2, 2, 0, 0]]);
    assert_eq!(net.nodes[2].busy_slots(), 2);
}

/// Three addresses, of which the last two hold tuples.
#[test]
fn tuples_are_from_their_own_node() {
    let rows = "0 0000 0000 0000".repeat(3);
    let tuples = "00000 00001 00 1 0000 00010 00 1 0000 00 1 0001";
    let bytes = bits(&format!(
        "0001 00011 0000000001 {rows} 000 000 000 {tuples} 000"
    ));
    let net = read_image(&bytes).unwrap();
    let mut expected = stops(3, 1);
    fill_marked(&mut expected, 1, &[from(1, one_address(0))]);
    let second = [from(2, one_address(0)), from(2, one_address(1))];
    fill_marked(&mut expected, 2, &second);
    assert_eq!(net, expected);
    assert_eq!(write_image(&net), bytes);
}

#[test]
fn rights_stand_in_the_order_i_r_o_e() {
    let bytes = bits("0001 00010 0000000001 1 1000 0100 0 0010 0001 000 000 00000 00000 000");
    let net = read_image(&bytes).unwrap();
    let none = Rights::NONE;
    let (first, second) = (net.nodes[0].rows[0], net.nodes[1].rows[1]);
    assert!(first.create && !second.create);
    assert_eq!(first.rights[0], Rights { take: true, ..none });
    assert_eq!(first.rights[1], Rights { read: true, ..none });
    assert_eq!(second.rights[0], Rights { put: true, ..none });
    assert_eq!(second.rights[1], Rights { send: true, ..none });
}

#[test]
fn every_instruction_is_read() {
    let bytes = bits(concat!(
        "0001 00010 0000000111 0 0000 0000 0 0000 0000 000 000 00000 00000",
        "000",
        "001 00 0001 11 001 0001 010 011 110 000 00000000000000000000000000000010 000000001",
        "010 01 00 100 111 000000010",
        "011 10 101 01 101 000 100 001 000000011",
        "100 10 110 000000100 000000101",
        "101 011 000000110",
        "110 000000000 000000011",
    ));
    let net = read_image(&bytes).unwrap();
    let four = [
        TemplateField::Address(Locality(1)),
        TemplateField::Own,
        TemplateField::Variable(6),
        TemplateField::Reading(2),
    ];
    let formals = [
        TemplateField::FormalAddress(0),
        TemplateField::FormalReading(1),
    ];
    let expected = [
        Instruction::STOP,
        out(written(1), &four, 1),
        take(OWN, &[TemplateField::FormalReading(7)], 2),
        read(Target::Variable(5), &formals, 3),
        eval(Target::Variable(6), 4, 5),
        new(3, 6),
        fork(0, 3),
    ];
    assert_eq!(net.code[..7], expected);
    assert_eq!(write_image(&net), bytes);
}

#[test]
fn a_start_that_reaches_beyond_its_row_is_30() {
    // A new without n; the same place not started is no fault.
    let image = |create: &str, processes: &str| {
        let text =
            format!("0001 00001 0000000001 {create} 0000 {processes} 00000 101 000 000000000");
        answer(&bits(&text))
    };
    assert_eq!(image("0", "001 000000000"), (30, 27));
    assert_eq!(image("1", "001 000000000"), ACCEPTED);
    assert_eq!(image("0", "000"), ACCEPTED);
}

/// i includes r, whatever else is held; r does not include i.
#[test]
fn a_starting_read_needs_i_or_r_and_a_starting_in_needs_i() {
    let expected = |held: bool| if held { ACCEPTED } else { (30, 27) };
    for rights in 0..16 {
        for target in ["01", "00 0000"] {
            let template = format!("{target} 00 010 000000000");
            let read = with_start(rights, &format!("011 {template}"));
            assert_eq!(answer(&read), expected(rights & 0b1100 != 0));
            let take = with_start(rights, &format!("010 {template}"));
            assert_eq!(answer(&take), expected(rights & 0b1000 != 0));
        }
    }
}

/// What is included is not written into the row.
#[test]
fn a_row_with_i_alone_comes_back_unchanged() {
    let bytes = with_start(0b1000, "011 01 00 010 000000000");
    let net = read_image(&bytes).unwrap();
    assert!(net.nodes[0].rows.iter().all(|row| row.rights[0] == TAKE));
    assert_eq!(write_image(&net), bytes);
}

/// Two addresses without rights, a stop and a new: the process counts lie at
/// bit 37 and after the first address's entries.
#[test]
fn the_first_start_beyond_its_row_is_reported() {
    let image = |first: &str, second: &str| {
        let head = "0001 00010 0000000010 0 0000 0000 0 0000 0000";
        let tail = "00000 00000 000 101 000 000000000";
        answer(&bits(&format!("{head} {first} {second} {tail}")))
    };
    let (stop, new) = ("000000000", "000000001");
    let all_stop = format!("100 {stop} {stop} {stop} {stop}");
    assert_eq!(image(&all_stop, "000"), ACCEPTED);
    assert_eq!(image(&format!("001 {new}"), "000"), (30, 40));
    assert_eq!(image(&format!("010 {stop} {new}"), "000"), (30, 49));
    assert_eq!(image("000", &format!("001 {new}")), (30, 43));
    assert_eq!(image(&all_stop, &format!("010 {stop} {new}")), (30, 88));
    let both = |count: &str, second: &str| format!("{count} {stop} {second}");
    assert_eq!(
        image(&both("010", new), &format!("010 {new} {new}")),
        (30, 49)
    );
    assert_eq!(
        image(&both("001", ""), &format!("011 {stop} {new} {new}")),
        (30, 61)
    );
}
