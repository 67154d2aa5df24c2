//! The proved image reader beside the model: the edges of document 01
//! that concern images, images with each fault, and random images of both
//! formats. Each image is compared in its number, in the bit at which the
//! field at fault begins, and in the whole net.

use cavindorum_tests::bits::Sort;
use cavindorum_tests::by_hand::*;
use cavindorum_tests::dump::{difference_of, dump, inspect, OpenedImage};
use cavindorum_tests::faulty::faulty_images;
use cavindorum_tests::generate::{damaged, damaged_image, image_net, set_image_net, valid_image};
use cavindorum_tests::image::{read_image, write_image, write_with_fields};
use cavindorum_tests::net::*;
use cavindorum_tests::random::Random;
use std::collections::BTreeSet;

// Comparing.

/// A number and a bit, both 0 for accepted.
type Answer = (u8, usize);

const ACCEPTED: Answer = (0, 0);

/// The answers to images, each the same from the program and the model, as
/// is the net.
fn answers(images: &[Vec<u8>]) -> Vec<Answer> {
    let found = inspect(images);
    for (image, found) in images.iter().zip(&found) {
        compare(image, found);
    }
    found.iter().map(answer_of).collect()
}

fn answer(image: &[u8]) -> Answer {
    answers(&[image.to_vec()])[0]
}

fn answer_of(opened: &OpenedImage) -> Answer {
    (opened.number, opened.bit)
}

fn compare(image: &[u8], found: &OpenedImage) {
    let (answer, net) = match read_image(image) {
        Ok(net) => (ACCEPTED, net),
        Err(fault) => ((fault.number, fault.bit), Net::empty()),
    };
    let found_answer = answer_of(found);
    assert_eq!(found_answer, answer, "program, model; image {image:02X?}");
    if let Some(difference) = difference_of(&found.dump, &net) {
        panic!("{difference}; image {image:02X?}");
    }
}

/// That the program accepts an image and gives this net.
fn assert_accepted(image: &[u8], net: &Net) {
    let opened = inspect(&[image.to_vec()]).remove(0);
    compare(image, &opened);
    assert_eq!(answer_of(&opened), ACCEPTED);
    assert_eq!(opened.dump, dump(net));
}

// The edges.

#[test]
fn no_bytes_are_28() {
    assert_eq!(answer(&[]), (28, 0));
}

#[test]
fn one_stop_is_accepted() {
    assert_accepted(&ONE_STOP, &stops(1, 1));
}

#[test]
fn more_after_the_code_is_29() {
    let found = answers(&more_than_one_stop());
    assert!(found.iter().all(|answer| *answer == (29, 35)));
}

#[test]
fn the_address_count_is_1_to_16() {
    for addresses in [1, 2, 15, 16] {
        let net = stops(addresses, 1);
        assert_accepted(&write_image(&net), &net);
    }
    let header = |count| bits(&format!("0001 {count:05b} 0000000001 {:0200}", 0));
    let found = answers(&(0..32).map(header).collect::<Vec<_>>());
    let out_of_range = |count| found[count] == (22, 4);
    assert!((0..32).all(|count| out_of_range(count) != (1..=16).contains(&count)));
}

#[test]
fn the_code_length_is_1_to_512() {
    for length in [1, 2, 511, 512] {
        let net = stops(1, length);
        assert_accepted(&write_image(&net), &net);
    }
    let header = |length| bits(&format!("0001 00001 {length:010b} {:0200}", 0));
    let found = answers(&(0..1024).map(header).collect::<Vec<_>>());
    let out_of_range = |length| found[length] == (22, 9);
    assert!((0..1024).all(|length| out_of_range(length) != (1..=512).contains(&length)));
}

#[test]
fn the_longest_image_has_14_749_bytes() {
    let net = longest();
    let mut image = write_image(&net);
    assert_eq!(image.len(), 14_749);
    assert_accepted(&image, &net);
    // The code ends with a place, at bit 117,987.
    assert_eq!(answer(&image[..14_748]), (28, 117_978));
    image.push(0);
    assert_eq!(answer(&image), (29, 117_987));
    image.resize(32_767, 0);
    assert_eq!(answer(&image), (29, 117_987));
}

/// Of format 2; it has 15 * 16 rows of 65 bits more, and in place of each
/// written target 10 bits more of a set.
#[test]
fn the_longest_image_of_format_2_has_17_339_bytes() {
    let net = longest_of_format_2();
    let mut image = write_image(&net);
    assert_eq!(image.len(), 17_339);
    assert_accepted(&image, &net);
    assert_eq!(answer(&image[..17_338]), (28, 138_698));
    image.push(0);
    assert_eq!(answer(&image), (29, 138_707));
    image.resize(32_767, 0);
    assert_eq!(answer(&image), (29, 138_707));
}

#[test]
fn the_longest_image_without_sets_has_16_699_bytes() {
    let net = longest_without_sets();
    let mut image = write_image(&net);
    assert_eq!(image.len(), 16_699);
    assert_accepted(&image, &net);
    assert_eq!(answer(&image[..16_698]), (28, 133_578));
    image.push(0);
    assert_eq!(answer(&image), (29, 133_587));
}

/// The reader looks at the first 32,768 bytes, which decide: images that end
/// before that, there and beyond give what the model, which looks at all of
/// them, says.
#[test]
fn images_around_what_the_reader_looks_at() {
    let mut random = Random::new(104);
    let [longest, other] = [longest(), longest_of_format_2()].map(|net| write_image(&net));
    // Each with the first bit after its code.
    let heads: [(&[u8], usize); 4] = [
        (&longest, 117_987),
        (&other, 138_707),
        (&PAPER_IMAGE, 95),
        (&ONE_STOP, 35),
    ];
    let (mut images, mut expected) = (Vec::new(), Vec::new());
    for length in [17_340, 32_767, 32_768, 32_769, 32_770, 40_000, 65_535] {
        for (head, end) in heads {
            expected.extend([(29, end); 3]);
            let mut image = head.to_vec();
            image.resize(length, 0);
            images.push(image.clone());
            image[length - 1] = 1;
            images.push(image.clone());
            image.truncate(head.len());
            image.resize_with(length, || random.byte());
            images.push(image);
        }
    }
    assert_eq!(answers(&images), expected);
    // 16 addresses and 512 instructions, of any bits.
    let noise = |length| {
        let head = [random.choose(&[0x18, 0x28]), 0x40, random.byte() & 0x1F];
        let rest = (3..length).map(|_| random.byte());
        head.into_iter().chain(rest).collect::<Vec<u8>>()
    };
    let lengths = [32_767, 32_768, 32_769, 40_000].into_iter().cycle();
    answers(&lengths.take(200).map(noise).collect::<Vec<_>>());
}

#[test]
fn the_register_s_image() {
    assert_accepted(&PAPER_IMAGE, &paper_net());
    let mut barred = PAPER_IMAGE;
    barred[2] = 0x40;
    assert_eq!(answer(&barred), (30, 27));
}

#[test]
fn readings_are_twos_complement() {
    let ends = [
        ("1".repeat(32), -1),
        (format!("1{}", "0".repeat(31)), -2147483648),
        (format!("0{}", "1".repeat(31)), 2147483647),
        (format!("{:032b}", 0x8000_0001u32), -2147483647),
        (format!("{:032b}", 5), 5),
    ];
    for (text, reading) in ends {
        let mut net = stops(1, 1);
        fill(&mut net, 0, &[readings(&[reading])]);
        assert_accepted(&with_tuple(&format!("00 0 {text} 000")), &net);
        let code = with_code(&format!("001 01 00 000 {text} 000000000 000"));
        let mut net = stops(1, 2);
        grant_create(&mut net, 0);
        grant(&mut net, 0, 0, Rights::ALL);
        net.code[0] = out(OWN, &[TemplateField::Reading(reading)], 0);
        assert_accepted(&code, &net);
    }
}

/// Each number in the ways the paper names, with its bit.
#[test]
fn every_number() {
    let (images, faults): (Vec<_>, Vec<_>) = faulty_images().into_iter().unzip();
    let found = answers(&images);
    for ((image, fault), found) in images.iter().zip(&faults).zip(found) {
        assert_eq!(found, (fault.number, fault.bit), "image {image:02X?}");
    }
    assert!((21..=30).all(|number| faults.iter().any(|fault| fault.number == number)));
}

/// One address with the right e on itself, a process at a place, and the
/// code: that instruction, then a new.
fn beside_a_new(place: u16, first: &str) -> Vec<u8> {
    let head = format!("0001 00001 0000000010 0 0001 001 {place:09b} 00000");
    bits(&format!("{head} {first} 101 000 000000001"))
}

/// What starting processes reach: next places and both places of a fork,
/// and not the sent place of an eval.
#[test]
fn reaching() {
    let sends = "100 01 000000001 000000000";
    let beyond = (30, 27);
    assert_eq!(answer(&beside_a_new(0, sends)), ACCEPTED);
    assert_eq!(answer(&beside_a_new(1, sends)), beyond);
    let goes_on = "100 01 000000000 000000001";
    assert_eq!(answer(&beside_a_new(0, goes_on)), beyond);
    let forks = |places: &str| answer(&beside_a_new(0, &format!("110 {places}")));
    assert_eq!(forks("000000000 000000000"), ACCEPTED);
    assert_eq!(forks("000000001 000000000"), beyond);
    assert_eq!(forks("000000000 000000001"), beyond);
    let mut barred = longest();
    barred.each_row(15, |row| row.rights[15].take = false);
    // 16 rows of 65 bits, 15 addresses of 3 + 4 * 9, and a process count.
    let bit = 19 + 16 * 65 + 15 * 39 + 3;
    assert_eq!(answer(&write_image(&barred)), (30, bit));
}

/// A read or an in at self, or at the written address 0, started with any
/// rights there: i includes r, and r does not include i.
#[test]
fn a_starting_read_needs_i_or_r_and_a_starting_in_needs_i() {
    let (mut images, mut expected) = (Vec::new(), Vec::new());
    for (action, needed) in [("011", 0b1100), ("010", 0b1000)] {
        for target in ["01", "00 0000"] {
            for rights in 0..16 {
                let code = format!("{action} {target} 00 010 000000000");
                images.push(with_start(rights, &code));
                let held = rights & needed != 0;
                expected.push(if held { ACCEPTED } else { (30, 27) });
            }
        }
    }
    assert_eq!(answers(&images), expected);
}

// Format 2.

/// The other 14 formats are none.
#[test]
fn the_format_is_1_or_2() {
    let image = |format: u8| [&[format << 4 | ONE_STOP[0] & 0xF], &ONE_STOP[1..]].concat();
    let found = answers(&(0..16).map(image).collect::<Vec<_>>());
    for (format, found) in found.into_iter().enumerate() {
        let known = format == 1 || format == 2;
        assert_eq!(found, if known { ACCEPTED } else { (21, 0) });
    }
}

/// One address has as many bits in both formats, and one row.
#[test]
fn the_register_s_image_in_format_2() {
    let mut image = PAPER_IMAGE;
    image[0] ^= 0x30;
    assert_accepted(&image, &in_format_2(paper_net()));
}

/// Two addresses: what one format accepts ends early in the other, or goes on
/// too long.
#[test]
fn the_other_format_in_the_head() {
    let net = stops(2, 1);
    let (mut one, mut two) = (write_image(&net), write_image(&in_format_2(net)));
    one[0] ^= 0x30;
    two[0] ^= 0x30;
    assert_eq!(answers(&[one, two]), [(28, 55), (29, 56)]);
}

/// A net whose 256 rows are all different.
#[test]
fn sixteen_addresses_have_256_rows() {
    let mut net = in_format_2(stops(16, 1));
    for at in 0..ADDRESSES {
        for origin in 0..ADDRESSES {
            net.nodes[at].rows[origin].create = (at + origin) % 3 == 0;
            grant_from(&mut net, at, origin, at, READ);
            grant_from(&mut net, at, origin, origin, PUT);
        }
    }
    let image = write_image(&net);
    assert_accepted(&image, &net);
    // A byte that is not there, in each row.
    let cut: Vec<_> = (0..256)
        .map(|row| image[..(19 + 65 * row) / 8].to_vec())
        .collect();
    assert!(answers(&cut).iter().all(|found| found.0 == 28));
}

/// A start is judged by its node's row for itself: without it the longest
/// image is refused, and without all the others it is accepted.
#[test]
fn starts_are_judged_by_the_row_for_the_node_itself() {
    let all = longest_of_format_2();
    for at in [0, 7, 15] {
        let (mut without, mut alone) = (all.clone(), all.clone());
        without.nodes[at].rows[at] = Row::ZERO;
        let own = alone.nodes[at].rows[at];
        alone.nodes[at].rows = [Row::ZERO; ADDRESSES];
        alone.nodes[at].rows[at] = own;
        let bit = 19 + 256 * 65 + at * 39 + 3;
        assert_eq!(answer(&write_image(&without)), (30, bit));
        assert_accepted(&write_image(&alone), &alone);
    }
}

// Outs to a set.

/// One address in this format, and one instruction, of these bits.
fn one_instruction(format: u8, code: &str) -> Vec<u8> {
    let head = format!("{format:04b} 00001 0000000001 0 0000 000 00000");
    bits(&format!("{head} {code}"))
}

/// With any members, and where the bits end after it or go on.
#[test]
fn action_7_is_25_in_format_1_alone() {
    let (mut images, mut expected) = (Vec::new(), Vec::new());
    for set in ["0000000000000000", "1000000000000000"] {
        for format in FORMATS {
            images.push(one_instruction(
                format,
                &format!("111 {set} 00 010 000000000"),
            ));
            expected.push(if format == SINGLE_ROW {
                (25, 32)
            } else {
                ACCEPTED
            });
        }
    }
    images.push(one_instruction(1, "111"));
    expected.push((25, 32));
    images.push(one_instruction(2, "111"));
    expected.push((28, 35));
    assert_eq!(answers(&images), expected);
}

/// Each address alone and beside those below the count, at each count: 23 at
/// the first of the 16 bits.
#[test]
fn members_lie_below_the_count() {
    let (mut images, mut expected) = (Vec::new(), Vec::new());
    for count in 1..=16u8 {
        for member in 0..16 {
            let below = (0..count).chain([member]).collect::<Vec<_>>();
            for members in [&[member][..], &below] {
                let mut net = in_format_2(stops(count, 1));
                net.code[0] = out_to_set(members, &[TemplateField::Own], 0);
                let (image, fields) = write_with_fields(&net);
                let set = fields.iter().find(|field| field.sort == Sort::Members);
                let bit = set.expect("there is a set").first_bit;
                images.push(image);
                expected.push(if member < count { ACCEPTED } else { (23, bit) });
            }
        }
    }
    assert_eq!(answers(&images), expected);
}

/// A start needs o at each member in its node's row for itself.
#[test]
fn starts_are_judged_at_each_member() {
    let code = [out_to_set(
        &(0..16).collect::<Vec<_>>(),
        &[TemplateField::Own],
        1,
    )];
    let mut all = in_format_2(net(16, &code));
    (0..16).for_each(|over| grant_from(&mut all, 0, 0, over, PUT));
    assert_accepted(&write_image(&all), &all);
    let without = |over: usize| {
        let mut net = all.clone();
        (0..16).for_each(|origin| grant_from(&mut net, 0, origin, over, PUT));
        let others = Rights {
            put: false,
            ..Rights::ALL
        };
        grant_from(&mut net, 0, 0, over, others);
        write_image(&net)
    };
    let found = answers(&(0..16).map(without).collect::<Vec<_>>());
    assert_eq!(found, [(30, 19 + 256 * 65 + 3); 16]);
    let mut none = in_format_2(net(16, &[out_to_set(&[], &[TemplateField::Own], 1)]));
    assert_accepted(&write_image(&none), &none);
    none.code[1] = new(0, 1);
    assert_eq!(answer(&write_image(&none)), (30, 19 + 256 * 65 + 3));
}

// Neighbours of accepted images.

#[test]
fn the_register_s_image_with_any_one_byte() {
    let mut images = Vec::new();
    for at in 0..PAPER_IMAGE.len() {
        images.push(PAPER_IMAGE[..at].to_vec());
        for byte in 0..=255 {
            let mut image = PAPER_IMAGE.to_vec();
            image[at] = byte;
            images.push(image);
        }
    }
    answers(&images);
}

#[test]
fn the_longest_images_with_any_one_bit() {
    let mut random = Random::new(1);
    for net in [longest(), longest_of_format_2()] {
        let image = write_image(&net);
        let images: Vec<_> = (0..200).map(|_| flipped(&mut random, &image)).collect();
        answers(&images);
    }
}

/// Images cut anywhere. Of each sort of field some end early.
#[test]
fn cut_images() {
    let mut random = Random::new(105);
    let (mut images, mut layouts) = (Vec::new(), Vec::new());
    for _ in 0..3_000 {
        let (mut image, fields) = write_with_fields(&image_net(&mut random));
        image.truncate(random.below(image.len()));
        images.push(image);
        layouts.push(fields);
    }
    let mut met = Vec::new();
    for ((number, bit), fields) in answers(&images).into_iter().zip(layouts) {
        assert_eq!(number, 28);
        let early = fields.iter().find(|field| field.first_bit == bit);
        met.push(early.expect("a field begins there").sort);
    }
    assert!(Sort::ALL.iter().all(|sort| met.contains(sort)));
}

// Random images.

const BATCH: usize = 500;

/// How often each number was met, and at which bits; and how many of the
/// images have format 1 and format 2 in the head.
#[derive(Default)]
struct Met {
    counts: [usize; 31],
    bits: [BTreeSet<usize>; 31],
    formats: [usize; 2],
}

/// Images compared in batches.
fn compare_many(seed: u64, count: usize, make: fn(&mut Random) -> Vec<u8>) -> Met {
    let mut random = Random::new(seed);
    let mut met = Met::default();
    for _ in 0..count / BATCH {
        let images: Vec<_> = (0..BATCH).map(|_| make(&mut random)).collect();
        for (number, bit) in answers(&images) {
            met.counts[number as usize] += 1;
            met.bits[number as usize].insert(bit);
        }
        let heads = images.iter().filter_map(|image| image.first());
        for format in heads.map(|first| first >> 4) {
            if let Some(index) = FORMATS.iter().position(|one| *one == format) {
                met.formats[index] += 1;
            }
        }
    }
    met
}

/// An image with one bit changed.
fn flipped(random: &mut Random, image: &[u8]) -> Vec<u8> {
    let mut image = image.to_vec();
    let at = random.below(image.len() * 8);
    image[at / 8] ^= 0x80 >> (at % 8);
    image
}

fn one_bit_off(random: &mut Random) -> Vec<u8> {
    let image = valid_image(random);
    flipped(random, &image)
}

#[test]
fn valid_images() {
    let Met {
        counts, formats, ..
    } = compare_many(101, 10_000, valid_image);
    assert!(counts[0] > 9_000 && counts[30] > 100, "{counts:?}");
    assert!(formats.iter().all(|count| *count > 4_500), "{formats:?}");
}

#[test]
fn images_one_bit_off() {
    let counts = compare_many(102, 8_000, one_bit_off).counts;
    assert!(counts[0] > 1_000, "{counts:?}");
}

/// Processes that start anywhere, mostly beyond their rows: their entries
/// begin at many bits.
#[test]
fn images_with_barred_starts() {
    let met = compare_many(106, 2_000, |random| write_image(&image_net(random)));
    let (count, bits) = (met.counts[30], met.bits[30].len());
    assert!(count > 1_000 && bits > 100, "{count} at {bits} bits");
}

/// Of nets with many outs to a set, accepted.
#[test]
fn images_with_sets() {
    let met = compare_many(107, 1_000, |random| write_image(&set_image_net(random)));
    assert_eq!(met.counts[0], 1_000);
}

/// The same damaged: 23 is met often, where one of these is cut so is 28, and
/// in format 1 an action 7 is 25.
#[test]
fn damaged_images_with_sets() {
    let met = compare_many(108, 4_000, |random| {
        let net = set_image_net(random);
        damaged(random, net)
    });
    let counts = met.counts;
    assert!(met.formats[0] > 100, "{:?}", met.formats);
    assert!(
        [22, 23, 24, 25, 26, 28, 29]
            .iter()
            .all(|number| counts[*number] > 30),
        "{counts:?}"
    );
}

/// More than 20,000 of each format, most of them refused. Every number is met
/// often, each at many bits but for 21, whose field is the first.
#[test]
fn damaged_images() {
    let Met {
        counts,
        bits,
        formats,
    } = compare_many(103, 44_000, damaged_image);
    assert!(formats.iter().all(|count| *count > 20_000), "{formats:?}");
    assert!(counts[0] > 280, "{counts:?}");
    assert!(counts[21..].iter().sum::<usize>() > 30_000, "{counts:?}");
    assert!(counts[21..].iter().all(|count| *count > 500), "{counts:?}");
    assert_eq!(bits[21], BTreeSet::from([0]));
    let many = |bits: &BTreeSet<usize>| bits.len() > 100;
    assert!(bits[22..].iter().all(many), "{counts:?}");
}
