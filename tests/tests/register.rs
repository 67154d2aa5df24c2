//! The program `register` beside the model: its whole output in many
//! directories, byte for byte, with images of both formats.

use cavindorum_tests::by_hand::{
    fill, grant_from, in_format_2, longest, longest_of_format_2, net, out_to_set, readings,
    PAPER_IMAGE, PUT,
};
use cavindorum_tests::faulty::faulty_images;
use cavindorum_tests::generate::{by_origin_net, damaged_image, picks, set_image_net, valid_image};
use cavindorum_tests::image::{read_image, write_image};
use cavindorum_tests::net::TemplateField;
use cavindorum_tests::program::{on_two_threads, print_register, TestDirectory};
use cavindorum_tests::random::Random;
use cavindorum_tests::register::{answers_in, register, MOST_PICKS};

/// The files of a directory; none is a missing file.
struct Files {
    image: Option<Vec<u8>>,
    picks: Option<Vec<u8>>,
}

fn files(image: &[u8], picks: &[u8]) -> Files {
    Files {
        image: Some(image.to_vec()),
        picks: Some(picks.to_vec()),
    }
}

// Comparing.

/// Runs the program on all of these, on two threads, and compares what it
/// prints with the model's registers, which are returned.
fn compare_all(all: &[Files]) -> Vec<String> {
    on_two_threads(all, compare)
}

fn compare(files: &Files) -> String {
    let (image, picks) = (files.image.as_deref(), files.picks.as_deref());
    let directory = TestDirectory::with(image, picks);
    let printed = print_register(&directory.path);
    let (image, picks) = (image.unwrap_or_default(), picks.unwrap_or_default());
    let expected = register(image, picks);
    if printed != expected.as_bytes() {
        panic!("{}", first_difference(&printed, &expected, image, picks));
    }
    expected
}

// The first line that differs, and the files' beginnings.
fn first_difference(printed: &[u8], expected: &str, image: &[u8], picks: &[u8]) -> String {
    let printed = String::from_utf8_lossy(printed);
    let (mut program, mut model) = (printed.lines(), expected.lines());
    let mut number = 1;
    let (program, model) = loop {
        match (program.next(), model.next()) {
            (Some(one), Some(other)) if one == other => number += 1,
            lines => break lines,
        }
    };
    let (net_bytes, pick_count) = (image.len(), picks.len());
    let (image, picks) = (&image[..net_bytes.min(200)], &picks[..pick_count.min(100)]);
    format!(
        "line {number}: program {program:?}, model {model:?}; \
         net.bin ({net_bytes} bytes) {image:02X?}; picks.bin ({pick_count} bytes) {picks:02X?}"
    )
}

// Directories by hand.

#[test]
fn the_paper_s_run() {
    let registers = compare_all(&[files(&PAPER_IMAGE, &[0, 0, 0])]);
    let paper =
        "net 1 2\npick 1 0 0 0\npick 2 0 0 1\npick 3 0 0 7\nnode 0 1 0\ntuple 0 5 from 0\ntotal 1\n";
    assert_eq!(registers, [paper]);
}

/// The first starting place of a one-address image.
#[test]
fn the_paper_s_refusal() {
    let mut image = PAPER_IMAGE;
    image[4] = 0x20;
    let registers = compare_all(&[files(&image, &[0, 0, 0])]);
    assert_eq!(registers, ["refused 24 at 27\n"]);
}

/// Each number in the ways the paper names, with its bit.
#[test]
fn every_number() {
    let (images, faults): (Vec<_>, Vec<_>) = faulty_images().into_iter().unzip();
    let all: Vec<_> = images.iter().map(|image| files(image, &[0])).collect();
    for (register, fault) in compare_all(&all).iter().zip(faults) {
        assert_eq!(
            *register,
            format!("refused {} at {}\n", fault.number, fault.bit)
        );
    }
}

/// A missing file counts as empty.
#[test]
fn missing_and_empty_files() {
    let mut all = Vec::new();
    for image in [None, Some(vec![]), Some(PAPER_IMAGE.to_vec())] {
        for picks in [None, Some(vec![]), Some(vec![0, 0])] {
            let image = image.clone();
            all.push(Files { image, picks });
        }
    }
    let registers = compare_all(&all);
    assert!(registers[..6]
        .iter()
        .all(|text| text == "refused 28 at 0\n"));
    let unpicked = "net 1 2\nnode 0 0 1\ntotal 0\n";
    assert_eq!(registers[6..8], [unpicked, unpicked]);
}

/// Only the first 65,536 picks count.
#[test]
fn long_lists_of_picks() {
    let mut random = Random::new(301);
    let lengths = [65_535, 65_536, 65_537, 70_000, 131_072, 200_000];
    let all = lengths.map(|length| {
        let (image, _) = accepted(&mut random);
        let picks: Vec<u8> = (0..length).map(|_| any_pick(&mut random)).collect();
        files(&image, &picks)
    });
    let registers = compare_all(&all);
    for (text, length) in registers.iter().zip(lengths) {
        assert_eq!(answers_in(text).len(), length.min(MOST_PICKS));
    }
    let refused = compare_all(&[files(&[], &[0; 70_000])]);
    assert_eq!(refused, ["refused 28 at 0\n"]);
}

/// Files longer than the longest accepted image.
#[test]
fn long_images() {
    let mut random = Random::new(302);
    let longest = [longest(), longest_of_format_2()];
    let run = picks(&mut random, &longest[0], 500);
    let longest = longest.map(|net| write_image(&net));
    // Each with the first bit after its code.
    let ends = [117_987, 138_707];
    for (image, end) in longest.iter().zip(ends) {
        let cut = &image[..image.len() - 1];
        let registers = compare_all(&[files(image, &run), files(cut, &run)]);
        assert!(registers[0].starts_with("net 16 512\npick 1 "));
        // The last field is a place.
        assert_eq!(registers[1], format!("refused 28 at {}\n", end - 9));
    }
    let paper = PAPER_IMAGE.to_vec();
    for (image, end) in longest.iter().zip(ends).chain([(&paper, 95)]) {
        let longer = [
            14_750, 16_384, 16_385, 17_340, 20_000, 32_768, 70_000, 1_000_000,
        ];
        let lengths = longer.into_iter().filter(|length| *length > image.len());
        let all = lengths.map(|length| {
            let mut image = image.clone();
            image.resize(length, 0);
            files(&image, &run)
        });
        let registers = compare_all(&all.collect::<Vec<_>>());
        let refused = format!("refused 29 at {end}\n");
        assert!(registers.iter().all(|text| *text == refused));
    }
}

/// The register does not show the format, nor what code of other origins may
/// do, as long as none is sent.
#[test]
fn the_paper_s_run_in_format_2() {
    let mut image = PAPER_IMAGE;
    image[0] ^= 0x30;
    let registers = compare_all(&[files(&image, &[0, 0, 0]), files(&PAPER_IMAGE, &[0, 0, 0])]);
    assert_eq!(registers[0], registers[1]);
}

#[test]
fn long_noise() {
    let mut random = Random::new(303);
    let mut noise = |head: &[u8]| {
        let mut image = head.to_vec();
        image.resize_with(20_000, || random.byte());
        files(&image, &[0, 0])
    };
    let heads: [&[u8]; 6] = [
        &[],
        &[0x10],
        &[0x10, 0x80],
        &PAPER_IMAGE,
        &[0x20, 0x80],
        &[0x28, 0x40],
    ];
    let all: Vec<_> = (0..60).map(|index| noise(heads[index % 6])).collect();
    compare_all(&all);
}

// Random directories.

/// An accepted image, and picks that mostly perform.
fn accepted(random: &mut Random) -> (Vec<u8>, Vec<u8>) {
    loop {
        let image = valid_image(random);
        if let Ok(net) = read_image(&image) {
            let count = random.choose(&[0, 1, 5, 40, 40, 200]);
            let picks = picks(random, &net, count);
            return (image, picks);
        }
    }
}

/// Mostly a well formed pick of a low address.
fn any_pick(random: &mut Random) -> u8 {
    match random.below(10) {
        0 => random.byte(),
        _ => random.byte() & 0x3C,
    }
}

/// How often each answer was met.
fn answers_met(registers: &[String]) -> [usize; 11] {
    let mut met = [0; 11];
    for answer in registers.iter().flat_map(|text| answers_in(text)) {
        met[answer as usize] += 1;
    }
    met
}

#[test]
fn accepted_images() {
    let mut random = Random::new(304);
    let all: Vec<_> = (0..1_300)
        .map(|_| {
            let (image, picks) = accepted(&mut random);
            files(&image, &picks)
        })
        .collect();
    let of_format_2 = |files: &&Files| files.image.as_ref().is_some_and(|image| image[0] >> 4 == 2);
    let count = all.iter().filter(of_format_2).count();
    assert!((500..800).contains(&count), "{count}");
    let registers = compare_all(&all);
    let met = answers_met(&registers);
    assert!(met[..10].iter().all(|count| *count > 50), "{met:?}");
    assert_eq!(met[10], 0);
    println!("answers 0 to 10: {met:?}");
}

/// Code is sent and addresses are opened, in format 2.
#[test]
fn accepted_images_in_which_origins_matter() {
    let mut random = Random::new(306);
    let all: Vec<_> = (0..300)
        .map(|_| {
            let net = by_origin_net(&mut random);
            let picks = picks(&mut random, &net, 100);
            files(&write_image(&net), &picks)
        })
        .collect();
    let met = answers_met(&compare_all(&all));
    assert!([0, 4, 5].iter().all(|answer| met[*answer] > 500), "{met:?}");
}

/// Tuples are put to sets: all of it shows in the tuple lines and the total.
#[test]
fn accepted_images_with_sets() {
    let mut random = Random::new(307);
    let all: Vec<_> = (0..300)
        .map(|_| {
            let net = set_image_net(&mut random);
            let picks = picks(&mut random, &net, 100);
            files(&write_image(&net), &picks)
        })
        .collect();
    let met = answers_met(&compare_all(&all));
    assert!([0, 3, 6].iter().all(|answer| met[*answer] > 500), "{met:?}");
}

/// An out to the set of both addresses is counted twice, the empty set not at
/// all; with one store full nothing is put.
#[test]
fn the_total_counts_each_member() {
    let field = [TemplateField::Reading(5)];
    let code = [out_to_set(&[], &field, 1), out_to_set(&[0, 1], &field, 0)];
    let mut net = in_format_2(net(2, &code));
    (0..2).for_each(|over| grant_from(&mut net, 0, 0, over, PUT));
    fill(&mut net, 1, &[readings(&[7]); 15]);
    let image = write_image(&net);
    let all: Vec<_> = (0..5).map(|made| files(&image, &vec![0; made])).collect();
    let registers = compare_all(&all);
    for (register, total) in registers.iter().zip([15, 15, 17, 17, 17]) {
        assert!(
            register.ends_with(&format!("\ntotal {total}\n")),
            "{register}"
        );
    }
    assert_eq!(answers_in(&registers[4]), [0, 0, 0, 3]);
    let tuples = "tuple 0 5 from 0\nnode 1 16 0\n";
    assert!(registers[4].contains(tuples), "{}", registers[4]);
}

#[test]
fn damaged_images() {
    let mut random = Random::new(305);
    let all: Vec<_> = (0..900)
        .map(|_| {
            let image = damaged_image(&mut random);
            let count = random.below(20);
            let picks: Vec<u8> = (0..count).map(|_| any_pick(&mut random)).collect();
            files(&image, &picks)
        })
        .collect();
    let registers = compare_all(&all);
    for number in 21..=30 {
        let refused = format!("refused {number} at ");
        let met = registers.iter().filter(|text| text.starts_with(&refused));
        let met = met.count();
        assert!(met > 5, "{number}: {met}");
    }
    assert!(registers.iter().any(|text| text.starts_with("net ")));
}
