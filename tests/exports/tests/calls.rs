//! The exported calls beside the model: numbers, places, answers and whole
//! buffers, within the stack that the header states.

use cavindorum_exports::{
    refusal_place, register_in, register_text_in, run, run_text, LONGEST_REGISTER, STACK,
};
use cavindorum_tests::by_hand::{longest, longest_of_format_2, PAPER_IMAGE};
use cavindorum_tests::edges::edges;
use cavindorum_tests::examples::{damaged, examples};
use cavindorum_tests::faulty::faulty_images;
use cavindorum_tests::generate::{
    by_origin_net, damaged, damaged_image, picks, set_image_net, valid_image,
};
use cavindorum_tests::image::{answer, read_image, write_image};
use cavindorum_tests::net::{Net, Row};
use cavindorum_tests::notation::edges::{chain, edges as text_edges};
use cavindorum_tests::notation::generate::damage::damaged_text;
use cavindorum_tests::notation::generate::valid_text;
use cavindorum_tests::notation::read_text;
use cavindorum_tests::random::Random;
use cavindorum_tests::register;
use cavindorum_tests::stack::{loads, longest_texts, texts};
use cavindorum_tests::step::pick;
use cavindorum_tests::stored::repository;

/// A byte that no answer and no text has.
const KEPT: u8 = 0xEE;

/// What a net is read from, and the calls for it beside the model.
#[derive(Clone, Copy)]
struct Form {
    read: fn(&[u8]) -> Result<Net, u8>,
    run: fn(&[u8], &[u8], &mut [u8]) -> u8,
    register: fn(&[u8], &[u8]) -> String,
    register_in: fn(&[u8], &[u8], &mut [u8]) -> usize,
}

const IMAGE: Form = Form {
    read: |image| read_image(image).map_err(|fault| fault.number),
    run,
    register: register::register,
    register_in,
};

const TEXT: Form = Form {
    read: read_text,
    run: run_text,
    register: register::register_text,
    register_in: register_text_in,
};

impl Form {
    /// A run made by the model: its number and its answers.
    fn model_run(&self, net: &[u8], picks: &[u8]) -> (u8, Vec<u8>) {
        match (self.read)(net) {
            Err(number) => (number, Vec::new()),
            Ok(mut net) => {
                let answers = picks.iter().map(|byte| pick(&mut net, *byte));
                (0, answers.collect())
            }
        }
    }

    /// Fails unless both calls give what the model gives, into buffers that
    /// are just long enough, longer and too short.
    fn compare(&self, net: &[u8], picks: &[u8]) {
        let (number, answers) = self.model_run(net, picks);
        for more in [0, 3] {
            let mut found = vec![KEPT; picks.len() + more];
            let mut expected = answers.clone();
            expected.resize(found.len(), KEPT);
            assert_eq!((self.run)(net, picks, &mut found), number, "{net:02X?}");
            assert!(found == expected, "{net:02X?} {picks:02X?}");
        }
        if let Some(short) = picks.len().checked_sub(1) {
            let mut found = vec![KEPT; short];
            let expected = if number == 0 { 35 } else { number };
            assert_eq!((self.run)(net, picks, &mut found), expected, "{net:02X?}");
            assert!(found.iter().all(|byte| *byte == KEPT));
        }
        self.compare_register(net, picks);
    }

    fn compare_register(&self, net: &[u8], picks: &[u8]) {
        let text = (self.register)(net, picks).into_bytes();
        let length = text.len();
        assert!(length <= LONGEST_REGISTER);
        for room in [length, length + 3, length - 1, length / 2, 0] {
            let mut found = vec![KEPT; room];
            let mut expected = text.clone();
            expected.resize(room, KEPT);
            let written = if room < length { 0 } else { length };
            assert_eq!((self.register_in)(net, picks, &mut found), written);
            assert!(found == expected, "{net:02X?} {picks:02X?}");
        }
    }
}

/// Fails unless the place of an image's fault is the model's. The number of
/// the fault, and the place, both 0 for an accepted image.
fn compare_place(image: &[u8]) -> (u8, usize) {
    let found = (run(image, &[], &mut []), refusal_place(image));
    assert_eq!(found, answer(image), "call, model; {image:02X?}");
    found
}

#[test]
fn the_edges() {
    for edge in edges() {
        IMAGE.compare(&edge.image, &edge.picks);
        compare_place(&edge.image);
    }
}

/// Each number in the ways the paper names.
#[test]
fn places_by_hand() {
    assert_eq!(compare_place(&PAPER_IMAGE), (0, 0));
    assert_eq!(compare_place(&[]), (28, 0));
    for (image, fault) in faulty_images() {
        assert_eq!(compare_place(&image), (fault.number, fault.bit));
    }
}

#[test]
fn places_of_damaged_images() {
    let mut random = Random::new(603);
    let mut met = [0; 31];
    for _ in 0..5_000 {
        let (number, _) = compare_place(&damaged_image(&mut random));
        met[number as usize] += 1;
    }
    assert!(met[0] > 50, "{met:?}");
    assert!(met[21..].iter().all(|count| *count > 50), "{met:?}");
}

#[test]
fn the_examples() {
    for example in examples() {
        let picks: Vec<u8> = example.picks.iter().map(|(pick, _)| *pick).collect();
        IMAGE.compare(&write_image(&example.net), &picks);
        TEXT.compare(example.text.as_bytes(), &picks);
    }
    IMAGE.compare(&damaged::image(), &damaged::picks());
    assert_eq!(compare_place(&damaged::image()), (24, 52));
}

/// More bytes than the reader looks at, and more picks than a register has.
#[test]
fn long_images_and_long_lists() {
    let [longest, other] = [longest(), longest_of_format_2()].map(|net| write_image(&net));
    for length in [
        14_749, 14_750, 16_384, 17_338, 17_339, 17_340, 40_000, 1_000_000,
    ] {
        for head in [&longest[..], &other, &PAPER_IMAGE] {
            let mut image = head.to_vec();
            image.resize(length, 0);
            IMAGE.compare(&image, &[0, 4, 0x10]);
            compare_place(&image);
        }
    }
    assert_eq!(compare_place(&longest), (0, 0));
    assert_eq!(compare_place(&other), (0, 0));
    for length in [65_535, 65_536, 65_537, 200_000] {
        IMAGE.compare(&PAPER_IMAGE, &vec![0; length]);
    }
}

/// Picks that mostly perform, where the net is accepted.
fn some_picks<F>(random: &mut Random, read: Result<Net, F>) -> Vec<u8> {
    read.map_or(vec![0; 3], |net| picks(random, &net, 100))
}

#[test]
fn random_images() {
    let mut random = Random::new(601);
    for _ in 0..500 {
        let image = valid_image(&mut random);
        let list = some_picks(&mut random, read_image(&image));
        IMAGE.compare(&image, &list);
        IMAGE.compare(&damaged_image(&mut random), &list);
    }
}

/// Of format 2, with sent code and news.
#[test]
fn random_images_in_which_origins_matter() {
    let mut random = Random::new(605);
    for _ in 0..500 {
        let net = by_origin_net(&mut random);
        let list = picks(&mut random, &net, 100);
        IMAGE.compare(&write_image(&net), &list);
    }
}

/// Of format 2, with outs to a set.
#[test]
fn random_images_with_sets() {
    let mut random = Random::new(606);
    for _ in 0..300 {
        let net = set_image_net(&mut random);
        let list = picks(&mut random, &net, 100);
        IMAGE.compare(&write_image(&net), &list);
        let image = damaged(&mut random, net);
        IMAGE.compare(&image, &list);
        compare_place(&image);
    }
}

#[test]
fn random_texts() {
    let mut random = Random::new(602);
    for _ in 0..500 {
        let text = valid_text(&mut random);
        let list = some_picks(&mut random, read_text(&text));
        TEXT.compare(&text, &list);
        TEXT.compare(&damaged_text(&mut random), &list);
    }
}

/// The edges of texts, and longer texts than the programs take.
#[test]
fn texts_by_hand() {
    for (text, _) in text_edges() {
        TEXT.compare(&text, &[0, 4, 0x10]);
    }
    for row in ["0 has n 0:iroe\n", "0 from 0 has n 0:iroe\n"] {
        let long = format!("{row}0 :: {}\n", chain(300_000));
        let deep = format!("{row}A0 = {}\n", "(".repeat(2_000_000));
        for text in [long, deep] {
            TEXT.compare(text.as_bytes(), &[0]);
        }
    }
}

/// The numbers of include/cavindorum.h are those that are tried here.
#[test]
fn the_header_s_numbers() {
    let header = repository().join("include/cavindorum.h");
    let header = std::fs::read_to_string(header).expect("it is there");
    let stack = format!(
        "#define CAVINDORUM_STACK ((size_t)1 << {})\n",
        STACK.ilog2()
    );
    let longest = format!("#define CAVINDORUM_LONGEST_REGISTER ((size_t){LONGEST_REGISTER})\n");
    assert!(STACK.is_power_of_two() && header.contains(&stack));
    assert!(header.contains(&longest));
}

/// Makes calls in a thread with the stack that the header states. With too
/// little the whole test ends.
fn within_the_stated_stack(calls: impl FnOnce() + Send + 'static) {
    let thread = std::thread::Builder::new().stack_size(STACK);
    let thread = thread.spawn(calls).expect("it starts");
    thread.join().expect("the calls give what the model gives");
}

/// The place of no fault, of one after the code and of one in the rows, in
/// the longest image and in a net with every action, of each format.
#[test]
fn places_within_the_stated_stack() {
    for load in loads() {
        let image = load.image();
        let longer = [&image[..], &[0]].concat();
        let mut barred = load.net;
        barred.each_row(14, |row| *row = Row::ZERO);
        for image in [image, longer, write_image(&barred)] {
            let expected = answer(&image);
            within_the_stated_stack(move || assert_eq!(refusal_place(&image), expected.1));
        }
    }
}

/// All other calls, on the longest image and on a net with every action of
/// each format, on the deepest texts and on the widest.
#[test]
fn calls_within_the_stated_stack() {
    let [_, busy, ..] = loads();
    let images = loads().map(|load| (IMAGE, load.image()));
    let texts = texts().into_iter().chain(longest_texts());
    let texts = texts.map(|text| (TEXT, text));
    for (form, net) in images.into_iter().chain(texts) {
        let picks = busy.picks.clone();
        let (number, expected) = form.model_run(&net, &picks);
        let text = (form.register)(&net, &picks).into_bytes();
        let calls = move || {
            let mut answers = vec![KEPT; picks.len()];
            assert_eq!((form.run)(&net, &picks, &mut answers), number);
            assert!(answers == expected);
            let mut out = vec![KEPT; text.len()];
            assert_eq!((form.register_in)(&net, &picks, &mut out), text.len());
            assert!(out == text);
        };
        within_the_stated_stack(calls);
    }
}
