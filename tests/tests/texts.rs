//! The proved reader of texts beside the model, by the program
//! `inspect_text`: each text, of either format, is compared in its number and in
//! the whole net.

use cavindorum_tests::dump::{difference_of, inspect_text, Opened};
use cavindorum_tests::net::{Net, ROW_BY_ORIGIN, SINGLE_ROW};
use cavindorum_tests::notation::edges::{chain, edges, rows_by_origin};
use cavindorum_tests::notation::generate::damage::*;
use cavindorum_tests::notation::generate::valid_text_of;
use cavindorum_tests::notation::page::blocks;
use cavindorum_tests::notation::read_text;
use cavindorum_tests::random::Random;

// Comparing.

/// The numbers of texts, 0 for accepted, each the same from the program and
/// the model, as is the net.
fn numbers(texts: &[Vec<u8>]) -> Vec<u8> {
    let found = inspect_text(texts);
    for (text, found) in texts.iter().zip(&found) {
        compare(text, found);
    }
    found.iter().map(|opened| opened.number).collect()
}

fn compare(text: &[u8], found: &Opened) {
    let (number, net) = match read_text(text) {
        Ok(net) => (0, net),
        Err(number) => (number, Net::empty()),
    };
    assert_eq!(found.number, number, "program, model; {}", shown(text));
    if let Some(difference) = difference_of(&found.dump, &net) {
        panic!("{difference}; {}", shown(text));
    }
}

fn shown(text: &[u8]) -> String {
    let start = String::from_utf8_lossy(&text[..text.len().min(3_000)]);
    format!("text of {} bytes: {start:?}", text.len())
}

// Texts by hand.

#[test]
fn the_edges() {
    let (texts, expected): (Vec<_>, Vec<_>) = edges().into_iter().unzip();
    for ((text, expected), found) in texts.iter().zip(expected).zip(numbers(&texts)) {
        assert_eq!(found, expected, "{}", shown(text));
    }
}

#[test]
fn the_texts_of_the_page() {
    let texts: Vec<_> = blocks().iter().map(|block| block.bytes()).collect();
    numbers(&texts);
}

/// A short text with any one byte in the place of another, and cut anywhere.
#[test]
fn a_short_text_with_any_one_byte() {
    let all: Vec<u8> = (0..=255).collect();
    with_each(b"0 has 0:i\n0 :: in(!x0,v1)@0.A0\nA0 = nil\n", &all);
    with_each(b"0 from 0 has 0:o\n0 :: out(5)@{0}.nil\n", &all);
}

/// The rows of two nodes with any one character of the notation in the place
/// of another, and cut anywhere.
#[test]
fn short_rows_with_any_one_character() {
    let rows = "0 from 0 has 1:o\n0 from 1 has n\n1 from 0 has\n1 from 1 has 0:iroe 1:i\n";
    let text = format!("{rows}0 :: out(5)@{{1}}.nil\n");
    with_each(
        text.as_bytes(),
        b"0123456789 \n:,.(){}<>@!-Anhasfromiroexuv",
    );
}

// Compares the texts with each of these bytes at each place, and all that cut
// it short.
fn with_each(short: &[u8], bytes: &[u8]) {
    let mut texts = Vec::new();
    for at in 0..short.len() {
        texts.push(short[..at].to_vec());
        for byte in bytes {
            let mut text = short.to_vec();
            text[at] = *byte;
            texts.push(text);
        }
    }
    numbers(&texts);
}

/// Texts as long as the program takes them.
#[test]
fn long_texts() {
    let row = "0 has n 0:iroe\n";
    let chain = format!("{row}0 :: {}\n", chain(7_000));
    let names = format!("{row}{}", "A511 = A510\n".repeat(5_400));
    let deep = format!("{row}0 :: {}", "(".repeat(65_000));
    let digits = format!("{row}0 :: <{}>\n", "1".repeat(65_000));
    let noughts = format!("{} has\n", "0".repeat(65_000));
    let texts = [chain, names, deep, digits, noughts].map(String::into_bytes);
    assert_eq!(numbers(&texts), [22, 33, 32, 31, 31]);
}

/// The same of format 2.
#[test]
fn long_texts_of_format_2() {
    let (row, sixteen) = ("0 from 0 has n 0:iroe\n", rows_by_origin(16));
    let noughts = "0".repeat(60_000);
    let chain = format!("{row}0 :: {}\n", chain(7_000));
    let sets = format!("{row}{}", "A511 = out(5)@{0}.A510\n".repeat(2_800));
    let rows = "0 from 0 has\n".repeat(5_000);
    let over = format!("{sixteen}{rows}");
    let over = over[..65_000].to_string();
    let [node, origin] = [
        format!("{noughts} from 0 has\n"),
        format!("0 from {noughts} has\n"),
    ];
    let seventeenth = format!("{sixteen}{noughts} from 0 has\n");
    let member = format!("{row}0 :: out(5)@{{{noughts}}}.nil\n");
    let members = format!("{row}0 :: out(5)@{{{}", "0,".repeat(32_000));
    let texts = [
        chain,
        sets,
        rows,
        over,
        node,
        origin,
        seventeenth,
        member,
        members,
    ];
    let found = numbers(&texts.map(String::into_bytes));
    assert_eq!(found, [22, 33, 31, 22, 31, 31, 22, 31, 31]);
}

// Random texts.

const BATCH: usize = 500;

/// So many texts of each format.
const COUNTS: [(u8, usize); 2] = [(SINGLE_ROW, 8_000), (ROW_BY_ORIGIN, 6_000)];

/// Texts of each format compared in batches, and how often each number was
/// met.
fn compare_many(seed: u64, make: fn(&mut Random, u8) -> Vec<u8>) -> [[usize; 34]; 2] {
    COUNTS.map(|(format, count)| {
        let mut random = Random::new(seed);
        let mut met = [0; 34];
        for _ in 0..count / BATCH {
            let mut texts: Vec<_> = (0..BATCH).map(|_| make(&mut random, format)).collect();
            // The program takes no longer ones.
            texts.iter_mut().for_each(|text| text.truncate(65_535));
            for number in numbers(&texts) {
                met[number as usize] += 1;
            }
        }
        met
    })
}

const NUMBERS: [usize; 9] = [0, 22, 23, 26, 27, 30, 31, 32, 33];

#[test]
fn valid_texts() {
    for met in compare_many(801, valid_text_of) {
        assert!(met[0] > 5_500 && met[30] > 20, "{met:?}");
    }
}

#[test]
fn faulty_texts() {
    for met in compare_many(802, faulty_text_of) {
        assert!(NUMBERS.iter().all(|number| met[*number] > 50), "{met:?}");
    }
}

#[test]
fn texts_one_byte_off() {
    for met in compare_many(803, one_byte_off_of) {
        assert!(met[0] > 500 && met[31] > 4_000, "{met:?}");
    }
}

#[test]
fn damaged_texts() {
    for met in compare_many(804, damaged_text_of) {
        assert!(NUMBERS.iter().all(|number| met[*number] > 20), "{met:?}");
    }
}
