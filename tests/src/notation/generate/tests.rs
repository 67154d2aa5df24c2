//! That the trees and texts are varied enough, and as promised.

use super::damage::*;
use super::*;
use crate::net::SINGLE_ROW;
use crate::notation::edges::rows_by_origin;
use crate::notation::read_text;

#[test]
fn the_same_seed_gives_the_same() {
    let (mut one, mut two) = (Random::new(5), Random::new(5));
    for _ in 0..50 {
        assert_eq!(valid_text(&mut one), valid_text(&mut two));
        assert_eq!(damaged_text(&mut one), damaged_text(&mut two));
    }
}

/// How often each number is met by so many of these texts of a format.
fn met(format: u8, count: usize, make: fn(&mut Random, u8) -> Vec<u8>) -> [usize; 34] {
    let mut random = Random::new(62);
    let mut met = [0; 34];
    for _ in 0..count {
        let text = make(&mut random, format);
        met[read_text(&text).err().unwrap_or(0) as usize] += 1;
    }
    met
}

const NUMBERS: [usize; 9] = [0, 22, 23, 26, 27, 30, 31, 32, 33];

#[test]
fn valid_texts_are_mostly_accepted() {
    for format in FORMATS {
        let met = met(format, 4_000, valid_text_of);
        assert!(met[0] > 3_700 && met[30] > 10, "{met:?}");
        assert_eq!(met[0] + met[30], 4_000);
    }
}

#[test]
fn every_number_is_met_by_a_fault() {
    for format in FORMATS {
        let met = met(format, 8_000, faulty_text_of);
        assert!(NUMBERS.iter().all(|number| met[*number] > 50), "{met:?}");
    }
}

#[test]
fn texts_one_byte_off_meet_most_numbers() {
    for format in FORMATS {
        let met = met(format, 8_000, one_byte_off_of);
        assert!(
            [0, 23, 31, 33].iter().all(|number| met[*number] > 100),
            "{met:?}"
        );
    }
}

#[test]
fn damaged_texts_meet_every_number() {
    for format in FORMATS {
        let met = met(format, 8_000, damaged_text_of);
        assert!(NUMBERS.iter().all(|number| met[*number] > 20), "{met:?}");
        assert_eq!(
            NUMBERS.iter().map(|number| met[*number]).sum::<usize>(),
            8_000
        );
    }
}

/// The faults in rows of format 2: 31 and 23, and a seventeenth of node 0, of
/// a later node, and after the last.
#[test]
fn faults_in_rows_are_varied() {
    let mut random = Random::new(65);
    let (mut met, mut seventeenth) = ([0; 34], [0; 3]);
    for _ in 0..8_000 {
        let text = faulty_text_of(&mut random, ROW_BY_ORIGIN);
        let text = String::from_utf8(text).expect("texts are ASCII");
        let lines = text.split_inclusive('\n');
        let rows: Vec<&str> = lines.take_while(|line| line.contains(" from ")).collect();
        let alone = rows.concat() + "A0 = nil\n";
        let number = read_text(alone.as_bytes()).err().unwrap_or(0);
        met[number as usize] += 1;
        if number == 22 {
            let sixteen = rows_by_origin(16);
            let expected = sixteen.lines().map(|row| row.trim_end_matches(" has"));
            let both = rows.iter().zip(expected);
            let right = both.take_while(|(row, expected)| row.starts_with(expected));
            let part = match right.count() {
                16 => 0,
                256 => 2,
                _ => 1,
            };
            seventeenth[part] += 1;
        }
    }
    assert!([23, 31].iter().all(|number| met[*number] > 300), "{met:?}");
    assert!(
        seventeenth.iter().all(|count| *count > 20),
        "{seventeenth:?}"
    );
}

/// Sets in the texts of format 2: accepted, 31 and 23.
#[test]
fn faults_in_sets_are_varied() {
    let mut random = Random::new(66);
    let mut met = [0; 34];
    for _ in 0..8_000 {
        let text = faulty_text_of(&mut random, ROW_BY_ORIGIN);
        let before = text.iter().position(|byte| *byte == b'{');
        // What stands before the first set, and that set by itself.
        if let Some(at) = before {
            let end = text[at..].iter().position(|byte| *byte == b'}');
            let set = &text[at..at + end.map_or(0, |length| length + 1)];
            let count = text.split(|byte| *byte == b'\n');
            let count = count.filter(|line| line.starts_with(b"0 from ")).count();
            let head = rows_by_origin(count.clamp(1, 16)) + "A0 = out(5)@";
            let whole = [head.as_bytes(), set, b".nil\n"].concat();
            met[read_text(&whole).err().unwrap_or(0) as usize] += 1;
        }
    }
    assert!(
        [0, 23, 31].iter().all(|number| met[*number] > 50),
        "{met:?}"
    );
}

// Words that show one form each.
const FORMS: [&[&str]; 8] = [
    &[
        "0 has\n", "has n\n", "has n 0:", "has 0:", ":i", ":r", ":o", ":e",
    ],
    &[":iroe", " 15:", "A0 = ", "A511 = ", " = nil", " = A"],
    &[":: nil", ":: A", ":: (", "(nil | nil)", "((", ".("],
    &["eval(nil)@", "eval(A", "eval(eval(", "eval((", "newloc(u7)"],
    &["!x7", "!u7", "v7", "@self.", "@v", ",self"],
    &[":: <@", "-2147483648", "2147483647"],
    &["0 from 0 has\n", "1 from 0 has n 0:", "15 from 15 has"],
    &["@{}.", "@{0}.", "@{0,1}.", ",15}.", "@{0,1,2,3,"],
];

#[test]
fn every_form_is_there() {
    let mut random = Random::new(63);
    let texts: Vec<u8> = (0..3_000).flat_map(|_| valid_text(&mut random)).collect();
    let texts = String::from_utf8(texts).expect("texts are ASCII");
    for form in FORMS.concat() {
        let count = texts.matches(form).count();
        assert!(count > 10, "{form}: {count}");
    }
}

/// The largest sizes are reached, and definitions stand unused.
#[test]
fn sizes_are_varied() {
    let mut random = Random::new(64);
    let sources: Vec<Source> = (0..3_000).map(|_| source(&mut random)).collect();
    let count = |met: fn(&Source) -> bool| sources.iter().filter(|source| met(source)).count();
    assert!(count(|source| source.format() == SINGLE_ROW) > 1_000);
    assert!(count(|source| source.format() == ROW_BY_ORIGIN) > 1_000);
    assert!(count(|source| source.size() == 512) > 10);
    assert!(count(|source| source.size() == 1) > 30);
    assert!(count(|source| source.address_count() == 16) > 30);
    assert!(count(|source| source.defined().len() > 500) > 10);
    assert!(count(|source| source.defined().is_empty()) > 100);
    assert!(count(unused) > 100);
    assert!(count(|source| source.defined().len() == source.lines.len()) > 10);
}

// Whether the last line is a definition that the text does without.
fn unused(source: &Source) -> bool {
    let mut without = source.clone();
    let defined = matches!(without.lines.pop(), Some(Line::Definition(..)));
    defined && read_text(&text(&without)).err() != Some(33)
}
