//! Listings by hand, and the checker beside another definition of it.

use super::by_hand::{long, short, Stated, LINES, LONGEST};
use super::generate::{agreeing, damaged, misnamed, Listing};
use super::*;
use crate::by_hand::PAPER_IMAGE;
use crate::random::Random;
use crate::register::MOST_PICKS;

const AGREES: Result<(), Fault> = Ok(());

// The listing of the paper's run, as document 01 has it and as of now.
const PAPER_OLD: &str =
    "net 1 2\npick 1 0 0 0\npick 2 0 0 1\npick 3 0 0 7\nnode 0 1 0\ntuple 0 5\n";
const PAPER_NEW: &str =
    "net 1 2\npick 1 0 0 0\npick 2 0 0 1\npick 3 0 0 7\nnode 0 1 0\ntuple 0 5 from 0\ntotal 1\n";

// Checked against the paper's run.
fn old(listing: &str) -> Result<(), Fault> {
    check_listing(&PAPER_IMAGE, &[0; 3], listing.as_bytes(), Age::Old)
}

fn new(listing: &str) -> Result<(), Fault> {
    check_listing(&PAPER_IMAGE, &[0; 3], listing.as_bytes(), Age::New)
}

// The paper's listing with the first such part replaced.
fn old_with(part: &str, by: &str) -> Result<(), Fault> {
    assert!(PAPER_OLD.contains(part), "{part}");
    old(&PAPER_OLD.replacen(part, by, 1))
}

fn differs(line: usize) -> Result<(), Fault> {
    fault(41, line)
}

fn wanting(line: usize) -> Result<(), Fault> {
    fault(42, line)
}

fn left_over(line: usize) -> Result<(), Fault> {
    fault(43, line)
}

#[test]
fn the_paper_s_run() {
    assert_eq!(old(PAPER_OLD), AGREES);
    assert_eq!(new(PAPER_NEW), AGREES);
}

/// Each listing by hand has the answer that is stated beside it.
#[test]
fn stated_answers() {
    let mut count = 0;
    for Stated { case, prints } in short().into_iter().chain([long()]) {
        assert_eq!(case.listings.len(), prints.len());
        for (listing, prints) in case.listings.iter().zip(prints) {
            let bytes = &listing.bytes;
            let checked = check_listing(&case.image, &case.picks, bytes, listing.called);
            let start = String::from_utf8_lossy(&bytes[..bytes.len().min(500)]);
            let called = listing.called;
            assert_eq!(printed(checked), prints + "\n", "{start:?} {called:?}");
            count += 1;
        }
    }
    println!("{count} listings by hand");
    assert!(count > 700, "{count}");
}

/// No listing that agrees is longer.
#[test]
fn the_longest_listing() {
    let Stated { case, .. } = long();
    let agrees = |listing: &&Listing| {
        let (bytes, called) = (&listing.bytes, listing.called);
        check_listing(&case.image, &case.picks, bytes, called) == AGREES
    };
    let longest: Vec<_> = case.listings.iter().filter(agrees).collect();
    assert_eq!(longest.len(), Age::BOTH.len());
    let [old, new] = Age::BOTH.map(|age| {
        let listing = longest.iter().find(|listing| listing.called == age);
        let bytes = &listing.expect("one of each age").bytes;
        (bytes.len(), lines(bytes).count())
    });
    assert_eq!(new, (LONGEST, LINES));
    assert_eq!(new, (3_232_651, 65_810));
    // Neither marks nor a total.
    assert_eq!(old, (LONGEST - 256 * 16 - 17, LINES - 1));
}

#[test]
fn what_is_printed() {
    assert_eq!(printed(AGREES), "0\n");
    assert_eq!(printed(differs(7)), "41 7\n");
    assert_eq!(printed(wanting(1)), "42 1\n");
    assert_eq!(printed(left_over(65_811)), "43 65811\n");
}

// Ages.

/// The tuple's mark is met before the total.
#[test]
fn a_listing_called_what_it_is_not() {
    assert_eq!(new(PAPER_OLD), differs(6));
    assert_eq!(old(PAPER_NEW), differs(6));
    let marked = PAPER_OLD.replace("tuple 0 5", "tuple 0 5 from 0");
    assert_eq!(new(&marked), wanting(7));
    assert_eq!(old(&marked), differs(6));
    let counted = PAPER_OLD.to_string() + "total 1\n";
    assert_eq!(old(&counted), left_over(7));
    assert_eq!(new(&counted), differs(6));
}

// Padding.

/// The lines with one word padded to this width.
fn with_width(wanted: &[String], line: usize, word: usize, width: usize) -> Vec<u8> {
    let mut words: Vec<String> = wanted[line].split(' ').map(str::to_string).collect();
    let zeros = "0".repeat(width - words[word].len());
    words[word] = zeros + &words[word];
    let mut lines = wanted.to_vec();
    lines[line] = words.join(" ");
    (lines.join("\n") + "\n").into_bytes()
}

/// Each number of the paper's run, to ten digits and to more.
#[test]
fn ten_digits_and_eleven() {
    for (age, count) in [(Age::Old, 19), (Age::New, 21)] {
        let wanted = wanted_lines(&PAPER_IMAGE, &[0; 3], age);
        let words = |line: usize| wanted[line].split(' ').enumerate();
        let all = (0..wanted.len()).flat_map(|line| words(line).map(move |word| (line, word)));
        let numbers = all.filter(|(_, (_, word))| word.parse::<usize>().is_ok());
        let numbers: Vec<_> = numbers.map(|(line, (word, _))| (line, word)).collect();
        assert_eq!(numbers.len(), count);
        for (line, word) in numbers {
            let with = |width| {
                let listing = with_width(&wanted, line, word, width);
                check_listing(&PAPER_IMAGE, &[0; 3], &listing, age)
            };
            assert!((1..=10).all(|width| with(width) == AGREES));
            let longer = [11, 12, 20, 255, 256, 257, 266, 65_537];
            let differs = differs(line + 1);
            assert!(longer.into_iter().all(|width| with(width) == differs));
        }
    }
}

// All else, byte for byte.

#[test]
fn bytes_that_are_no_text() {
    for byte in 0..=255 {
        for at in 0..PAPER_OLD.len() {
            let mut listing = PAPER_OLD.as_bytes().to_vec();
            if listing[at] == byte {
                continue;
            }
            listing[at] = byte;
            let line = PAPER_OLD[..at].matches('\n').count() + 1;
            let checked = check_listing(&PAPER_IMAGE, &[0; 3], &listing, Age::Old);
            assert_eq!(checked, differs(line), "{byte} at {at}");
        }
    }
}

// Lines.

#[test]
fn an_empty_listing() {
    assert_eq!(old(""), wanting(1));
    assert_eq!(new(""), wanting(1));
}

#[test]
fn newlines_alone() {
    for listing in ["\n", "\n\n\n", &"\n".repeat(1_000)] {
        assert_eq!(old(listing), differs(1));
        assert_eq!(new(listing), differs(1));
    }
}

/// Cut before each byte: the line that is cut differs, even where only its
/// newline is gone; between two lines the next is wanting.
#[test]
fn each_cut() {
    for (listing, check) in [
        (PAPER_OLD, old as fn(&str) -> Result<(), Fault>),
        (PAPER_NEW, new),
    ] {
        for length in 0..listing.len() {
            let cut = &listing[..length];
            let line = cut.matches('\n').count() + 1;
            let expected = if cut.is_empty() || cut.ends_with('\n') {
                wanting(line)
            } else {
                differs(line)
            };
            assert_eq!(check(cut), expected, "{cut:?}");
        }
    }
}

#[test]
fn a_last_newline_missing() {
    assert_eq!(old(PAPER_OLD.trim_end()), differs(6));
    assert_eq!(new(PAPER_NEW.trim_end()), differs(7));
    assert_eq!(old("net 1 2"), differs(1));
}

#[test]
fn lines_left_over() {
    let more = ["\n", "\n\n", "x", "x\n", "0", " ", "\0", "tuple 0 5\n"];
    for more in more.into_iter().chain([PAPER_OLD, PAPER_NEW]) {
        assert_eq!(old(&format!("{PAPER_OLD}{more}")), left_over(7));
        assert_eq!(new(&format!("{PAPER_NEW}{more}")), left_over(8));
    }
}

#[test]
fn an_empty_line() {
    assert_eq!(old(&format!("\n{PAPER_OLD}")), differs(1));
    assert_eq!(old_with("net 1 2\n", "net 1 2\n\n"), differs(2));
    assert_eq!(old_with("tuple", "\ntuple"), differs(6));
    assert_eq!(old(&format!("{PAPER_OLD}\n")), left_over(7));
    assert_eq!(new(&format!("{PAPER_NEW}\n")), left_over(8));
}

#[test]
fn a_line_left_out_doubled_or_swapped() {
    let lines: Vec<&str> = PAPER_NEW.split_inclusive('\n').collect();
    let last = lines.len() - 1;
    for at in 0..=last {
        let mut out = lines.clone();
        out.remove(at);
        let expected = if at == last {
            wanting(7)
        } else {
            differs(at + 1)
        };
        assert_eq!(new(&out.concat()), expected);
        let mut doubled = lines.clone();
        doubled.insert(at, lines[at]);
        let expected = if at == last {
            left_over(8)
        } else {
            differs(at + 2)
        };
        assert_eq!(new(&doubled.concat()), expected);
        for other in at + 1..=last {
            let mut swapped = lines.clone();
            swapped.swap(at, other);
            assert_eq!(new(&swapped.concat()), differs(at + 1));
        }
    }
}

/// Two lines made one, and one made two.
#[test]
fn newlines_gone_and_too_many() {
    assert_eq!(old_with("2\npick", "2 pick"), differs(1));
    assert_eq!(old_with("2\npick", "2pick"), differs(1));
    assert_eq!(old_with("pick 1 0", "pick 1\n0"), differs(2));
    assert_eq!(old_with("tuple 0 5", "tuple 0 5\n"), left_over(7));
}

/// The first fault counts, whatever is wrong after it.
#[test]
fn the_first_met() {
    assert_eq!(old_with("net 1 2\npick 1", "net 1 3\npick 9"), differs(1));
    assert_eq!(old("net 1 2\npick 1 0 0 1\n"), differs(2));
    assert_eq!(old("net 1 2\npick 1 0 0 0\n"), wanting(3));
    let wrong_and_longer = PAPER_OLD.replace("tuple 0 5", "tuple 0 6") + "more\n";
    assert_eq!(old(&wrong_and_longer), differs(6));
}

/// The 65,536 picks that count, and those past them.
#[test]
fn picks_past_the_limit_are_left_off() {
    let picks = vec![0xFF; MOST_PICKS + 5];
    let pick = |number: usize| format!("pick {number:010} 15 03 9\n");
    let most: String = (1..=MOST_PICKS).map(pick).collect();
    let check = |listing: &str| check_listing(&PAPER_IMAGE, &picks, listing.as_bytes(), Age::Old);
    let (head, tail) = ("net 1 2\n", "node 0 0 1\n");
    assert_eq!(check(&[head, &most, tail].concat()), AGREES);
    let one_more = [head, &most, &pick(MOST_PICKS + 1), tail].concat();
    assert_eq!(check(&one_more), differs(MOST_PICKS + 2));
    assert_eq!(check(&[head, &most].concat()), wanting(MOST_PICKS + 2));
    let after = [head, &most, tail, tail].concat();
    assert_eq!(check(&after), left_over(MOST_PICKS + 3));
}

// Another definition.

/// The listing with no leading zeros in any run of digits, none where a run is
/// longer than ten.
fn without_padding(listing: &[u8]) -> Option<Vec<u8>> {
    let mut plain = Vec::new();
    let mut at = 0;
    while at < listing.len() {
        let rest = listing[at..].iter();
        let digits = rest.take_while(|byte| byte.is_ascii_digit()).count();
        if digits > 10 {
            return None;
        }
        let zeros = listing[at..at + digits].iter();
        let zeros = zeros.take_while(|byte| **byte == b'0').count();
        let padding = zeros.min(digits.saturating_sub(1));
        // The number's own digits, or one byte that is no digit.
        let end = at + digits.max(1);
        plain.extend(&listing[at + padding..end]);
        at = end;
    }
    Some(plain)
}

/// A listing agrees just when it is the wanted text once its padding is
/// taken off; and of one that does not, the lines before the fault are so.
#[test]
fn an_agreeing_listing_is_the_wanted_text_without_padding() {
    let mut random = Random::new(0x5EED_0041);
    let mut met = [0; 2];
    for number in 0..1_000 {
        let case = match number % 10 {
            0 => agreeing(&mut random),
            1 => misnamed(&mut random),
            _ => damaged(&mut random),
        };
        for listing in &case.listings {
            let wanted = wanted_lines(&case.image, &case.picks, listing.called);
            let text = |lines: &[String]| lines.join("\n") + "\n";
            let whole = without_padding(&listing.bytes);
            let agrees = whole == Some(text(&wanted).into_bytes());
            let checked = check_listing(&case.image, &case.picks, &listing.bytes, listing.called);
            assert_eq!(checked == AGREES, agrees);
            met[usize::from(agrees)] += 1;
            if let Err(fault) = checked {
                let found: Vec<&[u8]> = lines(&listing.bytes).collect();
                expect_fault(&wanted, &found, fault);
            }
        }
    }
    assert!(met.iter().all(|count| *count > 300), "{met:?}");
}

// The fault as the lines without padding show it.
fn expect_fault(wanted: &[String], found: &[&[u8]], fault: Fault) {
    let same = |index: usize| {
        let wanted = wanted[index].clone() + "\n";
        without_padding(found[index]) == Some(wanted.into_bytes())
    };
    let before = fault.line - 1;
    assert!((0..before).all(same));
    match fault.number {
        LINE_DIFFERS => assert!(!same(before)),
        LINES_WANTING => assert!(found.len() == before && before < wanted.len()),
        _ => assert!(found.len() > before && before == wanted.len()),
    }
}
