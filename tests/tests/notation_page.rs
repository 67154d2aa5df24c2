//! The page docs/NOTATION.md: by the proved reader each text on it has the
//! result that the page gives; each form and each number is there; and an image
//! goes back to the text that the page shows.

use cavindorum_tests::dump::{inspect_text, Opened};
use cavindorum_tests::notation::page::{back_to_text, blocks, Outcome};
use cavindorum_tests::program::{printed_by, TestDirectory};

#[test]
fn each_text_has_its_result() {
    let blocks = blocks();
    let texts: Vec<_> = blocks.iter().map(|block| block.bytes()).collect();
    let mut before = None;
    for (block, read) in blocks.iter().zip(inspect_text(&texts)) {
        let number = block.outcome.number();
        assert_eq!(read.number, number, "line {}", block.line);
        match block.outcome {
            Outcome::Accepted => before = Some(read),
            Outcome::Same => assert!(Some(read) == before, "line {}", block.line),
            _ => {}
        }
    }
}

#[test]
fn each_number_has_a_text_and_a_shortest_one() {
    let results: Vec<Outcome> = blocks().iter().map(|block| block.outcome).collect();
    for number in [22, 23, 26, 27, 30, 31, 32, 33] {
        assert!(results.contains(&Outcome::Refused(number)), "{number}");
        assert!(results.contains(&Outcome::Shortest(number)), "{number}");
    }
}

/// Of a shortest text nothing can be left away but its last newline, which
/// makes its last line whole.
#[test]
fn nothing_can_be_left_away() {
    for block in blocks() {
        let Outcome::Shortest(number) = block.outcome else {
            continue;
        };
        for (less, read) in less(&block.bytes()) {
            let less = String::from_utf8_lossy(&less);
            assert_ne!(read.number, number, "line {}: {less:?}", block.line);
        }
    }
}

/// A text without some bytes that stand together before its last, each way,
/// and what the program makes of it.
fn less(text: &[u8]) -> Vec<(Vec<u8>, Opened)> {
    let mut all = Vec::new();
    for from in 0..text.len().saturating_sub(1) {
        for to in from + 1..text.len() {
            all.push([&text[..from], &text[to..]].concat());
        }
    }
    let read = inspect_text(&all);
    all.into_iter().zip(read).collect()
}

/// What `pack` makes of the first text, `unpack` makes the second of.
#[test]
fn an_image_goes_back_to_text() {
    let [text, back] = back_to_text();
    let here = TestDirectory::holding([("net.txt", text.as_bytes())]);
    let printed = printed_by("pack", &here.path);
    assert!(printed.starts_with(b"packed "));
    let unpacked = printed_by("unpack", &here.path);
    assert_eq!(String::from_utf8_lossy(&unpacked), back);
}

/// Words that show the forms of rows, processes, actions, targets, fields,
/// and tuples.
const FORMS: [&[&str]; 7] = [
    &["has\n", "has n 0:", "has 0:i", ":o", "oe", ":iro"],
    &["0 from 0 has", "0 from 1 has\n", "@{0,2}.", "@{}.", "@{1}."],
    &[
        ":: nil", ".nil", ":: A", ".A", "A0 = ", " = A", ":: (", " | (",
    ],
    &["out(", "in(", "read(", "eval(", "newloc(u"],
    &["@0.", "@self.", "@v1."],
    &["(5,", ",-", "@1,", "self,", "v0", "!x", "!u"],
    &[":: <5,@1>", ":: <-1>"],
];

#[test]
fn each_form_is_there() {
    let texts = blocks().into_iter();
    let accepted = texts.filter(|block| block.outcome == Outcome::Accepted);
    let all: String = accepted.map(|block| block.text).collect();
    for form in FORMS.concat() {
        assert!(all.contains(form), "{form}");
    }
}
