//! The texts that are timed: read to their end, so that what counts is their
//! length.

use cavindorum_tests::notation::edges::{brackets, chain, evals, widest};

pub struct Text {
    pub name: String,
    pub text: Vec<u8>,
    /// What it is refused with once it is read, 0 where it is accepted.
    pub number: u8,
}

const ROW: &str = "0 has n 0:iroe\n";

const SIZES: [(&str, usize); 3] = [("10 KB", 10_000), ("100 KB", 100_000), ("1 MB", 1_000_000)];

/// A text of about so many bytes.
type Make = fn(usize) -> String;

/// Three kinds in three sizes, and one that is accepted, all of format 1. It has
/// 512 instructions and 256 tuples of the most digits.
pub fn all() -> Vec<Text> {
    let kinds: [(&str, Make, u8); 3] = [
        ("definitions", |bytes| lines(bytes, definition), 33),
        (
            "a chain",
            |bytes| format!("{ROW}0 :: {}\n", chain(bytes / 9)),
            22,
        ),
        ("deep nests", |bytes| lines(bytes, nest), 33),
    ];
    let mut all = Vec::new();
    for (kind, make, number) in kinds {
        for (size, bytes) in SIZES {
            let (name, text) = (format!("{kind}, {size}"), make(bytes).into_bytes());
            all.push(Text { name, text, number });
        }
    }
    let (text, number) = (widest(), 0);
    let name = format!("accepted, {} KB", text.len() / 1_000);
    all.push(Text { name, text, number });
    all
}

/// Lines by their number, about so many bytes of them.
fn lines(bytes: usize, line: fn(usize) -> String) -> String {
    let mut text = ROW.to_string();
    let mut number = 0;
    while text.len() < bytes {
        text += &line(number);
        number += 1;
    }
    text
}

// Each goes on with a name; the last, or one that is defined again, is a
// fault of names.
fn definition(number: usize) -> String {
    let (name, next) = (number % 512, (number + 1) % 512);
    format!("A{name} = in(!x0,{number})@self.A{next}\n")
}

// As deep as may be.
fn nest(number: usize) -> String {
    let process = [brackets, evals][number % 2](32);
    format!("A{} = {process}\n", number % 2)
}
