//! The texts on the page docs/NOTATION.md, with the results it gives.

use crate::stored::repository;
use std::fs;

/// What the page says of a text.
#[derive(Clone, Copy, PartialEq, Eq, Debug)]
pub enum Outcome {
    Accepted,
    /// Accepted, with the net of the text before it.
    Same,
    Refused(u8),
    /// Refused, and no shorter text of whole lines is refused with it.
    Shortest(u8),
}

/// A text on the page.
#[derive(Clone, PartialEq, Eq, Debug)]
pub struct Block {
    /// The line of the page on which the text begins, from 1.
    pub line: usize,
    pub text: String,
    pub outcome: Outcome,
}

impl Outcome {
    /// The number of a refusal, 0 for a text that is accepted.
    pub fn number(self) -> u8 {
        match self {
            Outcome::Accepted | Outcome::Same => 0,
            Outcome::Refused(number) | Outcome::Shortest(number) => number,
        }
    }
}

impl Block {
    pub fn bytes(&self) -> Vec<u8> {
        self.text.clone().into_bytes()
    }
}

/// The texts on the page, in their order.
pub fn blocks() -> Vec<Block> {
    let path = repository().join("docs/NOTATION.md");
    let page = fs::read_to_string(path).expect("the page is there");
    blocks_of(&page)
}

/// The text that the page packs and the one that it unpacks to: the last that is
/// the same as the text before it, and that one.
pub fn back_to_text() -> [String; 2] {
    let blocks = blocks();
    let last = blocks
        .iter()
        .rposition(|block| block.outcome == Outcome::Same);
    let at = last.expect("the page has such a text");
    [at - 1, at].map(|at| blocks[at].text.clone())
}

// The fenced blocks: each opens with its result and closes with a bare
// fence.
fn blocks_of(page: &str) -> Vec<Block> {
    let mut blocks: Vec<Block> = Vec::new();
    let mut open = false;
    for (index, line) in page.lines().enumerate() {
        match (line.strip_prefix("```"), open) {
            (Some(opening), false) => {
                blocks.push(Block {
                    line: index + 2,
                    text: String::new(),
                    outcome: outcome(opening),
                });
                open = true;
            }
            (Some(closing), true) => {
                assert_eq!(closing, "", "line {}", index + 1);
                open = false;
            }
            (None, true) => {
                let block = blocks.last_mut().expect("one is open");
                block.text += line;
                block.text.push('\n');
            }
            (None, false) => {}
        }
    }
    assert!(!open, "the last block is closed");
    blocks
}

fn outcome(opening: &str) -> Outcome {
    let number = |text: &str| text.parse().expect("a number");
    match opening.split(' ').collect::<Vec<_>>()[..] {
        ["net"] => Outcome::Accepted,
        ["same"] => Outcome::Same,
        ["refused", text] => Outcome::Refused(number(text)),
        ["refused", text, "shortest"] => Outcome::Shortest(number(text)),
        _ => panic!("{opening}: no result"),
    }
}

#[cfg(test)]
mod tests {
    use super::*;
    use crate::notation::{read_text, text_of};

    /// By the model, as the proved reader has to have it too.
    #[test]
    fn each_text_has_its_result() {
        let mut before = None;
        for block in blocks() {
            let read = read_text(&block.bytes());
            let number = read.as_ref().err().copied().unwrap_or(0);
            assert_eq!(number, block.outcome.number(), "line {}", block.line);
            match block.outcome {
                Outcome::Accepted => before = read.ok(),
                Outcome::Same => assert!(read.ok() == before, "line {}", block.line),
                _ => {}
            }
        }
    }

    #[test]
    fn an_image_goes_back_to_text() {
        let [text, back] = back_to_text();
        let net = read_text(text.as_bytes()).expect("it is accepted");
        assert_eq!(text_of(&net), Ok(back.into_bytes()));
    }
}
