//! What holds of the reader at random texts.

use super::compile::compile;
use super::from_net::from_net;
use super::generate::damage::{damage_byte, damaged_text, one_byte_off};
use super::generate::{source, valid_text};
use super::print::text;
use super::{read_text, text_of};
use crate::generate::valid_net;
use crate::image::{read_image, starts_keep_within, write_image};
use crate::random::Random;
use crate::sound::sound;

fn number(text: &[u8]) -> u8 {
    read_text(text).err().unwrap_or(0)
}

fn shown(text: &[u8]) -> String {
    String::from_utf8_lossy(&text[..text.len().min(2_000)]).into_owned()
}

/// A tree's text gives the net that the tree is compiled to, or 30.
#[test]
fn a_tree_s_text_gives_its_net() {
    let mut random = Random::new(71);
    for _ in 0..20_000 {
        let source = source(&mut random);
        let (text, net) = (text(&source), compile(&source));
        let kept = starts_keep_within(&net);
        let expected = if kept { Ok(net) } else { Err(30) };
        assert!(read_text(&text) == expected, "{}", shown(&text));
    }
}

/// A net with one definition for each instruction gives that net, and the
/// number that its image has.
#[test]
fn a_net_s_text_gives_the_net_of_its_image() {
    let mut random = Random::new(72);
    for _ in 0..5_000 {
        let net = valid_net(&mut random);
        let text = text(&from_net(&net));
        let expected = read_image(&write_image(&net)).map_err(|fault| fault.number);
        assert!(read_text(&text) == expected, "{}", shown(&text));
    }
}

/// An accepted text's net is sound, and its image and its text give it back.
#[test]
fn accepted_nets_are_those_of_images() {
    let mut random = Random::new(73);
    let mut accepted = [0; 2];
    for _ in 0..20_000 {
        if let Ok(net) = read_text(&one_byte_off(&mut random)) {
            assert!(sound(&net));
            assert_eq!(read_image(&write_image(&net)).as_ref(), Ok(&net));
            let text = text_of(&net).expect("it is fresh");
            assert_eq!(read_text(&text).as_ref(), Ok(&net));
            accepted[net.format as usize - 1] += 1;
        }
    }
    assert!(accepted.iter().all(|count| *count > 500), "{accepted:?}");
}

// The numbers that are judged where they stand and nowhere else.
const IN_PLACE: [u8; 5] = [23, 26, 27, 31, 32];

// A text's lines, not at fault where they stand, and the number of rows.
fn lines_of_a_text(random: &mut Random) -> (Vec<Vec<u8>>, usize) {
    let mut source = source(random);
    source.lines.truncate(12);
    let (text, rows) = (text(&source), source.rows.len());
    let lines = text.split_inclusive(|byte| *byte == b'\n');
    (lines.map(<[u8]>::to_vec).collect(), rows)
}

// Damages a byte of a line, which stays one line.
fn damage_line(random: &mut Random, line: &mut Vec<u8>) {
    line.pop();
    damage_byte(random, line);
    line.retain(|byte| *byte != b'\n');
    line.push(b'\n');
}

/// Of two lines at fault the first decides, and what stands after it does
/// not matter.
#[test]
fn the_first_fault_decides() {
    let mut random = Random::new(74);
    let mut decided = 0;
    for _ in 0..20_000 {
        let (mut lines, rows) = lines_of_a_text(&mut random);
        if lines.len() < rows + 2 {
            continue;
        }
        let first = random.between(rows, lines.len() - 2);
        let second = random.between(first + 1, lines.len() - 1);
        damage_line(&mut random, &mut lines[first]);
        let alone = number(&lines.concat());
        if !IN_PLACE.contains(&alone) {
            continue;
        }
        damage_line(&mut random, &mut lines[second]);
        assert_eq!(number(&lines.concat()), alone);
        assert_eq!(number(&lines[..=first].concat()), alone);
        decided += 1;
    }
    assert!(decided > 5_000, "{decided}");
}

/// A text that is refused where it stands stays so, whatever comes after
/// its last line, if that is no row.
#[test]
fn what_comes_after_a_fault_does_not_matter() {
    let mut random = Random::new(75);
    let mut tried = 0;
    for _ in 0..10_000 {
        let mut text = damaged_text(&mut random);
        text.extend(text.last().filter(|last| **last != b'\n').map(|_| b'\n'));
        text.extend(b"A0 = nil\n");
        let found = number(&text);
        if IN_PLACE.contains(&found) {
            let more = [&text[..], &valid_text(&mut random)].concat();
            assert_eq!(number(&more), found, "{}", shown(&text));
            tried += 1;
        }
    }
    assert!(tried > 5_000, "{tried}");
}
