//! Opening an image, which is reading and judging it, on the nets that are
//! timed, the examples and the longest images; and a run without picks, which
//! the proved code also spends on its tables.

use crate::machine::Machine;
use crate::nets::Work;
use crate::{both, heading, nanoseconds, row};
use cavindorum_tests::by_hand::{longest, longest_of_format_2};
use cavindorum_tests::examples::examples;
use cavindorum_tests::image::write_image;
use std::hint::black_box;

pub fn rows(works: &[Work]) {
    println!();
    heading();
    let timed = works
        .iter()
        .map(|work| (work.name.to_string(), work.image.clone()));
    for (name, image) in timed.chain(others()) {
        let times = both(|machine| opening(machine, &image));
        row(
            &format!("opening, {name}, {} bytes (ns)", image.len()),
            times,
        );
    }
    for work in works {
        let times = both(|machine| run_of_nothing(machine, &work.image));
        row(&format!("a run without picks, {} (ns)", work.name), times);
    }
}

// The examples' images, and the longest of each format.
fn others() -> impl Iterator<Item = (String, Vec<u8>)> {
    let examples = examples().into_iter();
    let examples = examples.map(|example| (example.name.to_string(), write_image(&example.net)));
    let longest = [
        ("longest", longest()),
        ("longest, format 2", longest_of_format_2()),
    ];
    let longest = longest.map(|(name, net)| (name.to_string(), write_image(&net)));
    examples.chain(longest)
}

// How often an image is opened in a round.
fn times(image: &[u8]) -> u32 {
    if image.len() < 2_000 {
        1_000
    } else {
        20
    }
}

fn opening(machine: &Machine, image: &[u8]) -> f64 {
    nanoseconds(times(image), || (machine.open)(black_box(image)))
}

fn run_of_nothing(machine: &Machine, image: &[u8]) -> f64 {
    nanoseconds(times(image), || {
        (machine.run)(black_box(image), &[], &mut [])
    })
}
