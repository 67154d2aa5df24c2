//! Seasons by hand, and what is printed of each.

use super::folder::{Folder, Season};
use super::showing::showing;
use super::{Run, Seen, MOST_RUNS};
use crate::by_hand::{fill, readings, stops, ONE_STOP, PAPER_IMAGE};
use crate::image::write_image;
use crate::net::ADDRESSES;
use crate::random::Random;
use crate::register::MOST_PICKS;

/// A season, and what the program `shares` prints of it.
pub struct Stated {
    pub season: Season,
    pub prints: String,
}

/// All that are short.
pub fn short() -> Vec<Stated> {
    let mut all = vec![no_runs(), refused_alone(), missing_files()];
    all.extend([paper(), unpicked(), malformed(), unused(), means()]);
    all.extend([
        line_of_the_paper(),
        tie(),
        tie_in_other_terms(),
        passed_over(),
    ]);
    all.extend([refused_between(), noughts(), nearly_equal(), most_picks()]);
    all
}

/// The most runs, and more.
pub fn many() -> Vec<Stated> {
    vec![
        most_runs(),
        most_runs_and_refused(),
        last_is_best(),
        too_many(),
        too_many_and_refused(),
    ]
}

// The lines of these addresses after `share`; all others have neither picks
// nor tuples.
fn prints(lines: &[&str]) -> String {
    let line = |address: usize| {
        let of_address = |line: &&&str| line.split(' ').next() == Some(&address.to_string());
        match lines.iter().find(of_address) {
            Some(line) => format!("share {line}\n"),
            None => format!("share {address} none 0/1 none\n"),
        }
    };
    (0..ADDRESSES).map(line).collect()
}

fn stated(folders: &[Folder], lines: &[&str]) -> Stated {
    Stated {
        season: Season::of(folders),
        prints: prints(lines),
    }
}

fn refused(folders: &[Folder], number: u8) -> Stated {
    Stated {
        season: Season::of(folders),
        prints: format!("refused {number}\n"),
    }
}

// The paper's run with so many picks, answered 0, 1 and then 7.
fn paper_with(picks: usize) -> Folder {
    Folder::of(&PAPER_IMAGE, &vec![0; picks])
}

// An image that is refused, with picks.
fn no_image() -> Folder {
    Folder::of(&[], &[0; 3])
}

// Runs that show these counts at address 3: performed, picks, left.
fn at_3(runs: &[(u64, u64, u64)]) -> Vec<Folder> {
    let mut random = Random::new(73);
    let mut folder = |(performed, picks, left): &(u64, u64, u64)| {
        let mut run = Run::default();
        run[3] = Seen {
            picks: *picks,
            performed: *performed,
            left: *left,
        };
        showing(&mut random, &run, 0)
    };
    runs.iter().map(&mut folder).collect()
}

// Few runs.

fn no_runs() -> Stated {
    refused(&[], 44)
}

fn refused_alone() -> Stated {
    refused(&[no_image(), Folder::of(&[0xFF; 20], &[]), no_image()], 44)
}

/// Without an image there is no run, without picks one that has none.
fn missing_files() -> Stated {
    let (image, picks) = (None, None);
    let neither = Folder { image, picks };
    let no_image = Folder {
        picks: Some(vec![0; 3]),
        ..neither.clone()
    };
    let no_picks = Folder {
        image: Some(PAPER_IMAGE.to_vec()),
        ..neither.clone()
    };
    let folders = [neither, no_image, no_picks, paper_with(3)];
    stated(&folders, &["0 2/3 1/2 2"])
}

/// Answered 0, 1 and 7.
fn paper() -> Stated {
    stated(&[paper_with(3)], &["0 2/3 1/1 1"])
}

fn unpicked() -> Stated {
    stated(&[paper_with(0), Folder::of(&ONE_STOP, &[])], &[])
}

/// Picks answered 9 do not count: not for the share, and a run that has no
/// others there is passed over.
fn malformed() -> Stated {
    let folders = [
        Folder::of(&PAPER_IMAGE, &[1, 2, 3, 0xF1]),
        Folder::of(&PAPER_IMAGE, &[1, 0, 2, 0x0F, 0, 3, 4]),
    ];
    stated(&folders, &["0 2/3 1/2 2"])
}

/// Picks of an unused address count, and are answered 8.
fn unused() -> Stated {
    let folders = [
        Folder::of(&PAPER_IMAGE, &[0, 0xF0, 0xF4]),
        Folder::of(&PAPER_IMAGE, &[0xF1, 0x10]),
    ];
    let lines = ["0 1/1 1/2 1", "1 0/1 0/1 2", "15 0/1 0/1 1"];
    stated(&folders, &lines)
}

/// Tuples of the image; address 1 is unused in the second run and holds none.
fn means() -> Stated {
    let mut two = stops(2, 1);
    fill(&mut two, 0, &[readings(&[7]); 16]);
    fill(&mut two, 1, &[readings(&[7]); 3]);
    let folders = [write_image(&two), ONE_STOP.to_vec()];
    let folders = folders.map(|image| Folder::of(&image, &[]));
    stated(&folders, &["0 none 8/1 none", "1 none 3/2 none"])
}

/// The paper's line, here of address 3.
fn line_of_the_paper() -> Stated {
    let folders = at_3(&[(0, 2, 3), (1, 2, 3), (1, 2, 2), (2, 2, 4)]);
    stated(&folders, &["3 1/2 3/1 4"])
}

// The best run.

fn tie() -> Stated {
    let folders = at_3(&[(1, 3, 0), (2, 3, 0), (2, 3, 0), (1, 3, 0), (2, 3, 0)]);
    stated(&folders, &["3 8/15 0/1 2"])
}

/// 1/2, 2/4 and 50/100 are one share.
fn tie_in_other_terms() -> Stated {
    let folders = at_3(&[(2, 5, 0), (2, 4, 0), (1, 2, 0), (50, 100, 1)]);
    stated(&folders, &["3 55/111 1/4 2"])
}

/// Runs without picks there are passed over, but have their numbers.
fn passed_over() -> Stated {
    let folders = at_3(&[(0, 0, 1), (0, 0, 0), (1, 4, 0), (0, 0, 0), (1, 4, 0)]);
    stated(&folders, &["3 1/4 1/5 3"])
}

/// Refused images have no numbers.
fn refused_between() -> Stated {
    let [one, two] = &at_3(&[(1, 4, 1), (3, 4, 0)])[..] else {
        unreachable!("two runs are asked for");
    };
    let folders = [no_image(), one.clone(), no_image(), no_image(), two.clone()];
    stated(&folders, &["3 1/2 1/2 2"])
}

/// The largest share may be nought.
fn noughts() -> Stated {
    let folders = at_3(&[(0, 0, 0), (0, 7, 0), (0, 9, 0)]);
    stated(&folders, &["3 0/1 0/1 2"])
}

/// Shares that rounding would make equal; the sums have no common divisor.
fn nearly_equal() -> Stated {
    let folders = at_3(&[(65_534, 65_535, 0), (65_535, 65_536, 0)]);
    stated(&folders, &["3 131069/131071 0/1 2"])
}

/// Only the first 65,536 picks count; here each of them performs.
fn most_picks() -> Stated {
    let most = MOST_PICKS as u64;
    let mut folders = at_3(&[(most, most, 0), (most, most, 0), (1, 2, 0)]);
    let picks = folders[1].picks.as_mut().expect("it has picks");
    picks.extend([0x3C; 10]);
    stated(&folders, &["3 131073/131074 0/1 1"])
}

// Many runs.

// These folders named one after another, over and over, so many names.
fn repeated(folders: &[Folder], count: usize) -> Season {
    Season {
        folders: folders.to_vec(),
        named: (0..count).map(|index| index % folders.len()).collect(),
    }
}

fn most_runs() -> Stated {
    Stated {
        season: repeated(&[paper_with(3), paper_with(1)], MOST_RUNS),
        prints: prints(&["0 3/4 1/1 2"]),
    }
}

/// Refused images do not count, however many.
fn most_runs_and_refused() -> Stated {
    Stated {
        season: repeated(&[no_image(), paper_with(3)], 2 * MOST_RUNS),
        prints: prints(&["0 2/3 1/1 1"]),
    }
}

fn last_is_best() -> Stated {
    let mut season = repeated(&[paper_with(3)], MOST_RUNS - 1);
    season.folders.push(paper_with(1));
    season.named.push(1);
    Stated {
        season,
        prints: prints(&["0 1999/2998 1/1 1000"]),
    }
}

fn too_many() -> Stated {
    Stated {
        season: repeated(&[paper_with(3)], MOST_RUNS + 1),
        prints: "refused 45\n".to_string(),
    }
}

fn too_many_and_refused() -> Stated {
    Stated {
        season: repeated(&[paper_with(2), no_image()], 3 * MOST_RUNS),
        prints: "refused 45\n".to_string(),
    }
}
