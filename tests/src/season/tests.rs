//! Seasons by hand, and the run beside what a register shows of it.

use super::by_hand::{many, short, Stated};
use super::folder::Folder;
use super::generate::trials;
use super::*;
use crate::by_hand::PAPER_IMAGE;
use crate::register::register;

/// Each season by hand prints what is stated beside it.
#[test]
fn stated_seasons() {
    for (number, Stated { season, prints }) in short().into_iter().chain(many()).enumerate() {
        assert_eq!(printed(&season.runs()), prints, "season {number}");
    }
}

/// 1,000 runs are no more than there may be.
#[test]
fn the_numbers() {
    let one = run(&PAPER_IMAGE, &[0]).expect("it is accepted");
    assert_eq!(figures(&[]), Err(44));
    assert!(figures(&vec![one; 1_000]).is_ok());
    assert_eq!(figures(&vec![one; 1_001]), Err(45));
}

/// Runs are those of the list, in order, without what is refused.
#[test]
fn the_runs_of_a_list() {
    let list: [(&[u8], &[u8]); 3] = [(&PAPER_IMAGE, &[0]), (&[], &[0]), (&PAPER_IMAGE, &[])];
    let one = |picks: &[u8]| run(&PAPER_IMAGE, picks).expect("it is accepted");
    assert_eq!(runs(list), [one(&[0]), one(&[])]);
}

// What a register shows of its run, none where it is refused.
fn seen_in(register: &str) -> Option<Run> {
    let mut run = Run::default();
    for line in register.lines() {
        let words: Vec<&str> = line.split(' ').collect();
        let number = |at: usize| words[at].parse::<u64>().expect("a number");
        match words[0] {
            "refused" => return None,
            "pick" => {
                let (seen, answer) = (&mut run[number(2) as usize], number(4));
                seen.picks += u64::from(answer != 9);
                seen.performed += u64::from(answer <= 1);
            }
            "tuple" => run[number(1) as usize].left += 1,
            _ => {}
        }
    }
    Some(run)
}

/// The register's picks and tuples, counted by their lines.
#[test]
fn a_run_is_what_its_register_shows() {
    let folders = trials().into_iter().flat_map(|season| season.folders);
    let mut refused = 0;
    for Folder { image, picks } in folders.take(3_000) {
        let (image, picks) = (image.unwrap_or_default(), picks.unwrap_or_default());
        let seen = seen_in(&register(&image, &picks));
        assert_eq!(run(&image, &picks), seen);
        refused += usize::from(seen.is_none());
    }
    assert!(refused > 100, "{refused}");
}

/// No run's share at an address is larger than the best run's, and none
/// before it is equal.
#[test]
fn the_best_run_is_the_first_of_the_largest() {
    for season in trials() {
        let runs = season.runs();
        for address in 0..ADDRESSES {
            let with_picks = (1..).zip(&runs).filter(|(_, run)| run[address].picks > 0);
            let Some(best) = best_run(&runs, address) else {
                assert_eq!(with_picks.count(), 0);
                continue;
            };
            let largest = runs[best - 1][address];
            for (number, run) in with_picks {
                let seen = run[address];
                let (one, other) = (
                    seen.performed * largest.picks,
                    largest.performed * seen.picks,
                );
                assert!(one <= other && (number >= best || one < other));
            }
        }
    }
}
