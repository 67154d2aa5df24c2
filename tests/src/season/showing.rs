//! An image and picks for a run that shows wanted counts.

use super::folder::Folder;
use super::{Run, Seen};
use crate::by_hand::{fill, fork, readings, stops};
use crate::image::write_image;
use crate::net::*;
use crate::random::Random;

/// A run that shows just this, its picks in random order. At each address in
/// use one process forks for ever, and what it forks stops: picks of the two
/// slots in turn are answered 0 and 1. So many of a hundred picks are followed
/// by a malformed one, which is answered 9 and not counted.
pub fn showing(random: &mut Random, run: &Run, malformed: usize) -> Folder {
    let mut wanted = Vec::new();
    for (address, seen) in (0..).zip(run) {
        let idle = seen.picks - seen.performed;
        wanted.extend((0..seen.performed).map(|_| (address, true)));
        wanted.extend((0..idle).map(|_| (address, false)));
    }
    shuffle(random, &mut wanted);
    let (mut picks, mut made) = (Vec::new(), [0; ADDRESSES]);
    for (address, performs) in wanted {
        let slot = if performs {
            next_slot(&mut made[address])
        } else {
            3
        };
        let pick = (address << 4) as u8 | slot << 2;
        picks.push(pick);
        if random.percent(malformed) {
            picks.push(pick | random.between(1, 3) as u8);
        }
    }
    Folder::of(&write_image(&net_showing(run)), &picks)
}

// 0, then 1, then 0 again.
fn next_slot(made: &mut u8) -> u8 {
    let slot = *made;
    *made = 1 - slot;
    slot
}

// In use are the addresses up to the last that performs or holds a tuple.
fn net_showing(run: &Run) -> Net {
    let needed = |seen: &Seen| seen.performed > 0 || seen.left > 0;
    let count = run.iter().rposition(needed).map_or(1, |last| last + 1);
    let mut net = stops(count as u8, 2);
    net.code[0] = fork(0, 1);
    for (at, seen) in run.iter().enumerate().take(count) {
        net.nodes[at].processes[0] = Process::starting(Place(0), Locality(at as u8));
        fill(
            &mut net,
            at,
            &vec![readings(&[at as i32]); seen.left as usize],
        );
    }
    net
}

fn shuffle<T>(random: &mut Random, all: &mut [T]) {
    for last in (1..all.len()).rev() {
        all.swap(last, random.below(last + 1));
    }
}

#[cfg(test)]
mod tests {
    use super::*;

    /// What is wanted is what the run shows, at used addresses and others.
    #[test]
    fn the_run_shows_what_is_wanted() {
        let mut random = Random::new(71);
        for _ in 0..300 {
            let wanted = Run::default().map(|_| {
                let picks = random.choose(&[0, 1, 2, 30]);
                let performed = random.below(picks + 1) as u64;
                let (picks, left) = (picks as u64, random.choose(&[0, 0, 1, 16]));
                Seen {
                    picks,
                    performed,
                    left,
                }
            });
            let counted: u64 = wanted.iter().map(|seen| seen.picks).sum();
            for (malformed, times) in [(0, 1), (100, 2)] {
                let folder = showing(&mut random, &wanted, malformed);
                assert_eq!(folder.run(), Some(wanted));
                let picks = folder.picks.expect("it has picks");
                assert_eq!(picks.len() as u64, counted * times);
            }
        }
    }
}
