//! Picks made by the program `replay`, each compared with the model's.

use crate::digest::digest;
use crate::dump::{difference_of, dump, dump_state, read_bytes, DUMP_BYTES};
use crate::net::Net;
use crate::program::feed;
use crate::random::Random;
use crate::sound::sound;
use crate::step::{pick, step, STOPPED};
use std::io::Read;

/// A net and the picks to be made from it, one after another.
#[derive(Clone, Debug)]
pub struct Run {
    pub net: Net,
    pub picks: Vec<u8>,
}

impl Run {
    /// The run as the program takes it: the net, the number of picks, the
    /// picks.
    pub fn framed(&self) -> Vec<u8> {
        let mut bytes = dump(&self.net);
        let count = u16::try_from(self.picks.len()).expect("at most 65,535 picks");
        bytes.extend(count.to_le_bytes());
        bytes.extend(&self.picks);
        bytes
    }
}

/// What the program writes of a run: for each pick the answer and the
/// digest, and the net at the end.
pub fn expected(run: &Run) -> Vec<u8> {
    let mut net = run.net.clone();
    let mut bytes = Vec::new();
    for byte in &run.picks {
        bytes.push(pick(&mut net, *byte));
        bytes.extend(digest(&dump_state(&net)).to_le_bytes());
    }
    bytes.extend(dump(&net));
    bytes
}

/// What the model makes of a run: the answers, and the net at the end.
#[derive(Clone, Debug)]
pub struct Made {
    pub answers: Vec<u8>,
    pub net: Net,
}

/// Makes the picks of each run by the program and by the model. Answer and
/// digest of format, counts and nodes are compared after each pick, and the
/// whole net after each run; a difference is a failure.
pub fn replay(runs: &[Run]) -> Vec<Made> {
    feed("replay", runs, Run::framed, compare)
}

/// Makes so many runs, in batches, and says how often each answer was met.
pub fn replay_many(seed: u64, count: usize, make: fn(&mut Random) -> Run) -> [usize; 11] {
    met_in_batches(seed, count, make, |runs| {
        let made = replay(runs).into_iter();
        made.flat_map(|made| made.answers).collect()
    })
}

/// Runs in a batch, which one program makes.
const BATCH: usize = 100;

/// Makes so many of what a program is fed with, in batches, and says how
/// often each answer was met.
pub fn met_in_batches<T>(
    seed: u64,
    count: usize,
    make: fn(&mut Random) -> T,
    answers: impl Fn(&[T]) -> Vec<u8>,
) -> [usize; 11] {
    let mut random = Random::new(seed);
    let mut met = [0; 11];
    for _ in 0..count / BATCH {
        let batch: Vec<T> = (0..BATCH).map(|_| make(&mut random)).collect();
        for answer in answers(&batch) {
            met[answer as usize] += 1;
        }
    }
    met
}

fn compare(run: &Run, output: &mut impl Read) -> Made {
    let mut net = run.net.clone();
    let mut answers = Vec::with_capacity(run.picks.len());
    let mut expected = digest(&dump_state(&net));
    // A sound net stays sound, and one that is not stays as it is.
    let pick = if sound(&net) { step } else { pick };
    for (index, byte) in run.picks.iter().enumerate() {
        let answer = pick(&mut net, *byte);
        // Nothing else changes a net; what it is at the end is compared whole.
        if answer <= STOPPED {
            expected = digest(&dump_state(&net));
        }
        let found = read_pick(output);
        if found != (answer, expected) {
            panic!("{}", difference(run, index, found.0, answer));
        }
        answers.push(answer);
    }
    compare_whole(&net, output);
    Made { answers, net }
}

// The first pick with another answer or net, and the net before it.
fn difference(run: &Run, index: usize, program: u8, model: u8) -> String {
    let mut before = run.net.clone();
    for byte in &run.picks[..index] {
        pick(&mut before, *byte);
    }
    let (byte, net) = (
        run.picks[index],
        if program == model {
            ", another net"
        } else {
            ""
        },
    );
    format!(
        "pick {index}, {byte:#04X}: program {program}, model {model}{net}; net before: {before:?}"
    )
}

// An answer and a digest.
fn read_pick(output: &mut impl Read) -> (u8, u64) {
    let [answer] = read_bytes(output);
    (answer, u64::from_le_bytes(read_bytes(output)))
}

fn compare_whole(net: &Net, output: &mut impl Read) {
    let found: [u8; DUMP_BYTES] = read_bytes(output);
    if let Some(difference) = difference_of(&found, net) {
        panic!("{difference}");
    }
}

#[cfg(test)]
mod tests {
    use super::*;
    use crate::by_hand::{self, PUT};
    use crate::net::Locality;

    /// The format, the row of node 1 for origin 15 and the origin of the
    /// process in its slot 2 are in the net's bytes.
    #[test]
    fn a_run_is_its_net_and_its_picks() {
        let mut net = by_hand::net(3, &[]);
        net.format = 9;
        net.nodes[1].rows[15].rights[0] = PUT;
        net.nodes[1].processes[2].origin = Locality(2);
        let picks = vec![7; 258];
        let framed = Run { net, picks }.framed();
        assert_eq!(framed.len(), 27_668 + 2 + 258);
        assert_eq!(framed[0], 9);
        assert_eq!(framed[4 + 801 + 15 * 17 + 1], 2);
        assert_eq!(framed[4 + 801 + 272 + 2 * 44 + 3], 2);
        assert_eq!(framed[27_668..][..3], [2, 1, 7]);
    }

    /// After a fork, which hands the origin on: in the digest, and in the net
    /// in both branches. The answer is the same.
    #[test]
    fn an_origin_shows_in_what_is_expected() {
        let mut net = by_hand::net(2, &[by_hand::fork(0, 1)]);
        let picks = vec![0];
        let own = expected(&Run {
            net: net.clone(),
            picks: picks.clone(),
        });
        net.nodes[0].processes[0].origin = Locality(1);
        let foreign = expected(&Run { net, picks });
        assert_eq!([own[0], foreign[0]], [0, 0]);
        assert_ne!(own[1..9], foreign[1..9]);
        let first = 9 + 4 + 272 + 3;
        let after = |run: &[u8]| [run[first], run[first + 44]];
        assert_eq!([after(&own), after(&foreign)], [[0, 0], [1, 1]]);
    }
}
