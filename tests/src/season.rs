//! Shares over a season (document 02, slip 7): what many runs show of each
//! address, from the list of the runs.

pub mod by_hand;
pub mod folder;
pub mod fraction;
pub mod generate;
mod showing;

use crate::image::read_image;
use crate::net::ADDRESSES;
use crate::register::MOST_PICKS;
use crate::step::{pick_address, step, LAST_BITS_SET, PERFORMED, STOPPED};
use fraction::Fraction;

pub const NO_RUNS: u8 = 44;
pub const TOO_MANY_RUNS: u8 = 45;

/// A season has no more runs than these.
pub const MOST_RUNS: usize = 1_000;

/// What one run shows of one address.
#[derive(Clone, Copy, PartialEq, Eq, Debug, Default)]
pub struct Seen {
    /// The picks naming the address, those answered 9 left out.
    pub picks: u64,
    /// Those of them that are answered 0 or 1.
    pub performed: u64,
    /// The tuples left there, none at an unused address.
    pub left: u64,
}

impl Seen {
    /// The share of the picks that performed, where there are picks.
    pub fn share(self) -> Option<Fraction> {
        Fraction::of(self.performed, self.picks)
    }
}

/// What one run shows, address by address.
pub type Run = [Seen; ADDRESSES];

/// The run of an image and its picks. A refused image makes none.
pub fn run(image: &[u8], picks: &[u8]) -> Option<Run> {
    let mut net = read_image(image).ok()?;
    let mut run = Run::default();
    for pick in picks.iter().take(MOST_PICKS) {
        let seen = &mut run[usize::from(pick_address(*pick).0)];
        match step(&mut net, *pick) {
            LAST_BITS_SET => {}
            PERFORMED | STOPPED => {
                seen.picks += 1;
                seen.performed += 1;
            }
            _ => seen.picks += 1,
        }
    }
    let used = net.nodes[..usize::from(net.address_count)].iter();
    for (seen, node) in run.iter_mut().zip(used) {
        seen.left = u64::from(node.tuple_count);
    }
    Some(run)
}

/// The runs of a list of images and picks, in order.
pub fn runs<'a>(list: impl IntoIterator<Item = (&'a [u8], &'a [u8])>) -> Vec<Run> {
    let made = list.into_iter().map(|(image, picks)| run(image, picks));
    made.flatten().collect()
}

/// The figures of one address over a season.
#[derive(Clone, Copy, PartialEq, Eq, Debug)]
pub struct Figures {
    /// The share and the best run, from 1; none without picks there.
    pub share: Option<(Fraction, usize)>,
    /// The mean number of tuples left for each run.
    pub mean: Fraction,
}

/// The figures of each address, or the number that they are refused with.
pub fn figures(runs: &[Run]) -> Result<[Figures; ADDRESSES], u8> {
    match runs.len() {
        0 => Err(NO_RUNS),
        1..=MOST_RUNS => Ok(std::array::from_fn(|address| figures_at(runs, address))),
        _ => Err(TOO_MANY_RUNS),
    }
}

fn figures_at(runs: &[Run], address: usize) -> Figures {
    let sum = |part: fn(&Seen) -> u64| runs.iter().map(|run| part(&run[address])).sum();
    let share = Fraction::of(sum(|seen| seen.performed), sum(|seen| seen.picks));
    let mean = Fraction::of(sum(|seen| seen.left), runs.len() as u64);
    Figures {
        share: share.zip(best_run(runs, address)),
        mean: mean.expect("there are runs"),
    }
}

/// The number, from 1, of the first run that has the largest share at an
/// address. Runs without picks there have none.
pub fn best_run(runs: &[Run], address: usize) -> Option<usize> {
    let shares: Vec<_> = runs.iter().map(|run| run[address].share()).collect();
    let largest = shares.iter().flatten().max()?;
    let first = shares.iter().position(|share| *share == Some(*largest));
    first.map(|index| index + 1)
}

/// What the program `shares` prints of a season.
pub fn printed(runs: &[Run]) -> String {
    match figures(runs) {
        Ok(all) => (0..)
            .zip(all)
            .map(|(address, one)| line(address, one))
            .collect(),
        Err(number) => format!("refused {number}\n"),
    }
}

fn line(address: usize, Figures { share, mean }: Figures) -> String {
    match share {
        Some((share, best)) => format!("share {address} {share} {mean} {best}\n"),
        None => format!("share {address} none {mean} none\n"),
    }
}

#[cfg(test)]
mod tests;
