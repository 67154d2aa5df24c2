//! Random seasons for tests. The same seed gives the same.

use super::folder::{Folder, Season};
use super::showing::showing;
use super::{Run, Seen};
use crate::generate::{damaged_image, picks, valid_image};
use crate::image::read_image;
use crate::net::ADDRESSES;
use crate::random::Random;

/// Most folders that a random season names.
pub const MOST_NAMED: usize = 40;

/// The seasons on which program and model are compared: 500.
pub fn trials() -> Vec<Season> {
    let mut random = Random::new(0x5EED_0007);
    (0..500).map(|_| season(&mut random)).collect()
}

/// A season of up to 40 runs, refused images among them. In most of them
/// equal shares come again, in the same folder or in another.
pub fn season(random: &mut Random) -> Season {
    let most = random.choose(&[2, 6, MOST_NAMED, MOST_NAMED]);
    let count = random.between(0, most);
    let kind = random.below(3);
    let fractions = fractions(random);
    let mut folder = || match kind {
        0 => any_folder(random),
        1 => tied_folder(random, &fractions),
        _ if random.percent(30) => any_folder(random),
        _ => tied_folder(random, &fractions),
    };
    let folders: Vec<Folder> = (0..count).map(|_| folder()).collect();
    let again = random.choose(&[0, 20, 60]);
    let name = |index: usize| match random.percent(again) {
        true => random.below(count),
        false => index,
    };
    let named = (0..count).map(name).collect();
    Season { folders, named }
}

// Any images.

// A random net with picks that mostly perform, a refused image, or a missing
// file.
fn any_folder(random: &mut Random) -> Folder {
    let image = match random.below(6) {
        0 => damaged_image(random),
        _ => valid_image(random),
    };
    let picks = match read_image(&image) {
        Ok(net) => {
            let most = random.choose(&[0, 3, 20, 200]);
            let count = random.between(0, most);
            picks(random, &net, count)
        }
        Err(_) => vec![0; random.below(5)],
    };
    let mut folder = Folder::of(&image, &picks);
    match random.below(12) {
        0 => folder.image = None,
        1 => folder.picks = None,
        _ => {}
    }
    folder
}

// Equal shares.

/// Numerator and denominator, not in lowest terms always.
type Wanted = (u64, u64);

fn fractions(random: &mut Random) -> [Wanted; 3] {
    [0; 3].map(|_| {
        let under = random.between(1, 6);
        (random.between(0, under) as u64, under as u64)
    })
}

// A run with one of these shares at most addresses.
fn tied_folder(random: &mut Random, fractions: &[Wanted]) -> Folder {
    let run: [Seen; ADDRESSES] = Run::default().map(|_| tied(random, fractions));
    let malformed = random.choose(&[0, 0, 20]);
    showing(random, &run, malformed)
}

// One of the shares, several times the picks; now and then one pick more, or
// none at all.
fn tied(random: &mut Random, fractions: &[Wanted]) -> Seen {
    let left = random.choose(&[0, 0, 1, 2, 3, 16]);
    let times = random.choose(&[0, 1, 1, 2, 3, 5]);
    let (over, under) = random.choose(fractions);
    let (more, performs) = (random.percent(10), random.percent(50));
    Seen {
        picks: under * times + u64::from(more),
        performed: over * times + u64::from(more && performs),
        left,
    }
}

#[cfg(test)]
mod tests {
    use super::super::{best_run, figures};
    use super::*;

    #[test]
    fn the_same_seed_gives_the_same() {
        let (mut one, mut two) = (Random::new(5), Random::new(5));
        for _ in 0..20 {
            assert_eq!(season(&mut one), season(&mut two));
        }
    }

    // Whether a later run has the share of the best one.
    fn tie_at(runs: &[Run], address: usize) -> bool {
        best_run(runs, address).is_some_and(|best| {
            let share = runs[best - 1][address].share();
            runs[best..].iter().any(|run| run[address].share() == share)
        })
    }

    /// Ties between several runs, refused images, addresses without picks,
    /// and no runs at all.
    #[test]
    fn the_trials_are_varied() {
        let (mut ties, mut refused, mut none, mut empty, mut longest) = (0, 0, 0, 0, 0);
        for season in trials() {
            let runs = season.runs();
            assert!(season.named.len() <= MOST_NAMED);
            longest = longest.max(runs.len());
            refused += season.named.len() - runs.len();
            ties += (0..ADDRESSES).filter(|at| tie_at(&runs, *at)).count();
            match figures(&runs) {
                Ok(all) => none += all.iter().filter(|one| one.share.is_none()).count(),
                Err(_) => empty += 1,
            }
        }
        println!("{ties} ties, {refused} refused, {none} without picks, {empty} empty, longest {longest}");
        assert!(ties > 2_000 && refused > 300 && none > 300 && empty > 20);
        assert!(longest > 35);
    }
}
