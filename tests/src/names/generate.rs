//! Random lists of names for tests. The same seed gives the same.

use super::LONGEST_NAME;
use crate::random::Random;

/// The files of both lists; none is a missing file.
#[derive(Clone, PartialEq, Eq, Debug)]
pub struct Lists {
    pub site: Option<Vec<u8>>,
    pub office: Option<Vec<u8>>,
}

impl Lists {
    pub const NEITHER: Lists = Lists {
        site: None,
        office: None,
    };

    /// What the programs read. A missing file counts as empty.
    pub fn bytes(&self) -> [&[u8]; 2] {
        [&self.site, &self.office].map(|list| list.as_deref().unwrap_or_default())
    }

    /// The files that are there.
    pub fn files(&self) -> impl Iterator<Item = (&str, &[u8])> {
        let all = [("site.bin", &self.site), ("office.bin", &self.office)];
        let there = all.into_iter();
        there.filter_map(|(name, list)| Some((name, list.as_deref()?)))
    }
}

/// Both lists, mostly without fault; now and then one is missing.
pub fn lists(random: &mut Random) -> Lists {
    let mut list = || match random.below(12) {
        0 => None,
        1 => Some(faulty_list(random)),
        _ => Some(list(random)),
    };
    let (site, office) = (list(), list());
    Lists { site, office }
}

/// A list without fault, mostly of low addresses, so that some come again.
pub fn list(random: &mut Random) -> Vec<u8> {
    let most = random.choose(&[0, 1, 4, 4, 12, 40]);
    let count = random.between(0, most);
    (0..count).flat_map(|_| entry(random)).collect()
}

fn entry(random: &mut Random) -> Vec<u8> {
    let length = match random.below(4) {
        0 => random.choose(&[1, LONGEST_NAME]),
        _ => random.between(1, LONGEST_NAME),
    };
    let mut entry = vec![head(random, length)];
    entry.extend((0..length).map(|_| name_byte(random)));
    entry
}

fn head(random: &mut Random, length: usize) -> u8 {
    let address = match random.below(4) {
        0 => random.below(16),
        _ => random.below(4),
    };
    (address << 4 | length) as u8
}

// Mostly a letter; often the first or the last of the range.
fn name_byte(random: &mut Random) -> u8 {
    match random.below(6) {
        0 => random.choose(&[33, 126]),
        1 => random.between(33, 126) as u8,
        _ => random.between(usize::from(b'a'), usize::from(b'z')) as u8,
    }
}

// Often the nearest that are out of range.
fn wrong_byte(random: &mut Random) -> u8 {
    match random.below(3) {
        0 => random.choose(&[32, 127]),
        1 => random.below(33) as u8,
        _ => random.between(127, 255) as u8,
    }
}

// Faults.

/// A list with a fault in some entry, and any entries before and after it.
pub fn faulty_list(random: &mut Random) -> Vec<u8> {
    let mut bytes = list(random);
    if random.percent(40) {
        bytes.extend(cut_entry(random));
        return bytes;
    }
    bytes.extend(faulty_entry(random));
    bytes.extend(match random.below(3) {
        0 => faulty_entry(random),
        1 => cut_entry(random),
        _ => list(random),
    });
    bytes
}

// A length of 0, with or without bytes after it, or bytes out of range.
fn faulty_entry(random: &mut Random) -> Vec<u8> {
    match random.below(4) {
        0 => vec![head(random, 0)],
        1 => {
            let mut entry = entry(random);
            entry[0] &= 0xF0;
            entry
        }
        _ => wrong_entry(random),
    }
}

// One byte of the name is out of range, or all are.
fn wrong_entry(random: &mut Random) -> Vec<u8> {
    let mut entry = entry(random);
    let last = entry.len() - 1;
    if random.percent(30) {
        entry[1..].fill_with(|| wrong_byte(random));
    } else {
        entry[random.between(1, last)] = wrong_byte(random);
    }
    entry
}

// An entry that wants some of its last bytes; as often as not others of them
// are out of range besides.
fn cut_entry(random: &mut Random) -> Vec<u8> {
    let mut entry = match random.percent(50) {
        true => entry(random),
        false => wrong_entry(random),
    };
    entry.truncate(random.between(1, entry.len() - 1));
    entry
}

#[cfg(test)]
mod tests {
    use super::super::{entries, Names};
    use super::*;

    #[test]
    fn the_same_seed_gives_the_same() {
        let (mut one, mut two) = (Random::new(5), Random::new(5));
        assert!((0..100).all(|_| lists(&mut one) == lists(&mut two)));
    }

    #[test]
    fn lists_without_fault_have_none() {
        let mut random = Random::new(141);
        assert!((0..2_000).all(|_| entries(&list(&mut random)).is_ok()));
    }

    /// Each number in each list, and an address in one list, in both, in
    /// neither and twice in one.
    #[test]
    fn the_lists_are_varied() {
        let mut random = Random::new(142);
        let (mut faults, mut met) = ([[0; 3]; 2], [0; 5]);
        for _ in 0..5_000 {
            let lists = lists(&mut random);
            let [site, office] = lists.bytes();
            match Names::of(site, office) {
                Ok(names) => count(&names, &mut met),
                Err(number) => {
                    let of_office = usize::from(entries(site).is_ok());
                    faults[of_office][usize::from(number - 51)] += 1;
                }
            }
        }
        println!("51, 52, 53 of the site and of the office: {faults:?}");
        println!("in neither, site, office, both; twice in one: {met:?}");
        assert!(faults.iter().flatten().all(|count| *count > 30));
        assert!(met.iter().all(|count| *count > 1_000));
    }

    fn count(names: &Names, met: &mut [usize; 5]) {
        for address in 0..16 {
            let [site, office] = [&names.site, &names.office].map(|list| {
                let of_address = list.iter().filter(|entry| entry.address == address);
                of_address.count()
            });
            met[usize::from(site > 0) + 2 * usize::from(office > 0)] += 1;
            met[4] += usize::from(site > 1 || office > 1);
        }
    }
}
