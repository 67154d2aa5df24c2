//! That the generated listings are padded and damaged as promised, and
//! varied enough.

use super::*;
use crate::by_hand::PAPER_IMAGE;
use crate::listing::{check_listing, lines, Fault};
use std::collections::BTreeSet;

#[test]
fn the_same_seed_gives_the_same() {
    let bytes = |random: &mut Random| {
        let cases = [agreeing(random), misnamed(random), damaged(random)];
        let listings = cases.into_iter().flat_map(|case| case.listings);
        listings.map(|listing| listing.bytes).collect::<Vec<_>>()
    };
    let (mut one, mut two) = (Random::new(5), Random::new(5));
    for _ in 0..20 {
        assert_eq!(bytes(&mut one), bytes(&mut two));
    }
}

fn paper_lines() -> Vec<String> {
    wanted_lines(&PAPER_IMAGE, &[0; 3], Age::Old)
}

#[test]
fn full_padding_by_hand() {
    let lines = ["net 1 2", "tuple 0 -5 @11 -2147483648", "refused 24 at 27"];
    let expected = "net 0000000001 0000000002\n\
        tuple 0000000000 -0000000005 @0000000011 -2147483648\n\
        refused 0000000024 at 0000000027\n";
    let padded = fully_padded(&lines.map(str::to_string));
    assert_eq!(String::from_utf8_lossy(&padded), expected);
}

/// Numbers of every length come out of random padding, none longer than ten
/// digits.
#[test]
fn random_padding_has_every_width() {
    let mut random = Random::new(1);
    let mut widths = BTreeSet::new();
    for _ in 0..100 {
        let listing = padded(&mut random, &paper_lines());
        let text = String::from_utf8(listing).expect("it is text");
        let numbers = text.split(|character: char| !character.is_ascii_digit());
        widths.extend(numbers.map(str::len).filter(|length| *length > 0));
    }
    assert!(widths.into_iter().eq(1..=10));
}

fn damaged_paper(random: &mut Random, way: Damage) -> (Vec<u8>, Vec<u8>) {
    let before = padded(random, &paper_lines());
    let mut after = before.clone();
    damage(random, way, &mut after);
    (before, after)
}

// Bytes that both have at their start.
fn shared(one: &[u8], other: &[u8]) -> usize {
    let both = one.iter().zip(other);
    both.take_while(|(one, other)| one == other).count()
}

/// Each way does what its name says.
#[test]
fn each_way_by_itself() {
    let mut random = Random::new(2);
    for _ in 0..300 {
        let (before, after) = damaged_paper(&mut random, Damage::ByteChanged);
        assert_eq!(before.len(), after.len());
        let both = before.iter().zip(&after);
        assert_eq!(both.filter(|(one, other)| one != other).count(), 1);

        let (before, after) = damaged_paper(&mut random, Damage::ByteInserted);
        let same = shared(&before, &after);
        assert_eq!(before[same..], after[same + 1..]);

        let (before, after) = damaged_paper(&mut random, Damage::ByteRemoved);
        let same = shared(&before, &after);
        assert_eq!(before[same + 1..], after[same..]);

        let (before, after) = damaged_paper(&mut random, Damage::NumberTooLong);
        let added = after.len() - before.len();
        let same = shared(&before, &after);
        assert!(added >= 1);
        assert_eq!(before[same..], after[same + added..]);
        assert!(longest_number(&after) > MOST_DIGITS);

        let (before, after) = damaged_paper(&mut random, Damage::Cut);
        assert!(after.len() < before.len() && before.starts_with(&after));

        let (before, after) = damaged_paper(&mut random, Damage::Continued);
        assert!(after.len() > before.len() && after.starts_with(&before));
    }
}

fn longest_number(listing: &[u8]) -> usize {
    let numbers = listing.split(|byte| !byte.is_ascii_digit());
    numbers.map(<[u8]>::len).max().unwrap_or(0)
}

/// The ways that keep lines whole.
#[test]
fn each_way_with_lines() {
    let mut random = Random::new(3);
    let count = paper_lines().len();
    for _ in 0..300 {
        let (before, after) = damaged_paper(&mut random, Damage::LineLeftOut);
        assert_eq!(lines(&after).count(), count - 1);
        assert!(lines(&after).all(|line| lines(&before).any(|other| other == line)));

        let (before, after) = damaged_paper(&mut random, Damage::LineDoubled);
        assert_eq!(lines(&after).count(), count + 1);
        assert!(lines(&after).all(|line| lines(&before).any(|other| other == line)));

        let (before, after) = damaged_paper(&mut random, Damage::LinesSwapped);
        assert_eq!(sorted(&before), sorted(&after));
        let both = lines(&before).zip(lines(&after));
        let moved = both.filter(|(one, other)| one != other).count();
        assert!(moved == 0 || moved == 2);
    }
}

fn sorted(listing: &[u8]) -> Vec<&[u8]> {
    let mut all: Vec<&[u8]> = lines(listing).collect();
    all.sort();
    all
}

#[test]
fn an_empty_listing_stays() {
    let mut random = Random::new(4);
    for way in Damage::ALL {
        let mut listing = Vec::new();
        damage(&mut random, way, &mut listing);
        assert!(listing.is_empty(), "{way:?}");
    }
}

// What the model makes of the listings of these cases.
fn checked(cases: &[Case]) -> Vec<Result<(), Fault>> {
    let of_case = |case: &Case| {
        let check = |one: &Listing| check_listing(&case.image, &case.picks, &one.bytes, one.called);
        case.listings.iter().map(check).collect::<Vec<_>>()
    };
    cases.iter().flat_map(of_case).collect()
}

#[test]
fn padded_listings_agree() {
    let checked = checked(&agreeing_trials());
    assert_eq!(checked.len(), 1_400);
    assert!(checked.iter().all(Result::is_ok));
}

/// Each register is refused or has a total, so that no listing agrees in
/// both ages.
#[test]
fn misnamed_listings_differ() {
    let tally = Tally::of(checked(&misnamed_trials()));
    println!("misnamed: {tally}");
    assert_eq!(tally.count(0), 0);
    assert!((41..=43).all(|number| tally.count(number) > 20), "{tally}");
}

#[test]
fn damaged_listings_meet_every_answer_at_many_lines() {
    let tally = Tally::of(checked(&damaged_trials()));
    println!("damaged: {tally}");
    assert!(tally.count(0) > 100, "{tally}");
    for number in 41..=43 {
        let (count, lines) = (tally.count(number), tally.lines(number));
        assert!(count > 300 && lines > 50, "{tally}");
    }
}

/// Each way of damage is found out, and by the numbers that it can have.
#[test]
fn the_numbers_of_each_way() {
    use Damage::*;
    let expected: [(Damage, &[u8]); 9] = [
        (ByteChanged, &[41]),
        (ByteInserted, &[0, 41, 43]),
        (ByteRemoved, &[0, 41]),
        (NumberTooLong, &[41]),
        (LineLeftOut, &[41, 42]),
        (LineDoubled, &[41, 43]),
        (LinesSwapped, &[0, 41]),
        (Cut, &[41, 42]),
        (Continued, &[43]),
    ];
    let mut random = Random::new(8);
    for (way, numbers) in expected {
        let tally = Tally::of((0..2_000).map(|_| {
            let (_, after) = damaged_paper(&mut random, way);
            check_listing(&PAPER_IMAGE, &[0; 3], &after, Age::Old)
        }));
        for number in [0, 41, 42, 43] {
            let met = tally.count(number) > 0;
            assert_eq!(met, numbers.contains(&number), "{way:?}: {tally}");
        }
    }
}
