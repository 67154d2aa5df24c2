//! Lists by hand, and names beside another way to find them.

use super::by_hand::{all, list, longest};
use super::generate::lists;
use super::*;
use crate::random::Random;

/// Each pair of lists by hand gives what is stated beside it.
#[test]
fn stated_lists() {
    let all = all();
    for (number, stated) in all.iter().enumerate() {
        let (names, says) = names_by(&stated.site, &stated.office);
        assert_eq!(says, stated.says(), "lists {number}");
        for address in 0..=255 {
            let name = stated.name(address).as_bytes();
            assert_eq!(names.name(address), name, "lists {number}, {address}");
        }
    }
    println!("{} pairs of lists by hand", all.len());
}

/// The border is that of the programs, and not of a list.
#[test]
fn a_list_may_be_longer_than_what_is_read() {
    let long = list(&[(9, "filling-filling")]).repeat(5_000);
    let long = [long, list(&[(0, "late")])].concat();
    let names = Names::of(&long, &[]).expect("it has no fault");
    assert_eq!(names.name(0), b"late");
    let (read, says) = names_by(&long, &[]);
    assert_eq!(
        (read.name(0), read.name(9)),
        (&b""[..], &b"filling-filling"[..])
    );
    assert_eq!(says, "");
}

#[test]
fn the_longest_lists() {
    let [site, office] = longest();
    assert_eq!((site.len(), office.len()), (MOST_BYTES, MOST_BYTES));
    let names = Names::of(&site, &office).expect("they have no fault");
    for address in 0..16 {
        let name = format!("longest-name-{address:02}");
        assert_eq!(names.name(address), name.as_bytes());
        let by_site = names.site.iter().any(|entry| entry.address == address);
        assert_eq!(by_site, address % 2 == 0);
    }
    assert_eq!(names.name(16), b"");
}

// Another way.

/// What a walk from the end of a list finds: the last name that it meets of an
/// address is that of the first entry.
fn walk(list: &[u8], address: u8) -> Option<Vec<u8>> {
    let mut starts = Vec::new();
    let mut at = 0;
    while at < list.len() {
        starts.push(at);
        at += 1 + usize::from(list[at] % 16);
    }
    let mut found = None;
    for start in starts.into_iter().rev() {
        if list[start] / 16 == address {
            let length = usize::from(list[start] % 16);
            found = Some(list[start + 1..start + 1 + length].to_vec());
        }
    }
    found
}

/// The number of the first fault by its place: of each number the first entry
/// that has it alone is looked for.
fn first_fault(list: &[u8]) -> Option<u8> {
    let mut at = 0;
    while at < list.len() {
        let length = usize::from(list[at]) % 16;
        let bytes = list[at + 1..].iter().take(length);
        let present = bytes.len();
        let bad = bytes.clone().any(|byte| *byte < 33 || *byte > 126);
        let faults = [(length == 0, 51), (present < length, 52), (bad, 53)];
        if let Some((_, number)) = faults.into_iter().find(|(met, _)| *met) {
            return Some(number);
        }
        at += 1 + length;
    }
    None
}

#[test]
fn names_and_faults_in_another_way() {
    let mut random = Random::new(143);
    let mut refused = 0;
    for _ in 0..5_000 {
        let lists = lists(&mut random);
        let [site, office] = lists.bytes();
        let fault = first_fault(site).or(first_fault(office));
        let names = Names::of(site, office);
        assert_eq!(names.as_ref().err().copied(), fault);
        let Ok(names) = names else {
            refused += 1;
            continue;
        };
        for address in 0..=16 {
            let name = walk(site, address).or(walk(office, address));
            assert_eq!(names.name(address), name.unwrap_or_default());
        }
    }
    assert!(refused > 500, "{refused}");
}
