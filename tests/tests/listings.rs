//! The program `check_listing` beside the model: what it prints of many
//! listings in both ages, and what it says of a wrong argument.

use cavindorum_tests::by_hand::PAPER_IMAGE;
use cavindorum_tests::listing::by_hand::{long, short, Stated};
use cavindorum_tests::listing::generate::{
    agreeing_trials, damaged_trials, fully_padded, misnamed_trials, Case, Listing, Tally,
};
use cavindorum_tests::listing::{check_listing, printed, wanted_lines, Age, Fault};
use cavindorum_tests::program::{on_two_threads, printed_given, run_given, TestDirectory};
use cavindorum_tests::register::MOST_PICKS;
use std::ffi::OsStr;
use std::fs;
use std::os::unix::ffi::OsStrExt;
use std::path::Path;
use std::process::Stdio;

const NAME: &str = "check_listing";

// Comparing.

/// Runs the program on the listings of all these cases, on two threads, and
/// compares what it prints with what the model makes of them, which is
/// returned.
fn compare_all(cases: &[Case]) -> Vec<Result<(), Fault>> {
    on_two_threads(cases, compare_case).concat()
}

fn compare_case(case: &Case) -> Vec<Result<(), Fault>> {
    let directory = TestDirectory::with(Some(&case.image), Some(&case.picks));
    let compare = |listing: &Listing| {
        let path = directory.path.join("listing.txt");
        fs::write(path, &listing.bytes).expect("it can be written");
        let found = printed_given(NAME, &[listing.called.argument()], &directory.path);
        let (image, picks) = (&case.image, &case.picks);
        let checked = check_listing(image, picks, &listing.bytes, listing.called);
        assert!(
            found == printed(checked).as_bytes(),
            "program {:?}, model {:?}, {}",
            String::from_utf8_lossy(&found),
            printed(checked),
            shown(case, listing)
        );
        checked
    };
    case.listings.iter().map(compare).collect()
}

// The beginnings of the files.
fn shown(case: &Case, listing: &Listing) -> String {
    let start = |bytes: &[u8], most: usize| bytes[..bytes.len().min(most)].to_vec();
    let (image, picks) = (start(&case.image, 200), start(&case.picks, 100));
    let (text, called) = (start(&listing.bytes, 2_000), listing.called);
    let text = String::from_utf8_lossy(&text);
    format!("called {called:?}; net.bin {image:02X?}; picks.bin {picks:02X?}; listing.txt {text:?}")
}

// Random listings.

#[test]
fn padded_listings_agree() {
    let checked = compare_all(&agreeing_trials());
    assert_eq!(checked.len(), 1_400);
    assert!(checked.iter().all(Result::is_ok));
}

#[test]
fn misnamed_listings_differ() {
    let tally = Tally::of(compare_all(&misnamed_trials()));
    println!("misnamed: {tally}");
    assert_eq!(tally.count(0), 0);
    assert!((41..=43).all(|number| tally.count(number) > 20), "{tally}");
}

#[test]
fn damaged_listings_meet_every_answer_at_many_lines() {
    let checked = compare_all(&damaged_trials());
    assert_eq!(checked.len(), 4_000);
    let tally = Tally::of(checked);
    println!("damaged: {tally}");
    assert!(tally.count(0) > 100, "{tally}");
    for number in 41..=43 {
        let (count, lines) = (tally.count(number), tally.lines(number));
        assert!(count > 300 && lines > 50, "{tally}");
    }
}

// Listings by hand.

/// Fails unless program and model have the stated answers.
fn compare_stated(all: &[Stated]) {
    on_two_threads(all, |stated| {
        let found = compare_case(&stated.case).into_iter().map(printed);
        let stated = stated.prints.iter().map(|prints| format!("{prints}\n"));
        assert!(found.eq(stated));
    });
}

#[test]
fn stated_answers() {
    compare_stated(&short());
}

/// The longest listing, and longer ones.
#[test]
fn long_listings() {
    compare_stated(&[long()]);
}

/// Only the first 65,536 picks count, in both ages.
#[test]
fn long_lists_of_picks() {
    let counts = [MOST_PICKS - 1, MOST_PICKS, MOST_PICKS + 1, 131_072];
    let cases = counts.map(|count| {
        let (image, picks) = (PAPER_IMAGE.to_vec(), vec![0xFD; count]);
        let listing = |called| Listing {
            called,
            bytes: fully_padded(&wanted_lines(&image, &picks, called)),
        };
        let listings = Age::BOTH.map(listing).into();
        Case {
            image,
            picks,
            listings,
        }
    });
    assert!(compare_all(&cases).iter().all(Result::is_ok));
}

/// A missing file counts as empty.
#[test]
fn missing_and_empty_files() {
    let listings: [(&[u8], Age); 3] = [
        (b"refused 28\n", Age::Old),
        (b"refused 28 at 0\n", Age::New),
        (b"net 1 2\nnode 0 0 1\n", Age::Old),
    ];
    let nothing: &[u8] = &[];
    for (listing, age) in listings {
        for image in [None, Some(nothing), Some(&PAPER_IMAGE[..])] {
            for picks in [None, Some(nothing), Some(&[0, 0][..])] {
                for listing in [None, Some(nothing), Some(listing)] {
                    compare_files([image, picks, listing], age);
                }
            }
        }
    }
}

fn compare_files(contents: [Option<&[u8]>; 3], age: Age) {
    let names = ["net.bin", "picks.bin", "listing.txt"].into_iter();
    let there = names.zip(contents).filter_map(|(name, content)| {
        let content = content?;
        Some((name, content))
    });
    let directory = TestDirectory::holding(there);
    let found = printed_given(NAME, &[age.argument()], &directory.path);
    let [image, picks, listing] = contents.map(Option::unwrap_or_default);
    let expected = printed(check_listing(image, picks, listing, age));
    assert_eq!(String::from_utf8_lossy(&found), expected);
}

// Arguments.

/// What the program prints, given these arguments, and what it says on
/// standard error.
fn said(arguments: &[&OsStr], directory: &Path) -> (String, String) {
    let output = run_given(NAME, arguments, directory, Stdio::null(), Stdio::piped());
    let text = |bytes| String::from_utf8(bytes).expect("it is text");
    (text(output.stdout), text(output.stderr))
}

/// None, another, or more than one: the program says what it expects, in one
/// line, and prints nothing.
#[test]
fn wrong_arguments() {
    let listing = b"net 1 2\nnode 0 0 1\n";
    let files: [(&str, &[u8]); 2] = [("net.bin", &PAPER_IMAGE), ("listing.txt", listing)];
    let here = TestDirectory::holding(files);
    assert_eq!(printed_given(NAME, &["old"], &here.path), b"0\n");
    let long = "old".repeat(10_000);
    let wrong: [&[&[u8]]; 22] = [
        &[],
        &[b""],
        &[b"o"],
        &[b"ol"],
        &[b"olds"],
        &[b"older"],
        &[b"Old"],
        &[b"OLD"],
        &[b"ne"],
        &[b"newer"],
        &[b"New"],
        &[b"oldnew"],
        &[b"--old"],
        &[b" old"],
        &[b"new "],
        &[b"old\n"],
        &[b"\xFF\xFE"],
        &[long.as_bytes()],
        &[b"old", b"old"],
        &[b"old", b"new"],
        &[b"new", b""],
        &[b"new", b"new", b"new"],
    ];
    for arguments in wrong {
        let given: Vec<&OsStr> = arguments.iter().map(|one| OsStr::from_bytes(one)).collect();
        expect_only_what_is_expected(&given, &here.path);
    }
}

fn expect_only_what_is_expected(arguments: &[&OsStr], directory: &Path) {
    let (printed, errors) = said(arguments, directory);
    assert_eq!(printed, "", "{arguments:?}");
    let one_line = errors.ends_with('\n') && errors.matches('\n').count() == 1;
    let expects = errors.contains("old") && errors.contains("new");
    assert!(one_line && expects, "{arguments:?}: {errors:?}");
}

/// Files that are missing or cannot be read are not spoken of then.
#[test]
fn wrong_arguments_come_before_the_files() {
    let missing = TestDirectory::holding([]);
    let unreadable = TestDirectory::holding([]);
    for name in ["net.bin", "picks.bin", "listing.txt"] {
        fs::create_dir(unreadable.path.join(name)).expect("it can be made");
    }
    for directory in [missing, unreadable] {
        for arguments in [&[][..], &["ancient"], &["old", "new"]] {
            let given: Vec<&OsStr> = arguments.iter().map(OsStr::new).collect();
            expect_only_what_is_expected(&given, &directory.path);
        }
    }
}
