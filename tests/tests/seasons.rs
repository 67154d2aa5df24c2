//! The program `shares` beside the model: its whole output for many seasons,
//! each a list of folders.

use cavindorum_tests::by_hand::PAPER_IMAGE;
use cavindorum_tests::program::{on_two_threads, run_given, TestDirectory};
use cavindorum_tests::season::by_hand::{many, short, Stated};
use cavindorum_tests::season::folder::{Folder, Season};
use cavindorum_tests::season::generate::trials;
use cavindorum_tests::season::{figures, printed, Run};
use std::ffi::{OsStr, OsString};
use std::fs;
use std::os::unix::ffi::OsStringExt;
use std::path::Path;
use std::process::Stdio;

const NAME: &str = "shares";

// Comparing.

/// What the program prints, given these folders. It must end well and say
/// nothing else.
fn shares(folders: &[impl AsRef<OsStr>], directory: &Path) -> String {
    let output = run_given(NAME, folders, directory, Stdio::null(), Stdio::piped());
    let (status, errors) = (output.status, String::from_utf8_lossy(&output.stderr));
    assert!(status.success() && errors.is_empty(), "{status} {errors}");
    String::from_utf8(output.stdout).expect("it is text")
}

/// The folders of a season, each with its number for a name.
fn directory(season: &Season) -> TestDirectory {
    let here = TestDirectory::holding([]);
    for (number, folder) in season.folders.iter().enumerate() {
        let name = number.to_string();
        fs::create_dir(here.path.join(&name)).expect("it can be made");
        for (path, content) in folder.files(&name) {
            fs::write(here.path.join(path), content).expect("it can be written");
        }
    }
    here
}

/// What the program prints of a season, which is what the model prints.
fn compare(season: &Season) -> String {
    let here = directory(season);
    let names: Vec<String> = season.named.iter().map(usize::to_string).collect();
    let found = shares(&names, &here.path);
    let runs = season.runs();
    let expected = printed(&runs);
    assert!(
        found == expected,
        "{}",
        first_difference(&found, &expected, &runs)
    );
    expected
}

// The first line that differs, and what each run shows of its address.
fn first_difference(found: &str, expected: &str, runs: &[Run]) -> String {
    let count = found.lines().count();
    let mut both = found.lines().zip(expected.lines()).enumerate();
    match both.find(|(_, (program, model))| program != model) {
        None => format!("program {count} lines; model:\n{expected}"),
        Some((address, (program, model))) => {
            let seen: Vec<_> = runs.iter().map(|run| run[address]).collect();
            format!("program {program:?}, model {model:?}; runs there {seen:?}")
        }
    }
}

// Seasons by hand.

fn compare_stated(all: &[Stated]) {
    on_two_threads(all, |stated| {
        assert_eq!(compare(&stated.season), stated.prints);
    });
}

#[test]
fn stated_seasons() {
    compare_stated(&short());
}

/// 1,000 runs, 1,001, and refused images among as many.
#[test]
fn many_runs() {
    compare_stated(&many());
}

// Random seasons.

#[test]
fn random_seasons() {
    let all = trials();
    let prints = on_two_threads(&all, compare);
    assert!(prints.len() >= 300);
    let refused = prints.iter().filter(|text| *text == "refused 44\n").count();
    assert!((20..200).contains(&refused), "{refused}");
    let mut met = [0; 3];
    for figures in all.iter().flat_map(|season| figures(&season.runs())) {
        for one in figures {
            match one.share {
                None => met[0] += 1,
                Some((_, 1)) => met[1] += 1,
                Some(_) => met[2] += 1,
            }
        }
    }
    println!("no picks, first run best, later run best: {met:?}; {refused} refused");
    assert!(met.iter().all(|count| *count > 500), "{met:?}");
}

// Folders.

/// A folder is named in any way that leads to it, as often as one likes.
#[test]
fn names_of_one_folder() {
    let season = Season::of(&[Folder::of(&PAPER_IMAGE, &[0; 3])]);
    let here = directory(&season);
    let whole = here.path.join("0");
    let names = ["0", "0/", "./0", "0/.", "0/../0"].map(OsString::from);
    let names = [&names[..], &[whole.into_os_string()]].concat();
    let once = printed(&season.runs());
    for name in &names {
        assert_eq!(shares(&[name], &here.path), once, "{name:?}");
    }
    assert_eq!(shares(&["."], &here.path.join("0")), once);
    let named = vec![0; names.len()];
    let often = printed(&Season { named, ..season }.runs());
    assert_eq!(shares(&names, &here.path), often);
}

/// No name of a folder is anything else: not a switch, not a number of words.
#[test]
fn odd_names_of_folders() {
    let files = Folder::of(&PAPER_IMAGE, &[0; 3]);
    let names = ["-1", "--help", "a b", "net.bin", "*", "\u{FC}"].map(OsString::from);
    let others = [vec![b'x'; 255], vec![b'\n']].map(OsString::from_vec);
    let once = printed(&Season::of(&[files.clone()]).runs());
    for name in names.iter().chain(&others) {
        let here = TestDirectory::holding([]);
        let folder = here.path.join(name);
        fs::create_dir(&folder).expect("it can be made");
        for (path, content) in files.files(".") {
            fs::write(folder.join(path), content).expect("it can be written");
        }
        assert_eq!(shares(&[name], &here.path), once, "{name:?}");
    }
}

/// A name that is no text is no path for the library that the programs open
/// files with: that is said of both files, and nothing is printed.
#[test]
fn a_name_that_is_no_text() {
    let files = Folder::of(&PAPER_IMAGE, &[0; 3]);
    let name = OsString::from_vec(vec![0xFF, 0xFE]);
    let here = TestDirectory::holding([]);
    let folder = here.path.join(&name);
    fs::create_dir(&folder).expect("it can be made");
    for (path, content) in files.files(".") {
        fs::write(folder.join(path), content).expect("it can be written");
    }
    let output = run_given(NAME, &[&name], &here.path, Stdio::null(), Stdio::piped());
    assert!(output.status.success() && output.stdout.is_empty());
    let said = ["net.bin", "picks.bin"].map(|file| {
        [
            b"cannot open \xFF\xFE/",
            file.as_bytes(),
            b": invalid filename\n",
        ]
        .concat()
    });
    assert_eq!(output.stderr, said.concat());
}

/// A folder that is not there has no image, and makes no run.
#[test]
fn missing_folders() {
    let season = Season::of(&[Folder::of(&PAPER_IMAGE, &[0; 3])]);
    let here = directory(&season);
    assert_eq!(shares(&["missing"], &here.path), "refused 44\n");
    let once = printed(&season.runs());
    assert_eq!(shares(&["missing", "0", "1/2/3"], &here.path), once);
}

/// What else lies in a folder, or where the program runs, is not read.
#[test]
fn other_files() {
    let season = Season::of(&[Folder::of(&PAPER_IMAGE, &[0; 3])]);
    let here = directory(&season);
    for name in ["net.bin", "picks.bin", "0/site.bin", "0/listing.txt"] {
        fs::create_dir(here.path.join(name)).expect("it can be made");
    }
    assert_eq!(shares(&["0"], &here.path), printed(&season.runs()));
    assert_eq!(shares(&[""; 0], &here.path), "refused 44\n");
}
