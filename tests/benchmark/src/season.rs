//! A season of 1,000 runs of 1,000 picks: its runs alone, made in memory; the
//! runs and the figures in memory; and the program `shares`, which is given
//! 1,000 folders.

use crate::machine::Machine;
use crate::nets::{communication, evals, refused, Work};
use crate::{both, heading, milliseconds, row, Both};
use cavindorum_tests::program::{printed_given, printed_in, TestDirectory};
use cavindorum_tests::season::{printed, runs};
use std::io::Write;
use std::path::Path;
use std::process::Command;

const RUNS: usize = 1_000;
const PICKS: usize = 1_000;

/// Makes this program the model's `shares`; folders follow.
pub const AS_SHARES: &str = "shares";

const MEASURED: &str = "\
A season of 1,000 runs of 1,000 picks, three nets in turn. In memory images are read and
picks made, by the exported call for a run and by the model; figures are made in memory by
the model alone, as no exported call makes them. The program is started once with 1,000
folders, reads two files in each, and its output is taken from a pipe; the model's is this
program doing the same.
";

/// Times a season, after comparing what the program and the model print.
pub fn rows() {
    let works = works();
    println!("\n{MEASURED}");
    heading();
    let alone = both(|machine| milliseconds(|| make_runs(machine, &works)));
    row("the runs alone, in memory (ms)", alone);
    let whole = milliseconds(|| in_memory(&works));
    let name = "the season, in memory (ms)";
    println!("{name:<52}{:>12}{whole:>12.1}", "");
    let program = programs(&works);
    row("the program shares (ms)", program);
    let over = |whole: f64, alone: f64| 100.0 * (whole / alone - 1.0);
    let (proved, model) = (over(program.0, alone.0), over(program.1, alone.1));
    println!("the program over the runs alone: proved {proved:+.1} %, model {model:+.1} %");
    let model = over(whole, alone.1);
    println!("the season over the runs alone, in memory: model {model:+.1} %");
}

// Three nets, each with its first picks.
fn works() -> [Work; 3] {
    [communication(), refused(), evals()].map(|mut work| {
        work.picks.truncate(PICKS);
        work
    })
}

// All runs, in order.
fn in_turn(works: &[Work]) -> impl Iterator<Item = (&[u8], &[u8])> {
    let all = works.iter().cycle().take(RUNS);
    all.map(|work| (&work.image[..], &work.picks[..]))
}

fn make_runs(machine: &Machine, works: &[Work]) {
    let mut answers = [0; PICKS];
    for (image, picks) in in_turn(works) {
        assert_eq!((machine.run)(image, picks, &mut answers), 0);
    }
}

fn in_memory(works: &[Work]) -> String {
    printed(&runs(in_turn(works)))
}

// Programs.

/// Milliseconds of the program `shares` and of the model as a program, on the
/// same folders.
fn programs(works: &[Work]) -> Both {
    let here = directory(works);
    let path = &here.path;
    let names: Vec<&str> = works.iter().map(|work| work.name).collect();
    let folders: Vec<&str> = names.iter().copied().cycle().take(RUNS).collect();
    let this = std::env::current_exe().expect("this program has a path");
    let model = || {
        let mut command = Command::new(&this);
        printed_in(path, command.arg(AS_SHARES).args(&folders)).expect("it starts")
    };
    let proved = || printed_given("shares", &folders, path);
    let expected = in_memory(works).into_bytes();
    assert!(
        model() == expected,
        "the model as a program prints other figures"
    );
    assert!(proved() == expected, "the program prints other figures");
    (milliseconds(proved), milliseconds(model))
}

fn directory(works: &[Work]) -> TestDirectory {
    let paths = works.iter().flat_map(|work| {
        let path = |file: &str| format!("{}/{file}", work.name);
        [
            (path("net.bin"), &work.image[..]),
            (path("picks.bin"), &work.picks[..]),
        ]
    });
    let files: Vec<(String, &[u8])> = paths.collect();
    TestDirectory::holding(files.iter().map(|(path, bytes)| (&path[..], *bytes)))
}

/// The figures of the runs in these folders, printed by the model.
pub fn model_s_shares(folders: impl Iterator<Item = String>) {
    let file = |folder: &str, name: &str| {
        let path = Path::new(folder).join(name);
        std::fs::read(path).unwrap_or_default()
    };
    let read = folders.map(|folder| (file(&folder, "net.bin"), file(&folder, "picks.bin")));
    let read: Vec<(Vec<u8>, Vec<u8>)> = read.collect();
    let list = read.iter().map(|(image, picks)| (&image[..], &picks[..]));
    let mut output = std::io::stdout();
    output
        .write_all(printed(&runs(list)).as_bytes())
        .expect("the output is open");
}
