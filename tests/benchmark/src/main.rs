//! Times the proved code and the model on the same nets and picks, after
//! comparing what they give. The least of several rounds counts.

mod machine;
mod nets;
mod openings;
mod season;
mod texts;

use cavindorum_tests::program::{print_register, printed_in, TestDirectory};
use cavindorum_tests::register::register;
use machine::{Machine, MODEL, PROVED};
use nets::Work;
use std::hint::black_box;
use std::io::Write;
use std::process::Command;
use std::time::{Duration, Instant};
use texts::Text;

const ROUNDS: usize = 5;

/// Makes this program the model's register.
const AS_REGISTER: &str = "register";

fn main() {
    let mut arguments = std::env::args().skip(1);
    match arguments.next().as_deref() {
        Some(AS_REGISTER) => return model_s_register(),
        Some(season::AS_SHARES) => return season::model_s_shares(arguments),
        _ => {}
    }
    let all = nets::all();
    all.iter().for_each(compare);
    println!("65,536 picks each; the least of {ROUNDS} rounds\n");
    heading();
    for work in &all {
        let times = both(|machine| a_pick(machine, work));
        row(&format!("a pick, {} (ns)", work.name), times);
    }
    for (work, format) in [(&all[0], ""), (&all[1], ", format 2")] {
        let times = both(|machine| milliseconds(|| (machine.register)(&work.image, &work.picks)));
        row(&format!("a register in memory{format} (ms)"), times);
        row(
            &format!("the program register{format} (ms)"),
            programs(work),
        );
    }
    openings::rows(&all);
    println!();
    heading();
    for text in texts::all() {
        let (proved, model) = both(|machine| speed(machine, &text));
        let name = format!("a text, {} (MB/s)", text.name);
        println!(
            "{name:<52}{proved:>12.1}{model:>12.1}{:>8.1}",
            model / proved
        );
    }
    season::rows();
}

/// The register of the two files in this directory, printed by the model.
fn model_s_register() {
    let file = |name: &str| std::fs::read(name).unwrap_or_default();
    let text = register(&file("net.bin"), &file("picks.bin"));
    let mut output = std::io::stdout();
    output
        .write_all(text.as_bytes())
        .expect("the output is open");
}

// Comparing.

/// Fails unless the proved code and the model give the same.
fn compare(work: &Work) {
    let Work { name, image, picks } = work;
    let mut proved = vec![0xFF; picks.len()];
    let mut model = proved.clone();
    assert_eq!(
        (PROVED.run)(image, picks, &mut proved),
        0,
        "{name}: refused"
    );
    assert_eq!((MODEL.run)(image, picks, &mut model), 0, "{name}: refused");
    assert!(proved == model, "{name}: other answers");
    let expected = (MODEL.register)(image, picks);
    assert!(
        (PROVED.register)(image, picks) == expected,
        "{name}: another register"
    );
    println!("{name}: the same answers and register; {}", shares(&model));
}

// How many of a hundred picks have each answer that was met.
fn shares(answers: &[u8]) -> String {
    let share = |answer: u8| {
        let met = answers.iter().filter(|found| **found == answer).count();
        (met > 0).then(|| {
            format!(
                "{answer}: {:.1} %",
                100.0 * met as f64 / answers.len() as f64
            )
        })
    };
    (0..=10).filter_map(share).collect::<Vec<_>>().join(", ")
}

// Timing.

/// Of the proved code and of the model.
type Both = (f64, f64);

fn both(time: impl Fn(&Machine) -> f64) -> Both {
    (time(&PROVED), time(&MODEL))
}

fn least<T>(mut act: impl FnMut() -> T) -> Duration {
    let once = |_| {
        let start = Instant::now();
        black_box(act());
        start.elapsed()
    };
    (0..ROUNDS).map(once).min().expect("there are rounds")
}

fn milliseconds<T>(act: impl FnMut() -> T) -> f64 {
    least(act).as_secs_f64() * 1e3
}

/// Nanoseconds a pick; the time to open the image is taken off.
fn a_pick(machine: &Machine, work: &Work) -> f64 {
    let Work { image, picks, .. } = work;
    let mut answers = vec![0; picks.len()];
    let opening = least(|| (machine.open)(image));
    let whole = least(|| (machine.run)(image, picks, &mut answers));
    whole.saturating_sub(opening).as_secs_f64() * 1e9 / picks.len() as f64
}

/// Nanoseconds of a call, which is made so many times in a round.
fn nanoseconds<T>(times: u32, mut act: impl FnMut() -> T) -> f64 {
    let round = || {
        for _ in 0..times {
            black_box(act());
        }
    };
    least(round).as_secs_f64() * 1e9 / f64::from(times)
}

/// Millions of bytes of a text read in a second, the text read as often as
/// takes some time.
fn speed(machine: &Machine, text: &Text) -> f64 {
    let Text { name, text, number } = text;
    let times = 1 + 200_000 / text.len();
    let read = || {
        for _ in 0..times {
            let found = (machine.read_text)(black_box(text));
            assert_eq!(found, *number, "{name}");
        }
    };
    let seconds = least(read).as_secs_f64();
    (times * text.len()) as f64 / 1e6 / seconds
}

/// Milliseconds of the program `register` and of the model as a program,
/// in one directory: files read, output taken from a pipe.
fn programs(work: &Work) -> Both {
    let directory = TestDirectory::with(Some(&work.image), Some(&work.picks));
    let path = &directory.path;
    let this = std::env::current_exe().expect("this program has a path");
    let model = || printed_in(path, Command::new(&this).arg(AS_REGISTER)).expect("it starts");
    assert!(
        print_register(path) == model(),
        "the program prints another register"
    );
    (milliseconds(|| print_register(path)), milliseconds(model))
}

fn heading() {
    println!("{:<52}{:>12}{:>12}{:>8}", "", "proved", "model", "ratio");
}

fn row(name: &str, (proved, model): Both) {
    let ratio = proved / model;
    println!("{name:<52}{proved:>12.1}{model:>12.1}{ratio:>8.3}");
}
