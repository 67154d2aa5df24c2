//! The stack that the proved code needs, which nothing proves: nets and
//! picks that go by all of the code, and programs run with little of it.

use crate::by_hand::*;
use crate::dump::{dump, framed};
use crate::image::write_image;
use crate::listing::generate::fully_padded;
use crate::listing::{wanted_lines, Age};
use crate::names::by_hand::longest as longest_lists;
use crate::names::names_by;
use crate::net::*;
use crate::notation::edges::{deepest, deepest_of_format_2, widest, widest_of_format_2};
use crate::notation::longest::longest_net;
use crate::notation::{read_text, text_of};
use crate::poll::{self, Call, Record, Source};
use crate::program::{program, TestDirectory};
use crate::random::Random;
use crate::register::{register_named, register_text_named, MOST_PICKS};
use crate::replay::{expected, Run};
use crate::season;
use crate::stored::repository;
use std::fs::{self, File};
use std::process::{Command, Output};

/// Kilobytes of stack that each program has to do with. What it needs is
/// less: `cargo run --bin measure_stack` says how much.
pub const BOUNDS: [(&str, usize); 12] = [
    ("register", 3_072),
    ("repack", 1_024),
    ("edges", 1_024),
    ("inspect", 1_024),
    ("replay", 1_024),
    ("poll", 2_048),
    ("inspect_text", 1_024),
    ("pack", 2_048),
    ("unpack", 1_024),
    ("register_text", 4_096),
    ("check_listing", 6_144),
    ("shares", 2_048),
];

/// A net, and as many picks as a register takes.
pub struct Load {
    pub net: Net,
    pub picks: Vec<u8>,
}

impl Load {
    pub fn image(&self) -> Vec<u8> {
        write_image(&self.net)
    }
}

/// The longest image, and a net in which every action is performed; then both
/// of format 2, with outs to a set.
pub fn loads() -> [Load; 4] {
    let mut random = Random::new(501);
    let mut picks = || (0..MOST_PICKS).map(|_| random.byte() & 0xFC).collect();
    let nets = [longest(), busy(), longest_of_format_2(), busy_of_format_2()];
    nets.map(|net| Load {
        net,
        picks: picks(),
    })
}

/// Code of 512 instructions with every action, all rights, and four
/// processes at each of 15 addresses.
pub fn busy() -> Net {
    let mut net = stops(15, 512);
    for at in 0..15 {
        grant_create(&mut net, at);
        (0..15).for_each(|over| grant(&mut net, at, over, Rights::ALL));
        let places = [0, 8, 16, 24].map(|place| (place + 32 * at as u16) % 504);
        let own = Locality(at as u8);
        net.nodes[at].processes = places.map(|place| Process::starting(Place(place), own));
    }
    for first in (0..504).step_by(8) {
        net.code[first as usize..][..8].copy_from_slice(&round(first));
    }
    net.code[504] = new(7, 511);
    net.nodes[0].processes[3] = Process::starting(Place(504), Locality(0));
    net
}

/// The same in format 2, where in one of four rounds the second out is one to
/// a set of none, one or two members.
pub fn busy_of_format_2() -> Net {
    let mut net = in_format_2(busy());
    for first in (0..504u16).step_by(32) {
        let out = &mut net.code[first as usize + 2];
        let members = (0..first / 32 % 3).map(|member| ((first / 8 + member) % 15) as u8);
        let (members, next) = (Set::of(members.map(Locality)), Place(first + 3));
        out.action = Action::OutToSet { members, next };
    }
    net
}

/// Eight instructions from a place on, and then the next eight.
fn round(at: u16) -> [Instruction; 8] {
    let any = [
        TemplateField::FormalReading(0),
        TemplateField::FormalAddress(1),
    ];
    let held = [TemplateField::Variable(0), TemplateField::Variable(1)];
    let put = [TemplateField::Reading(at.into()), TemplateField::Own];
    let (far, stop) = (written((at / 8 % 15) as u8), 511);
    [
        out(OWN, &put, at + 1),
        read(OWN, &any, at + 2),
        out(Target::Variable(1), &held, at + 3),
        take(OWN, &any, at + 4),
        eval(Target::Variable(1), stop, at + 5),
        fork(at + 6, stop),
        eval(far, stop, at + 7),
        take(OWN, &any, (at + 8) % 504),
    ]
}

/// A directory for a program, with the bytes of its standard input, its
/// arguments, and what it prints there.
pub struct Job {
    directory: TestDirectory,
    arguments: Vec<String>,
    printed: Vec<u8>,
}

const INPUT: &str = "input";

impl Job {
    fn new(files: &[(&str, &[u8])], input: &[u8], printed: Vec<u8>) -> Job {
        let files = files.iter().copied().chain([(INPUT, input)]);
        let directory = TestDirectory::holding(files);
        Job {
            directory,
            arguments: Vec::new(),
            printed,
        }
    }

    fn given(self, arguments: &[&str]) -> Job {
        let arguments = arguments.iter().map(|one| one.to_string()).collect();
        Job { arguments, ..self }
    }

    /// Whether a program does the job with so many kilobytes of stack.
    pub fn done_by(&self, name: &str, kilobytes: usize) -> bool {
        let output = self.run_with_stack(name, kilobytes);
        output.status.success() && output.stdout == self.printed
    }

    // Runs a program of the repository with so many kilobytes of stack.
    fn run_with_stack(&self, name: &str, kilobytes: usize) -> Output {
        let script = "ulimit -s \"$1\" && shift && exec \"$0\" \"$@\"";
        let directory = &self.directory.path;
        let input = File::open(directory.join(INPUT)).expect("it is there");
        let mut command = Command::new("sh");
        command.arg("-c").arg(script).arg(program(name));
        command.arg(kilobytes.to_string()).args(&self.arguments);
        command.current_dir(directory).stdin(input);
        command.output().expect("sh runs")
    }
}

/// The jobs of a program that go by all of its code.
pub fn jobs(name: &str) -> Vec<Job> {
    match name {
        "register" => loads().map(|load| registering(&load)).into(),
        "repack" => loads().map(|load| repacking(&load)).into(),
        "edges" => vec![edging()],
        "inspect" => vec![inspecting()],
        "replay" => loads().map(replaying).into(),
        "poll" => vec![polling()],
        "inspect_text" => vec![inspecting_texts()],
        "register_text" => all_texts().map(|text| registering_text(&text)).collect(),
        "pack" => all_texts().map(|text| packing(&text)).collect(),
        "unpack" => unpackings(),
        "check_listing" => loads().iter().flat_map(checking).collect(),
        "shares" => vec![sharing()],
        _ => panic!("{name} is no program"),
    }
}

// With the longest lists of names.
fn registering(load: &Load) -> Job {
    let (image, picks, lists) = (load.image(), &load.picks, longest_lists());
    let printed = register_named(&image, picks, &names_by(&lists[0], &lists[1]).0);
    job_with_lists(
        &[("net.bin", &image), ("picks.bin", picks)],
        &lists,
        printed,
    )
}

fn job_with_lists(files: &[(&str, &[u8])], lists: &[Vec<u8>; 2], printed: String) -> Job {
    let lists: [(&str, &[u8]); 2] = [("site.bin", &lists[0]), ("office.bin", &lists[1])];
    Job::new(&[files, &lists].concat(), &[], printed.into_bytes())
}

fn repacking(load: &Load) -> Job {
    let image = load.image();
    Job::new(&[("net.bin", &image)], &[], image.clone())
}

fn edging() -> Job {
    let file = |path| fs::read(repository().join("crates/edges").join(path));
    let file = |path| file(path).expect("it is stored");
    let (edges, creation) = (file("data/edges.bin"), file("data/creation.bin"));
    let files: [(&str, &[u8]); 2] = [("edges.bin", &edges), ("creation.bin", &creation)];
    Job::new(&files, &[], file("stdout"))
}

fn inspecting() -> Job {
    let input = loads().map(|load| framed(&load.image())).concat();
    // Accepted: the answer and four bytes of place, all 0.
    let printed = loads().map(|load| [vec![0; 5], dump(&load.net)].concat());
    Job::new(&[], &input, printed.concat())
}

// The longest listings of a run, one in each age.
fn checking(load: &Load) -> [Job; 2] {
    let (image, picks) = (load.image(), &load.picks);
    Age::BOTH.map(|age| {
        let listing = fully_padded(&wanted_lines(&image, picks, age));
        let files: [(&str, &[u8]); 3] = [
            ("net.bin", &image),
            ("picks.bin", picks),
            ("listing.txt", &listing),
        ];
        Job::new(&files, &[], b"0\n".to_vec()).given(&[age.argument()])
    })
}

// Each run twice, and an image that is refused.
fn sharing() -> Job {
    let loads = loads().map(|load| (load.image(), load.picks));
    let longer = [&loads[0].0[..], &[0]].concat();
    let files = |number: usize| ["net.bin", "picks.bin"].map(|file| format!("{number}/{file}"));
    let names: Vec<String> = (0..loads.len()).flat_map(files).collect();
    let contents = loads.iter().flat_map(|(image, picks)| [image, picks]);
    let files = names.iter().zip(contents);
    let mut files: Vec<(&str, &[u8])> = files
        .map(|(name, content)| (&name[..], &content[..]))
        .collect();
    files.push(("refused/net.bin", &longer));
    let folders = ["0", "refused", "1", "2", "3", "0", "1", "2", "3"];
    let runs = loads
        .each_ref()
        .map(|(image, picks)| season::run(image, picks));
    let runs: Vec<season::Run> = runs.into_iter().flatten().collect();
    let printed = season::printed(&runs.repeat(2));
    Job::new(&files, &[], printed.into_bytes()).given(&folders)
}

/// The deepest text, the widest, and one with every action; then these of
/// format 2, with outs to a set.
pub fn texts() -> [Vec<u8>; 6] {
    let [one, two] = [busy(), busy_of_format_2()].map(|net| text_of(&net).expect("it is fresh"));
    let (deepest_2, widest_2) = (deepest_of_format_2(), widest_of_format_2());
    [deepest(), widest(), one, deepest_2, widest_2, two]
}

/// The longest text of a net of each format. That of format 2 is longer than
/// `inspect_text` takes.
pub fn longest_texts() -> [Vec<u8>; 2] {
    FORMATS.map(|format| text_of(&longest_net(format)).expect("it is fresh"))
}

fn all_texts() -> impl Iterator<Item = Vec<u8>> {
    texts().into_iter().chain(longest_texts())
}

// The nets of all loads, and those with the longest texts.
fn unpackings() -> Vec<Job> {
    let loads = loads().into_iter().map(|load| load.net);
    let nets = loads.chain(FORMATS.map(longest_net));
    let job = |net: Net| {
        let (image, text) = (write_image(&net), text_of(&net));
        let text = text.expect("it is fresh");
        Job::new(&[("net.bin", &image)], &[], text)
    };
    nets.map(job).collect()
}

fn net_of(text: &[u8]) -> Net {
    read_text(text).expect("it is accepted")
}

fn inspecting_texts() -> Job {
    let input = texts().map(|text| framed(&text)).concat();
    let printed = texts().map(|text| [vec![0], dump(&net_of(&text))].concat());
    Job::new(&[], &input, printed.concat())
}

fn registering_text(text: &[u8]) -> Job {
    let ([_, Load { picks, .. }, ..], lists) = (loads(), longest_lists());
    let printed = register_text_named(text, &picks, &names_by(&lists[0], &lists[1]).0);
    job_with_lists(&[("net.txt", text), ("picks.bin", &picks)], &lists, printed)
}

fn packing(text: &[u8]) -> Job {
    let length = write_image(&net_of(text)).len();
    let printed = format!("packed {length}\n").into_bytes();
    Job::new(&[("net.txt", text)], &[], printed)
}

// Fewer picks: of each the whole net is compared.
fn replaying(load: Load) -> Job {
    let (net, picks) = (load.net, load.picks[..2_000].to_vec());
    let run = Run { net, picks };
    Job::new(&[], &run.framed(), expected(&run))
}

// The images of all loads and all texts but the longest, each with a call that
// has no room and one that has.
fn polling() -> Job {
    let images = loads().map(|load| Source::Image(load.image()));
    let sources = images.into_iter().chain(texts().map(Source::Text));
    let [_, Load { picks, .. }, ..] = loads();
    let call = |length| Call {
        picks: picks[..2_000].to_vec(),
        length,
    };
    let record = |source| Record {
        source,
        calls: vec![call(1_999), call(2_000)],
    };
    let records: Vec<Record> = sources.map(record).collect();
    let input: Vec<u8> = records.iter().flat_map(Record::framed).collect();
    let printed = records.iter().flat_map(poll::expected);
    Job::new(&[], &input, printed.collect())
}

/// The least number of kilobytes, to within 4 and at most 65,536, that is
/// enough.
pub fn least(enough: impl Fn(usize) -> bool) -> usize {
    let (mut short, mut least) = (0, 65_536);
    assert!(enough(least), "65,536 KB are not enough");
    while least - short > 4 {
        let middle = (short + least) / 2;
        if enough(middle) {
            least = middle;
        } else {
            short = middle;
        }
    }
    least
}

#[cfg(test)]
mod tests {
    use super::*;
    use crate::step::{pick_address, pick_slot, step};

    /// Each action is performed in the busy nets: all seven, and in format 2
    /// the eighth.
    #[test]
    fn every_action_is_performed() {
        let [_, one, _, two] = loads();
        for (busy, actions) in [(one, 7), (two, 8)] {
            let mut net = busy.net.clone();
            let mut performed = vec![0; actions];
            for pick in &busy.picks {
                let node = &net.nodes[usize::from(pick_address(*pick).0)];
                let process = node.processes[usize::from(pick_slot(*pick))];
                let action = net.code[usize::from(process.at.0)].action;
                if step(&mut net, *pick) <= 1 {
                    performed[number(&action)] += 1;
                }
            }
            assert_eq!(performed[5], 1);
            assert!(performed.iter().all(|count| *count > 0), "{performed:?}");
        }
    }

    fn number(action: &Action) -> usize {
        match action {
            Action::Stop => 0,
            Action::Out { .. } => 1,
            Action::In { .. } => 2,
            Action::Read { .. } => 3,
            Action::Eval { .. } => 4,
            Action::New { .. } => 5,
            Action::Fork { .. } => 6,
            Action::OutToSet { .. } => 7,
        }
    }
}
