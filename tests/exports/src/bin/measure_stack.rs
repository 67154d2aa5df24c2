//! Measures the stack that each exported call needs, in kilobytes: the least
//! stack of a thread in which the call returns. A call that has too little
//! ends the process, so each is tried in a process of its own.

use cavindorum_exports::{
    refusal_place, register_in, register_text_in, run, run_text, LONGEST_REGISTER,
};
use cavindorum_tests::stack::{least, loads, longest_texts, texts};
use std::env;
use std::process::{Command, Stdio};

/// An image or a text, picks, and the buffer that is written.
type Call = fn(&[u8], &[u8], &mut [u8]);

const CALLS: [(&str, Call); 5] = [
    ("cavindorum_run", |image, picks, out| {
        run(image, picks, out);
    }),
    ("cavindorum_register", |image, picks, out| {
        register_in(image, picks, out);
    }),
    ("cavindorum_refusal_place", |image, _, _| {
        refusal_place(image);
    }),
    ("cavindorum_run_text", |text, picks, out| {
        run_text(text, picks, out);
    }),
    ("cavindorum_register_text", |text, picks, out| {
        register_text_in(text, picks, out);
    }),
];

fn main() {
    let arguments: Vec<String> = env::args().skip(1).collect();
    if let [name, kilobytes] = &arguments[..] {
        return try_call(name, kilobytes.parse().expect("a number"));
    }
    for (name, _) in CALLS {
        let kilobytes = least(|kilobytes| returns_within(name, kilobytes));
        println!("{name}: {kilobytes} KB");
    }
}

/// Whether a call returns within so many kilobytes of stack.
fn returns_within(name: &str, kilobytes: usize) -> bool {
    let this = env::current_exe().expect("this program has a path");
    let mut command = Command::new(this);
    command.arg(name).arg(kilobytes.to_string());
    let status = command.stderr(Stdio::null()).status();
    status.expect("it starts").success()
}

/// Makes a call on each load in a thread with so many kilobytes of stack.
fn try_call(name: &str, kilobytes: usize) {
    let found = CALLS.into_iter().find(|(one, _)| *one == name);
    let (_, call) = found.expect("it is a call");
    let [_, busy, ..] = loads();
    let nets: Vec<Vec<u8>> = if name.ends_with("text") {
        texts().into_iter().chain(longest_texts()).collect()
    } else {
        loads().map(|load| load.image()).into()
    };
    for net in nets {
        let (picks, mut out) = (busy.picks.clone(), vec![0; LONGEST_REGISTER]);
        let thread = std::thread::Builder::new().stack_size(kilobytes << 10);
        let thread = thread.spawn(move || call(&net, &picks, &mut out));
        thread.expect("it starts").join().expect("it returns");
    }
}
