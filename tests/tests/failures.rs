//! What the programs do where a file cannot be read or nothing can be
//! written: standard error says what failed, with which file and why, and
//! nothing is printed that rests on what could not be read.

use cavindorum_tests::by_hand::{paper_net, ONE_STOP, PAPER_IMAGE};
use cavindorum_tests::dump::{framed, DUMP_BYTES};
use cavindorum_tests::edges::{pack, Edge};
use cavindorum_tests::program::{run_given, TestDirectory};
use cavindorum_tests::replay::Run;
use std::fs::{self, File};
use std::io::Write;
use std::os::fd::OwnedFd;
use std::os::unix::fs::{symlink, PermissionsExt};
use std::os::unix::net::UnixStream;
use std::path::Path;
use std::process::Stdio;

/// The paper's net.
const TEXT: &[u8] = b"0 has 0:o\n0 :: out(5)@self.nil\n";

/// A program that reads files, its arguments, and its files.
struct Reader {
    name: &'static str,
    arguments: &'static [&'static str],
    files: &'static [&'static str],
}

const READERS: [Reader; 8] = [
    reader(
        "register",
        &[],
        &["net.bin", "picks.bin", "site.bin", "office.bin"],
    ),
    reader(
        "register_text",
        &[],
        &["net.txt", "picks.bin", "site.bin", "office.bin"],
    ),
    reader("pack", &[], &["net.txt"]),
    reader("repack", &[], &["net.bin"]),
    reader("unpack", &[], &["net.bin"]),
    reader("edges", &[], &["edges.bin", "creation.bin"]),
    reader(
        "check_listing",
        &["old"],
        &["net.bin", "picks.bin", "listing.txt"],
    ),
    reader("shares", &["run"], &["run/net.bin", "run/picks.bin"]),
];

const fn reader(
    name: &'static str,
    arguments: &'static [&'static str],
    files: &'static [&'static str],
) -> Reader {
    Reader {
        name,
        arguments,
        files,
    }
}

/// What a program prints in a directory, and what it says on standard error.
fn said(name: &str, directory: &Path, input: Stdio) -> (Vec<u8>, String) {
    said_given(name, &[], directory, input)
}

/// The same with these arguments.
fn said_given(name: &str, arguments: &[&str], directory: &Path, input: Stdio) -> (Vec<u8>, String) {
    let output = run_given(name, arguments, directory, input, Stdio::piped());
    let errors = String::from_utf8(output.stderr).expect("it is text");
    (output.stdout, errors)
}

/// What a file holds that can be read. An image would be no list of names,
/// and that would be said too.
fn content(file: &str) -> &'static [u8] {
    match file {
        "site.bin" | "office.bin" => b"\x04name",
        _ => &PAPER_IMAGE,
    }
}

/// Puts something else in the place of each file of each program in turn,
/// and fails unless the program says just that of it and prints nothing.
fn replace_each(make: impl Fn(&Path), says: &str) {
    for Reader {
        name,
        arguments,
        files,
    } in READERS
    {
        for file in files {
            let others = files.iter().filter(|other| *other != file);
            let directory = TestDirectory::holding(others.map(|other| (*other, content(other))));
            let place = directory.path.join(file);
            fs::create_dir_all(place.parent().expect("it is in a folder")).expect("it can be made");
            make(&place);
            let (printed, errors) = said_given(name, arguments, &directory.path, Stdio::null());
            assert_eq!(errors, says.replace("FILE", file), "{name}");
            assert!(printed.is_empty(), "{name} prints {printed:?}");
        }
    }
}

/// A directory opens, and no byte can be read of it.
#[test]
fn a_directory() {
    let make = |path: &Path| fs::create_dir(path).expect("it can be made");
    replace_each(make, "cannot read FILE: Is a directory\n");
}

/// Memory opens as a file, and no byte can be read at its start.
#[test]
fn a_read_that_fails() {
    let make = |path: &Path| symlink("/proc/self/mem", path).expect("it can be made");
    replace_each(make, "cannot read FILE: Input/output error\n");
}

/// A name that is there and opens for nobody.
#[test]
fn a_link_to_itself() {
    let make = |path: &Path| symlink(path, path).expect("it can be made");
    replace_each(
        make,
        "cannot open FILE: Too many levels of symbolic links\n",
    );
}

/// A file without the right to read it. Whoever may read every file sees
/// nothing of this.
#[test]
fn an_unreadable_file() {
    let make = |path: &Path| {
        fs::write(path, PAPER_IMAGE).expect("it can be written");
        let nobody = fs::Permissions::from_mode(0o000);
        fs::set_permissions(path, nobody).expect("they can be set");
    };
    let directory = TestDirectory::holding([]);
    let probe = directory.path.join("probe");
    make(&probe);
    if File::open(&probe).is_err() {
        replace_each(make, "cannot open FILE: Permission denied\n");
    }
}

/// A name that leads nowhere is a missing file, which counts as empty.
#[test]
fn a_missing_file() {
    let directory = TestDirectory::with(Some(&PAPER_IMAGE), None);
    let picks = directory.path.join("picks.bin");
    let expected = (b"net 1 2\nnode 0 0 1\ntotal 0\n".to_vec(), String::new());
    assert_eq!(said("register", &directory.path, Stdio::null()), expected);
    symlink("nowhere", picks).expect("it can be made");
    assert_eq!(said("register", &directory.path, Stdio::null()), expected);
    let empty = TestDirectory::holding([]);
    let refused = (b"refused 28 at 0\n".to_vec(), String::new());
    for name in ["register", "unpack"] {
        assert_eq!(said(name, &empty.path, Stdio::null()), refused);
    }
    let nothing = (Vec::new(), String::new());
    assert_eq!(said("repack", &empty.path, Stdio::null()), nothing);
    let refused = (b"refused 31\n".to_vec(), String::new());
    for name in ["register_text", "pack"] {
        assert_eq!(said(name, &empty.path, Stdio::null()), refused);
    }
}

/// Of a missing listing the first line is wanting.
#[test]
fn a_missing_listing() {
    let wanting = (b"42 1\n".to_vec(), String::new());
    for image in [None, Some(&PAPER_IMAGE[..])] {
        let directory = TestDirectory::with(image, None);
        for age in ["old", "new"] {
            let found = said_given("check_listing", &[age], &directory.path, Stdio::null());
            assert_eq!(found, wanting);
        }
    }
}

/// Each file that fails is named.
#[test]
fn both_files() {
    let directory = TestDirectory::holding([]);
    fs::create_dir(directory.path.join("net.bin")).expect("it can be made");
    symlink("picks.bin", directory.path.join("picks.bin")).expect("it can be made");
    let (printed, errors) = said("register", &directory.path, Stdio::null());
    let net = "cannot read net.bin: Is a directory\n";
    let picks = "cannot open picks.bin: Too many levels of symbolic links\n";
    assert_eq!(errors, [net, picks].concat());
    assert!(printed.is_empty());
}

/// Both lists of names, in their order.
#[test]
fn both_lists_of_names() {
    for (name, net) in [("register", "net.bin"), ("register_text", "net.txt")] {
        let directory = TestDirectory::holding([(net, &PAPER_IMAGE[..])]);
        for list in ["site.bin", "office.bin"] {
            fs::create_dir(directory.path.join(list)).expect("it can be made");
        }
        let (printed, errors) = said(name, &directory.path, Stdio::null());
        let site = "cannot read site.bin: Is a directory\n";
        let office = "cannot read office.bin: Is a directory\n";
        assert_eq!(errors, [site, office].concat());
        assert!(printed.is_empty());
    }
}

#[test]
fn all_three_files() {
    let directory = TestDirectory::holding([]);
    let names = ["net.bin", "picks.bin", "listing.txt"];
    for name in names {
        fs::create_dir(directory.path.join(name)).expect("it can be made");
    }
    let (printed, errors) = said_given("check_listing", &["new"], &directory.path, Stdio::null());
    let expected = names.map(|name| format!("cannot read {name}: Is a directory\n"));
    assert_eq!(errors, expected.concat());
    assert!(printed.is_empty());
}

/// One run of several that cannot be read: no figures of the others.
#[test]
fn one_folder_of_several() {
    let files: [(&str, &[u8]); 2] = [("a/net.bin", &PAPER_IMAGE), ("c/net.bin", &PAPER_IMAGE)];
    let directory = TestDirectory::holding(files);
    for file in ["net.bin", "picks.bin"] {
        let folder = directory.path.join("b");
        fs::create_dir_all(folder.join(file)).expect("it can be made");
        let folders = ["a", "b", "c"];
        let (printed, errors) = said_given("shares", &folders, &directory.path, Stdio::null());
        assert_eq!(errors, format!("cannot read b/{file}: Is a directory\n"));
        assert!(printed.is_empty());
        fs::remove_dir_all(folder).expect("it can be removed");
    }
}

/// Several that cannot be read: the first is named first.
#[test]
fn the_first_of_two_folders() {
    let directory = TestDirectory::holding([]);
    for file in ["a/net.bin", "b/net.bin"] {
        fs::create_dir_all(directory.path.join(file)).expect("it can be made");
    }
    let (printed, errors) = said_given("shares", &["a", "b"], &directory.path, Stdio::null());
    let first = "cannot read a/net.bin: Is a directory\n";
    assert!(errors.starts_with(first), "{errors}");
    assert!(printed.is_empty());
}

/// The name of a file is no folder.
#[test]
fn a_file_in_place_of_a_folder() {
    let directory = TestDirectory::holding([("run", &PAPER_IMAGE[..])]);
    let (printed, errors) = said_given("shares", &["run"], &directory.path, Stdio::null());
    let first = "cannot open run/net.bin: Not a directory\n";
    assert!(errors.starts_with(first), "{errors}");
    assert!(printed.is_empty());
}

/// The paper's net and 1,000 picks, as `replay` takes them.
fn paper_run() -> Vec<u8> {
    let (net, picks) = (paper_net(), vec![0; 1_000]);
    Run { net, picks }.framed()
}

/// An input that gives these bytes, and whose next read fails. The second
/// is its other end, which has to stay open.
fn failing_after(bytes: &[u8]) -> (Stdio, UnixStream) {
    let (input, mut other) = UnixStream::pair().expect("a pair of sockets");
    other.write_all(bytes).expect("they fit");
    // No byte is there, and the read does not wait for one.
    input.set_nonblocking(true).expect("it can be set");
    (OwnedFd::from(input).into(), other)
}

const INPUT_FAILS: &str = "cannot read standard input: Resource temporarily unavailable\n";

/// A read that fails midway: what was read before it is answered, and what
/// was not read whole is not.
#[test]
fn an_input_that_fails_midway() {
    let here = TestDirectory::holding([]);
    let (whole, part) = (framed(&ONE_STOP), framed(&PAPER_IMAGE));
    let (input, _other) = failing_after(&[&whole[..], &part[..8]].concat());
    let (printed, errors) = said("inspect", &here.path, input);
    assert_eq!((printed.len(), &errors[..]), (5 + DUMP_BYTES, INPUT_FAILS));
    let text = framed(TEXT);
    let (input, _other) = failing_after(&[&text[..], &text[..8]].concat());
    let (printed, errors) = said("inspect_text", &here.path, input);
    assert_eq!((printed.len(), &errors[..]), (1 + DUMP_BYTES, INPUT_FAILS));
    let run = paper_run();
    let (input, _other) = failing_after(&run[..run.len() - 1]);
    let (printed, errors) = said("replay", &here.path, input);
    assert_eq!((printed.len(), &errors[..]), (0, INPUT_FAILS));
}

/// An input that ends midway: nothing failed, and nothing is said.
#[test]
fn an_input_that_ends_midway() {
    let part = &framed(&PAPER_IMAGE)[..8];
    let here = TestDirectory::holding([("input", part)]);
    for name in ["inspect", "inspect_text"] {
        let input = File::open(here.path.join("input")).expect("it is there");
        let nothing = (Vec::new(), String::new());
        assert_eq!(said(name, &here.path, input.into()), nothing);
    }
}

/// A register that `edges` has no room for: it says so, and stops there.
#[test]
fn an_edge_with_too_long_a_register() {
    let edge = Edge {
        name: "long".to_string(),
        image: PAPER_IMAGE.to_vec(),
        picks: vec![0; 10_000],
    };
    let edges = pack(&[edge.clone(), edge]);
    let here = TestDirectory::holding([("edges.bin", &edges[..])]);
    let (printed, errors) = said("edges", &here.path, Stdio::null());
    assert_eq!(String::from_utf8_lossy(&printed), "edge long\n");
    assert_eq!(errors, "no room for a register\n");
}

/// A full device: the failure is named once, by each program.
#[test]
fn an_output_that_fails() {
    let edge = [1, 0, b'e', 0, 0, 0, 0];
    let files: [(&str, &[u8]); 5] = [
        ("net.bin", &PAPER_IMAGE),
        ("net.txt", TEXT),
        ("picks.bin", &[0, 0, 0]),
        ("edges.bin", &[edge; 3].concat()),
        ("input", &[]),
    ];
    let here = TestDirectory::holding(files);
    let reading = READERS.map(|reader| (reader.name, reader.arguments, Vec::new()));
    let asked: [(&str, &[&str], Vec<u8>); 3] = [
        ("inspect", &[], framed(&PAPER_IMAGE).repeat(3)),
        ("inspect_text", &[], framed(TEXT).repeat(3)),
        ("replay", &[], paper_run()),
    ];
    for (name, arguments, input) in reading.into_iter().chain(asked) {
        fs::write(here.path.join("input"), input).expect("it can be written");
        let input = File::open(here.path.join("input")).expect("it is there");
        let full = File::options().write(true).open("/dev/full");
        let full = full.expect("there is a full device");
        let output = run_given(name, arguments, &here.path, input.into(), full.into());
        let errors = String::from_utf8_lossy(&output.stderr);
        let expected = "cannot write standard output: No space left on device\n";
        assert_eq!(errors, expected, "{name}");
    }
}
