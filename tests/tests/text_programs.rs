//! The programs for texts beside the model: `register_text` in its whole
//! output, `pack` in the image that it writes.

use cavindorum_tests::by_hand::ONE_STOP;
use cavindorum_tests::generate::picks;
use cavindorum_tests::image::write_image;
use cavindorum_tests::net::FORMATS;
use cavindorum_tests::notation::edges::{chain, widest};
use cavindorum_tests::notation::generate::damage::{damaged_text_of, faulty_text_of};
use cavindorum_tests::notation::generate::valid_text_of;
use cavindorum_tests::notation::read_text;
use cavindorum_tests::program::{on_two_threads, printed_by, program, run_on, TestDirectory};
use cavindorum_tests::random::Random;
use cavindorum_tests::register::{answers_in, register_text};
use cavindorum_tests::stack::{longest_texts, texts};
use std::fs;
use std::os::unix::fs::symlink;
use std::path::Path;
use std::process::{Command, Stdio};

fn shown(text: &[u8]) -> String {
    let start = String::from_utf8_lossy(&text[..text.len().min(3_000)]);
    format!("text of {} bytes: {start:?}", text.len())
}

// Directories.

/// The files of a directory; none is a missing file.
struct Files {
    text: Option<Vec<u8>>,
    picks: Option<Vec<u8>>,
}

fn files(text: &[u8], picks: &[u8]) -> Files {
    Files {
        text: Some(text.to_vec()),
        picks: Some(picks.to_vec()),
    }
}

fn directory(files: &Files) -> TestDirectory {
    let all = [("net.txt", &files.text), ("picks.bin", &files.picks)];
    let there = all.map(|(name, content)| content.as_ref().map(|content| (name, &content[..])));
    TestDirectory::holding(there.into_iter().flatten())
}

/// A text and picks that mostly perform, where it is accepted.
fn with_picks(random: &mut Random, text: Vec<u8>) -> Files {
    let made = match read_text(&text) {
        Ok(net) => {
            let count = random.choose(&[0, 1, 5, 40, 200]);
            picks(random, &net, count)
        }
        Err(_) => vec![0, 4],
    };
    files(&text, &made)
}

// The program `register_text`.

/// The register that the program prints, which is the model's.
fn compare_register(files: &Files) -> String {
    let directory = directory(files);
    let printed = printed_by("register_text", &directory.path);
    let text = files.text.as_deref().unwrap_or_default();
    let expected = register_text(text, files.picks.as_deref().unwrap_or_default());
    let printed = String::from_utf8_lossy(&printed);
    assert!(printed == expected, "{printed}{expected}{}", shown(text));
    expected
}

#[test]
fn random_registers() {
    for format in FORMATS {
        let mut random = Random::new(807);
        let mut made = |make: fn(&mut Random, u8) -> Vec<u8>, count: usize| {
            let one = |_| {
                let text = make(&mut random, format);
                with_picks(&mut random, text)
            };
            let all: Vec<Files> = (0..count).map(one).collect();
            on_two_threads(&all, compare_register)
        };
        let mut answers = [0; 11];
        for register in made(valid_text_of, 600) {
            for answer in answers_in(&register) {
                answers[answer as usize] += 1;
            }
        }
        assert!(answers[..9].iter().all(|count| *count > 20), "{answers:?}");
        made(faulty_text_of, 300);
        made(damaged_text_of, 300);
    }
}

/// A missing file counts as empty; an empty text is refused.
#[test]
fn missing_files() {
    let text = Some(b"0 has\n0 :: nil\n".to_vec());
    let picks = None;
    assert_eq!(
        compare_register(&Files { text, picks }),
        "net 1 1\nnode 0 0 1\ntotal 0\n"
    );
    let none = Files {
        text: None,
        picks: Some(vec![0]),
    };
    assert_eq!(compare_register(&none), "refused 31\n");
    let directory = directory(&none);
    assert_eq!(printed_by("pack", &directory.path), b"refused 31\n");
}

/// The deepest texts, the widest and the longest, in an ordinary stack.
#[test]
fn the_deepest_and_the_widest() {
    for text in texts().into_iter().chain(longest_texts()) {
        let register = compare_register(&files(&text, &[0; 100]));
        assert!(register.starts_with("net "));
        packed(&text);
    }
}

// The program `pack`.

/// Packs a text beside an older image: what it prints and leaves is what the
/// model's image and number say. The image, if there is one.
fn packed(text: &[u8]) -> Option<Vec<u8>> {
    let old: &[u8] = b"an older image";
    let here = TestDirectory::holding([("net.txt", text), ("net.bin", old)]);
    let printed = String::from_utf8(printed_by("pack", &here.path)).expect("it is text");
    let image = read_text(text).map(|net| write_image(&net));
    let (says, left) = match &image {
        Ok(image) => (format!("packed {}\n", image.len()), &image[..]),
        Err(number) => (format!("refused {number}\n"), old),
    };
    assert_eq!(printed, says, "{}", shown(text));
    let file = |name: &str| fs::read(here.path.join(name)).expect("it is there");
    assert!(file("net.bin") == left, "{}", shown(text));
    assert!(file("net.txt") == text);
    assert_eq!(names_in(&here.path), ["net.bin", "net.txt"]);
    image.ok()
}

fn names_in(directory: &Path) -> Vec<String> {
    let entries = fs::read_dir(directory).expect("it is a directory");
    let name = |entry: fs::DirEntry| entry.file_name().to_string_lossy().into_owned();
    let mut names: Vec<String> = entries
        .map(|entry| name(entry.expect("it can be read")))
        .collect();
    names.sort();
    names
}

#[test]
fn random_texts_packed() {
    let mut random = Random::new(806);
    let mut texts = Vec::new();
    for format in FORMATS {
        for _ in 0..400 {
            texts.push(valid_text_of(&mut random, format));
            texts.push(faulty_text_of(&mut random, format));
            texts.push(damaged_text_of(&mut random, format));
        }
    }
    let images = on_two_threads(&texts, |text| packed(text));
    for format in FORMATS {
        let is_of = |image: &&Vec<u8>| image[0] >> 4 == format;
        let count = images.iter().flatten().filter(is_of).count();
        assert!(count > 380, "{count} of format {format}");
    }
}

/// Without an older image there is one after `packed`, and none after
/// `refused`.
#[test]
fn a_first_image() {
    for (text, names) in [
        ("0 has\n0 :: nil\n", &["net.bin", "net.txt"][..]),
        ("0 has\n", &["net.txt"]),
    ] {
        let here = TestDirectory::holding([("net.txt", text.as_bytes())]);
        printed_by("pack", &here.path);
        assert_eq!(names_in(&here.path), names);
    }
}

// Texts that are too long, and an image that cannot be written.

/// What a program prints in a directory, and what it says on standard error.
fn said(name: &str, directory: &Path) -> (String, String) {
    let output = run_on(name, directory, Stdio::null(), Stdio::piped());
    let text = |bytes| String::from_utf8(bytes).expect("it is text");
    (text(output.stdout), text(output.stderr))
}

/// A million bytes are read; one more, and nothing is done but to say so.
#[test]
fn a_million_bytes_and_one_more() {
    let mut text = format!("0 has 0:o\n0 :: {}\n", chain(111_110)).into_bytes();
    assert_eq!(text.len(), 1_000_000);
    assert_eq!(compare_register(&files(&text, &[0])), "refused 22\n");
    packed(&text);
    text.push(b'\n');
    for name in ["register_text", "pack"] {
        let here = TestDirectory::holding([("net.txt", &text[..])]);
        let (printed, errors) = said(name, &here.path);
        assert_eq!(printed, "", "{name}");
        assert_eq!(errors, "net.txt is longer than 1000000 bytes\n", "{name}");
        assert_eq!(names_in(&here.path), ["net.txt"]);
    }
}

const SMALL: &[u8] = b"0 has\nA0 = nil\n";

/// What stands in the way of the image is named and stays.
#[test]
fn an_image_that_cannot_be_put_in_its_place() {
    let here = TestDirectory::holding([("net.txt", SMALL)]);
    let image = here.path.join("net.bin");
    fs::create_dir(&image).expect("it can be made");
    fs::write(image.join("file"), "kept").expect("it can be written");
    let says = "cannot replace net.bin: Is a directory\n".to_string();
    assert_eq!(said("pack", &here.path), (String::new(), says));
    assert_eq!(names_in(&image), ["file"]);
    assert_eq!(names_in(&here.path), ["net.bin", "net.txt"]);
}

/// What is left under the name that an image has meanwhile goes, and a file
/// that it leads to stays.
#[test]
fn an_image_left_from_before() {
    let other: &[u8] = b"another file";
    let left: [fn(&Path); 2] = [
        |path| fs::write(path, "a part").expect("it can be written"),
        |path| symlink("other", path).expect("it can be made"),
    ];
    for leave in left {
        let here = TestDirectory::holding([("net.txt", SMALL), ("other", other)]);
        leave(&here.path.join("net.bin.new"));
        assert_eq!(printed_by("pack", &here.path), b"packed 5\n");
        assert_eq!(names_in(&here.path), ["net.bin", "net.txt", "other"]);
        let file = |name: &str| fs::read(here.path.join(name)).expect("it is there");
        assert_eq!(file("net.bin"), ONE_STOP);
        assert_eq!(file("other"), other);
    }
}

/// A name that cannot be used meanwhile.
#[test]
fn an_image_that_cannot_be_made() {
    let here = TestDirectory::holding([("net.txt", SMALL), ("net.bin", b"old")]);
    fs::create_dir(here.path.join("net.bin.new")).expect("it can be made");
    let says = "cannot make net.bin.new: File exists\n".to_string();
    assert_eq!(said("pack", &here.path), (String::new(), says));
    assert_eq!(
        fs::read(here.path.join("net.bin")).ok(),
        Some(b"old".to_vec())
    );
}

/// A write that fails, or fails midway, leaves the old image and nothing
/// else.
#[test]
fn an_image_that_cannot_be_written() {
    let old: &[u8] = b"old";
    let here = TestDirectory::holding([("net.txt", &widest()[..]), ("net.bin", old)]);
    for blocks in ["0", "4"] {
        // No file may have more blocks than this, of 512 or 1,024 bytes.
        let script = "trap '' XFSZ && ulimit -f \"$1\" && exec \"$0\"";
        let mut command = Command::new("sh");
        command
            .args(["-c", script])
            .arg(program("pack"))
            .arg(blocks);
        let output = command.current_dir(&here.path).output().expect("sh runs");
        let errors = String::from_utf8_lossy(&output.stderr);
        assert_eq!(errors, "cannot write net.bin.new: File too large\n");
        assert!(output.stdout.is_empty());
        assert_eq!(
            fs::read(here.path.join("net.bin")).ok().as_deref(),
            Some(old)
        );
        assert_eq!(names_in(&here.path), ["net.bin", "net.txt"]);
    }
}
