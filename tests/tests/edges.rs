//! The edges of document 01: that the stored list is the model's, and that
//! each edge has the answer the paper states. Those of format 2: that the
//! program `edges` works through them as well.

use cavindorum_tests::by_hand::{bits, net, new};
use cavindorum_tests::edges::{
    edges, entry, expected, of_format_2, pack, starred, stops_image, stored_files, unpack,
    withdrawn_of_format_2, Edge,
};
use cavindorum_tests::image::write_image;
use cavindorum_tests::program::{printed_by, TestDirectory};
use cavindorum_tests::register::{answers_in, register};
use cavindorum_tests::starred::claims;
use cavindorum_tests::step::pick;
use cavindorum_tests::stored::{self, repository};

#[test]
fn the_stored_files_are_the_model_s() {
    stored::compare(&stored_files(), "write_edges");
}

/// Reading the packed edges gives the list again.
#[test]
fn packed_edges_are_read_back() {
    assert_eq!(unpack(&pack(&edges())), edges());
}

/// Each claim of Starred.antt has the bytes of an edge that the program works
/// through, and the register that the program prints for it; and each edge
/// with a star has its claim.
#[test]
fn the_claims_are_those_of_the_starred_edges() {
    let file = |name: &str| std::fs::read(repository().join("crates/edges").join(name));
    let worked = unpack(&file("data/edges.bin").expect("the edges are there"));
    let printed = file("stdout").expect("the output is there");
    let printed = String::from_utf8(printed).expect("it is text");
    let claims = claims();
    for claim in &claims {
        let mut met = worked.iter().filter(|edge| claim.is_of(edge)).peekable();
        assert!(met.peek().is_some(), "{}: of no edge", claim.name);
        for edge in met {
            let entry = entry(&edge.name, &claim.register);
            assert!(printed.contains(&entry), "{}: {entry}", claim.name);
        }
    }
    for edge in starred() {
        assert!(worked.contains(&edge), "{}", edge.name);
        let claimed = claims.iter().filter(|claim| claim.is_of(&edge)).count();
        assert_eq!(claimed, 1, "{}", edge.name);
    }
    assert_eq!(claims.len(), 15);
}

/// What the paper states of an edge.
enum Stated {
    /// The number, and the bit at which the field at fault begins.
    Refused(u8, usize),
    /// The picks' answers, and lines that end the register.
    Answers(&'static [u8], &'static [&'static str]),
}

use Stated::{Answers, Refused};

/// Each edge by its name, those without a star first, as in the paper.
const STATED: [(&str, Stated); 30] = [
    ("16 addresses", Answers(&[7], &["node 15 0 0", "total 0"])),
    ("17 addresses", Refused(22, 4)),
    ("0 addresses", Refused(22, 4)),
    (
        "512 instructions",
        Answers(&[1], &["node 0 0 0", "total 0"]),
    ),
    ("513 instructions", Refused(22, 9)),
    ("0 instructions", Refused(22, 9)),
    ("0 addresses and 0 instructions", Refused(22, 4)),
    (
        "eval to itself with four busy slots",
        Answers(&[3, 3], &["node 0 0 4", "total 0"]),
    ),
    (
        "eval to itself until four slots are busy",
        Answers(&[0, 0, 0, 3], &["node 0 0 4", "total 0"]),
    ),
    (
        "out, in, read and eval barred at a full target",
        Answers(&[0, 0, 0, 0, 4, 4, 4, 4], &["tuple 1 3 from 1", "total 17"]),
    ),
    (
        "creation at 15 addresses",
        Answers(&[8, 0, 7], &["node 14 0 0", "node 15 0 0", "total 0"]),
    ),
    (
        "creation at 16 addresses with n",
        Answers(&[3], &["node 15 0 0", "total 0"]),
    ),
    (
        "creation at 16 addresses without n, started",
        // After 16 rows of 65 bits and a process count.
        Refused(30, 19 + 16 * 65 + 3),
    ),
    (
        "creation at 16 addresses without n, sent",
        Answers(&[5], &["node 15 0 0", "total 0"]),
    ),
    ("no bytes", Refused(28, 0)),
    (
        "one stop",
        Answers(&[], &["net 1 1", "node 0 0 0", "total 0"]),
    ),
    ("one stop, last byte 01", Refused(29, 35)),
    ("one stop, sixth byte 00", Refused(29, 35)),
    ("one stop, sixth byte FF", Refused(29, 35)),
    ("the register's image with third byte 40", Refused(30, 27)),
    (
        "the register's run",
        Answers(&[0, 1, 7], &["node 0 1 0", "tuple 0 5 from 0", "total 1"]),
    ),
    (
        "reading with all bits set",
        Answers(
            &[0],
            &[
                "node 0 2 1",
                "tuple 0 -1 from 0",
                "tuple 0 -1 from 0",
                "total 2",
            ],
        ),
    ),
    (
        "reading with only the first bit set",
        Answers(
            &[0],
            &[
                "node 0 2 1",
                "tuple 0 -2147483648 from 0",
                "tuple 0 -2147483648 from 0",
                "total 2",
            ],
        ),
    ),
    (
        "in at self without a tuple",
        Answers(&[2], &["node 0 0 1", "total 0"]),
    ),
    (
        "out to 16 tuples",
        Answers(
            &[3],
            &["tuple 0 15 from 0", "tuple 0 16 from 0", "total 16"],
        ),
    ),
    (
        "out to 15 tuples",
        Answers(
            &[0],
            &["tuple 0 15 from 0", "tuple 0 100 from 0", "total 16"],
        ),
    ),
    (
        "read at a variable holding self, i but not r, a tuple fits",
        Answers(&[0, 0], &["node 0 1 1", "tuple 0 3 from 0", "total 1"]),
    ),
    (
        "read at a variable holding self, i but not r, none fits",
        Answers(&[0, 2], &["node 0 1 1", "tuple 0 @0 from 0", "total 1"]),
    ),
    (
        "formal reading against an address",
        Answers(&[2], &["node 0 1 1", "tuple 0 @0 from 0", "total 1"]),
    ),
    (
        "two tuples fit",
        Answers(&[0], &["node 0 1 1", "tuple 0 8 from 0", "total 1"]),
    ),
];

/// Those of format 2.
const STATED_OF_FORMAT_2: [(&str, Stated); 12] = [
    ("one stop of format 0", Refused(21, 0)),
    (
        "one stop of format 1",
        Answers(&[], &["node 0 0 0", "total 0"]),
    ),
    (
        "one stop of format 2",
        Answers(&[], &["node 0 0 0", "total 0"]),
    ),
    ("one stop of format 3", Refused(21, 0)),
    ("one stop of format 15", Refused(21, 0)),
    ("16 addresses", Answers(&[7], &["node 15 0 0", "total 0"])),
    (
        "creation at 15 addresses",
        Answers(&[8, 0, 7], &["node 14 0 0", "node 15 0 0", "total 0"]),
    ),
    (
        "creation at 16 addresses with n",
        Answers(&[3], &["node 15 0 0", "total 0"]),
    ),
    (
        "creation at 16 addresses without n, started",
        // After 256 rows of 65 bits and a process count.
        Refused(30, 19 + 256 * 65 + 3),
    ),
    (
        "creation at 16 addresses without n, sent",
        Answers(&[5], &["node 15 0 0", "total 0"]),
    ),
    (
        "creation at 16 addresses, sent, with n for the target's own code",
        Answers(&[5, 7], &["node 15 0 0", "total 0"]),
    ),
    (
        "creation at 16 addresses, sent, with n for code of the sender",
        Answers(&[0, 3], &["node 15 0 0", "total 0"]),
    ),
];

#[test]
fn each_edge_has_the_stated_answer() {
    check_all(&edges(), &STATED);
    check_all(&of_format_2(), &STATED_OF_FORMAT_2);
}

/// The program `edges` with each of these in place of the stored ones, and
/// with an image of format 2 from which n is withdrawn.
#[test]
fn the_program_works_through_those_of_format_2() {
    let (start, lines) = withdrawn_of_format_2();
    let creation = write_image(&start);
    for edge in of_format_2() {
        let packed = pack(&[edge.clone()]);
        let files: [(&str, &[u8]); 2] = [("edges.bin", &packed), ("creation.bin", &creation)];
        let here = TestDirectory::holding(files);
        let found = printed_by("edges", &here.path);
        let expected = [expected(&[edge]), lines.clone().into_bytes()].concat();
        let text = |bytes| String::from_utf8(bytes).expect("it is text");
        assert_eq!(text(found), text(expected));
    }
}

fn check_all(edges: &[Edge], all: &[(&str, Stated)]) {
    assert_eq!(edges.len(), all.len());
    for (edge, (name, stated)) in edges.iter().zip(all) {
        assert_eq!(edge.name, *name);
        check(edge, stated);
    }
}

fn check(edge: &Edge, stated: &Stated) {
    let name = &edge.name;
    let text = register(&edge.image, &edge.picks);
    match stated {
        Refused(number, bit) => assert_eq!(text, format!("refused {number} at {bit}\n"), "{name}"),
        Answers(answers, ending) => {
            assert!(text.starts_with("net "), "{name}: {text}");
            assert_eq!(answers_in(&text), *answers, "{name}");
            let ending: String = ending.iter().map(|line| format!("{line}\n")).collect();
            assert!(text.ends_with(&ending), "{name}: {text}");
        }
    }
}

fn image(name: &str) -> Vec<u8> {
    let edges = edges();
    let mut named = edges.iter().filter(|edge| edge.name == name);
    named.next().expect("an edge of this name").image.clone()
}

/// The counts at fault stand in images that are otherwise whole.
#[test]
fn counts_stand_in_the_image() {
    assert_eq!(stops_image(1, 1), [0x10, 0x80, 0x20, 0x00, 0x00]);
    let zeros = |count: usize| "0".repeat(count);
    let seventeen = format!(
        "0001 10001 0000000001 {}",
        zeros(17 * (1 + 68) + 17 * 8 + 3)
    );
    assert_eq!(image("17 addresses"), bits(&seventeen));
    let no_address = "0001 00000 0000000001 000";
    assert_eq!(image("0 addresses"), bits(no_address));
    let most = format!("0001 00001 1000000001 {}", zeros(13 + 513 * 3));
    assert_eq!(image("513 instructions"), bits(&most));
    let no_code = format!("0001 00001 0000000000 {}", zeros(13));
    assert_eq!(image("0 instructions"), bits(&no_code));
}

/// The bits of the reading, once in a tuple and once in an out at self.
#[test]
fn the_first_bit_alone_stands_in_the_image() {
    let reading = format!("1{}", "0".repeat(31));
    let head = "0001 00001 0000000010 0 0010 001 000000000";
    let tuple_and_code = format!("00001 00 0 {reading} 001 01 00 000 {reading} 000000001 000");
    let expected = bits(&format!("{head} {tuple_and_code}"));
    assert_eq!(image("reading with only the first bit set"), expected);
}

/// A process of an accepted image never stands at a creation without n, so
/// the paper's 4 is met only on a net handed in: sound, and not from an
/// image.
#[test]
fn creation_at_16_addresses_without_n_is_4() {
    let mut net = net(16, &[new(0, 1)]);
    assert_eq!(
        write_image(&net),
        image("creation at 16 addresses without n, started")
    );
    let before = net.clone();
    assert_eq!(pick(&mut net, 0), 4);
    assert_eq!(net, before);
}
