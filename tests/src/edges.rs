//! The edges of document 01 ("Edges, those with * to be proved"; that of i
//! without r as document 02, slip 6, answers it), each as an image and picks:
//! first those without a star, then those that
//! crates/edges/specs/Starred.antt claims. Beside them, in a list of their
//! own, those of format 2 (document 02, slip 10).

use crate::bits::{BitWriter, Sort};
use crate::by_hand::*;
use crate::image::write_image;
use crate::net::*;
use crate::register::register;
use crate::step::pick;
use crate::stored::Stored;

/// An image, accepted or not, and the picks made from it.
#[derive(Clone, PartialEq, Eq, Debug)]
pub struct Edge {
    pub name: String,
    pub image: Vec<u8>,
    pub picks: Vec<u8>,
}

/// All edges.
pub fn edges() -> Vec<Edge> {
    let mut edges = images_without_star();
    edges.extend(picks_without_star());
    edges.extend(starred());
    edges
}

/// The edges as the program `edges` reads them. Each has its name, image
/// and picks, and before each of the three its length in two bytes, the
/// lower first.
pub fn pack(edges: &[Edge]) -> Vec<u8> {
    let mut bytes = Vec::new();
    for edge in edges {
        for part in [edge.name.as_bytes(), &edge.image, &edge.picks] {
            let length = u16::try_from(part.len()).expect("at most 65,535 bytes");
            bytes.extend(length.to_le_bytes());
            bytes.extend(part);
        }
    }
    bytes
}

/// The edges that the program reads from these bytes.
pub fn unpack(bytes: &[u8]) -> Vec<Edge> {
    let mut rest = bytes;
    let mut part = move || {
        let (length, after) = rest.split_first_chunk()?;
        let (part, after) = after.split_at_checked(u16::from_le_bytes(*length).into())?;
        rest = after;
        Some(part.to_vec())
    };
    let edge = move || {
        let name = String::from_utf8(part()?).expect("a name is text");
        let (image, picks) = (part()?, part()?);
        Some(Edge { name, image, picks })
    };
    std::iter::from_fn(edge).collect()
}

/// What the program `edges` prints of an edge with this register.
pub fn entry(name: &str, register: &str) -> String {
    format!("edge {name}\n{register}")
}

/// What the program `edges` prints: for each edge its name and register.
pub fn expected(edges: &[Edge]) -> Vec<u8> {
    let entries = edges
        .iter()
        .map(|edge| entry(&edge.name, &register(&edge.image, &edge.picks)));
    entries.collect::<String>().into_bytes()
}

/// The one edge that no image shows: at 16 addresses a creation without n. The
/// program reads the image with n, withdraws n from the net and makes the pick.
pub fn withdrawn() -> (Net, String) {
    let mut net = creation(16, false);
    let answer = pick(&mut net, 0);
    let lines = format!("edge creation at 16 addresses, n withdrawn\npick 1 0 0 {answer}\n");
    (creation(16, true), lines)
}

/// The same with an image of format 2.
pub fn withdrawn_of_format_2() -> (Net, String) {
    let (start, lines) = withdrawn();
    (in_format_2(start), lines)
}

/// The files of the program `edges`.
pub fn stored_files() -> Vec<Stored> {
    let edges = edges();
    let file = |path: &str, content| Stored {
        path: path.to_string(),
        content,
    };
    let (start, lines) = withdrawn();
    let stdout = [expected(&edges), lines.into_bytes()].concat();
    vec![
        file("crates/edges/data/edges.bin", pack(&edges)),
        file("crates/edges/data/creation.bin", write_image(&start)),
        file("crates/edges/stdout", stdout),
    ]
}

fn edge(name: &str, image: &[u8], picks: &[u8]) -> Edge {
    let (name, image, picks) = (name.to_string(), image.to_vec(), picks.to_vec());
    Edge { name, image, picks }
}

fn net_edge(name: &str, net: Net, picks: &[u8]) -> Edge {
    edge(name, &write_image(&net), picks)
}

// Images.

fn images_without_star() -> Vec<Edge> {
    let stops = |name, addresses, length| edge(name, &stops_image(addresses, length), &[0xF0]);
    vec![
        stops("16 addresses", 16, 1),
        stops("17 addresses", 17, 1),
        stops("0 addresses", 0, 1),
        net_edge("512 instructions", at_the_last_place(), &[0]),
        stops("513 instructions", 1, 513),
        stops("0 instructions", 1, 0),
        stops("0 addresses and 0 instructions", 0, 0),
    ]
}

/// The image of stops only, at addresses without rights, laid out as these
/// two counts say, in range or not.
pub fn stops_image(addresses: usize, length: usize) -> Vec<u8> {
    let mut bits = BitWriter::default();
    bits.put(Sort::Format, 4, 1);
    bits.put(Sort::AddressCount, 5, addresses as u32);
    bits.put(Sort::CodeLength, 10, length as u32);
    let mut zeros = |sort, width, count| (0..count).for_each(|_| bits.put(sort, width, 0));
    for _ in 0..addresses {
        zeros(Sort::Create, 1, 1);
        zeros(Sort::Rights, 4, addresses);
    }
    zeros(Sort::ProcessCount, 3, addresses);
    zeros(Sort::TupleCount, 5, addresses);
    zeros(Sort::Action, 3, length);
    bits.finish().0
}

// The most instructions, and a process at the last of them.
fn at_the_last_place() -> Net {
    let mut net = stops(1, 512);
    net.nodes[0].processes[0] = Process::starting(Place(511), Locality(0));
    net
}

// The reading in a tuple of the image, and put once more by an out.
fn two_readings(reading: i32) -> Net {
    let mut net = net(1, &[out(OWN, &[TemplateField::Reading(reading)], 1)]);
    grant(&mut net, 0, 0, PUT);
    fill(&mut net, 0, &[readings(&[reading])]);
    net
}

// Picks.

fn picks_without_star() -> Vec<Edge> {
    vec![
        net_edge(
            "eval to itself with four busy slots",
            eval_to_itself(&[0, 1, 0, 1]),
            &[0x00, 0x04],
        ),
        net_edge(
            "eval to itself until four slots are busy",
            eval_to_itself(&[0]),
            &[0; 4],
        ),
        net_edge(
            "out, in, read and eval barred at a full target",
            barred_at_full_target(),
            &[0x00, 0x04, 0x08, 0x0C, 0x00, 0x04, 0x08, 0x0C],
        ),
        net_edge(
            "creation at 15 addresses",
            creation(15, true),
            &[0xF0, 0x00, 0xF0],
        ),
        net_edge("creation at 16 addresses with n", creation(16, true), &[0]),
        net_edge(
            "creation at 16 addresses without n, started",
            creation(16, false),
            &[0],
        ),
        net_edge(
            "creation at 16 addresses without n, sent",
            sent_creation(),
            &[0],
        ),
    ]
}

fn out_to_tuples(count: usize) -> Net {
    let mut net = net(1, &[out(OWN, &[TemplateField::Reading(100)], 1)]);
    grant(&mut net, 0, 0, PUT);
    let tuples: Vec<Tuple> = (1..=count).map(|held| readings(&[held as i32])).collect();
    fill(&mut net, 0, &tuples);
    net
}

// Evals to itself over and over, written as self at place 0 and as address
// 0 at place 1, with processes that start at these places.
fn eval_to_itself(starts: &[u16]) -> Net {
    let mut net = net(1, &[eval(OWN, 2, 0), eval(written(0), 2, 1)]);
    grant(&mut net, 0, 0, SEND);
    for (process, start) in net.nodes[0].processes.iter_mut().zip(starts) {
        *process = Process::starting(Place(*start), Locality(0));
    }
    net
}

// Four processes read the address 1 at their own node and then act there,
// where their node has no right, 16 tuples are held and no slot is free.
fn barred_at_full_target() -> Net {
    let own = [TemplateField::FormalAddress(0)];
    let (target, any) = (Target::Variable(0), [TemplateField::FormalReading(1)]);
    let code = [
        read(OWN, &own, 1),
        out(target, &[TemplateField::Reading(5)], 8),
        read(OWN, &own, 3),
        take(target, &any, 8),
        read(OWN, &own, 5),
        read(target, &any, 8),
        read(OWN, &own, 7),
        eval(target, 8, 8),
    ];
    let mut net = net(2, &code);
    grant(&mut net, 0, 0, READ);
    fill(&mut net, 0, &[one_address(1)]);
    fill(&mut net, 1, &[readings(&[3]); TUPLES]);
    net.nodes[0].processes = [0, 2, 4, 6].map(|at| Process::starting(Place(at), Locality(0)));
    net.nodes[1].processes = [Process::starting(Place(8), Locality(1)); SLOTS];
    net
}

fn creation(addresses: u8, create: bool) -> Net {
    let mut net = net(addresses, &[new(0, 1)]);
    net.each_row(0, |row| row.create = create);
    net
}

// Address 0 holds n and sends a creation to address 1, which does not.
fn sent_creation() -> Net {
    let mut net = net(16, &[eval(written(1), 1, 2), new(0, 2)]);
    grant_create(&mut net, 0);
    grant(&mut net, 0, 1, SEND);
    net
}

// Format 2.

/// Edges of format 2, at the most addresses: like those of document 01, and
/// with n for code of one origin alone.
pub fn of_format_2() -> Vec<Edge> {
    let format = |format: u8| {
        let image = [&[format << 4], &ONE_STOP[1..]].concat();
        edge(&format!("one stop of format {format}"), &image, &[])
    };
    let of_2 = |name, net, picks: &[u8]| net_edge(name, in_format_2(net), picks);
    let mut edges: Vec<Edge> = [0, 1, 2, 3, 15].map(format).into();
    edges.extend([
        of_2("16 addresses", stops(16, 1), &[0xF0]),
        of_2(
            "creation at 15 addresses",
            creation(15, true),
            &[0xF0, 0x00, 0xF0],
        ),
        of_2("creation at 16 addresses with n", creation(16, true), &[0]),
        of_2(
            "creation at 16 addresses without n, started",
            creation(16, false),
            &[0],
        ),
        of_2(
            "creation at 16 addresses without n, sent",
            sent_creation(),
            &[0],
        ),
        net_edge(
            "creation at 16 addresses, sent, with n for the target's own code",
            sent_creation_with_n_for(1),
            &[0x00, 0x10],
        ),
        net_edge(
            "creation at 16 addresses, sent, with n for code of the sender",
            sent_creation_with_n_for(0),
            &[0x00, 0x10],
        ),
    ]);
    edges
}

// The target lets code of one origin create.
fn sent_creation_with_n_for(origin: usize) -> Net {
    let mut net = in_format_2(sent_creation());
    net.nodes[1].rows[origin].create = true;
    net
}

// Those with a star.

/// The edges with a star, with all that stands beside it, in the order of the paper.
pub fn starred() -> Vec<Edge> {
    let mut edges = starred_images();
    edges.extend(starred_picks());
    edges
}

fn starred_images() -> Vec<Edge> {
    let mut barred = PAPER_IMAGE;
    barred[2] = 0x40;
    let sixth = |name, byte| edge(name, &[&ONE_STOP[..], &[byte]].concat(), &[]);
    vec![
        edge("no bytes", &[], &[]),
        edge("one stop", &ONE_STOP, &[]),
        edge("one stop, last byte 01", &[0x10, 0x80, 0x20, 0, 1], &[]),
        sixth("one stop, sixth byte 00", 0x00),
        sixth("one stop, sixth byte FF", 0xFF),
        edge("the register's image with third byte 40", &barred, &[]),
        edge("the register's run", &PAPER_IMAGE, &[0, 0, 0]),
        net_edge("reading with all bits set", two_readings(-1), &[0]),
        net_edge(
            "reading with only the first bit set",
            two_readings(i32::MIN),
            &[0],
        ),
    ]
}

fn starred_picks() -> Vec<Edge> {
    vec![
        net_edge("in at self without a tuple", take_reading(&[]), &[0]),
        net_edge("out to 16 tuples", out_to_tuples(16), &[0]),
        net_edge("out to 15 tuples", out_to_tuples(15), &[0]),
        net_edge(
            "read at a variable holding self, i but not r, a tuple fits",
            read_where_it_may_take(readings(&[3])),
            &[0, 0],
        ),
        net_edge(
            "read at a variable holding self, i but not r, none fits",
            read_where_it_may_take(one_address(0)),
            &[0, 0],
        ),
        net_edge(
            "formal reading against an address",
            take_reading(&[one_address(0)]),
            &[0],
        ),
        net_edge(
            "two tuples fit",
            take_reading(&[readings(&[7]), readings(&[8])]),
            &[0],
        ),
    ]
}

// An in of a formal reading at self, i held, with these tuples there.
fn take_reading(tuples: &[Tuple]) -> Net {
    let mut net = net(1, &[take(OWN, &[TemplateField::FormalReading(0)], 1)]);
    grant(&mut net, 0, 0, TAKE);
    fill(&mut net, 0, tuples);
    net
}

// Takes the own address from a tuple and reads a reading there, holding i
// only, where then this tuple is the only one.
fn read_where_it_may_take(left: Tuple) -> Net {
    let code = [
        take(OWN, &[TemplateField::FormalAddress(0)], 1),
        read(Target::Variable(0), &[TemplateField::FormalReading(1)], 2),
    ];
    let mut net = net(1, &code);
    grant(&mut net, 0, 0, TAKE);
    fill(&mut net, 0, &[one_address(0), left]);
    net
}
