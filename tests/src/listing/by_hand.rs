//! Listings by hand, and what is printed of each.

mod long;
mod tuples;

pub use long::{long, LINES, LONGEST};

use super::generate::{Case, Listing};
use super::Age;
use crate::by_hand::*;
use crate::faulty::faulty_images;
use crate::image::{write_image, Fault};
use crate::net::*;

/// A case, and what the program `check_listing` prints of each of its
/// listings, without the newline.
pub struct Stated {
    pub case: Case,
    pub prints: Vec<String>,
}

/// All that are short.
pub fn short() -> Vec<Stated> {
    let mut all = refused();
    all.extend(tuples::all());
    all.extend([paper(), first_lines(), unpicked(), no_image()]);
    all.extend([from_elsewhere(), equal_tuples(), taking_covers_reading()]);
    all
}

/// A listing, and what is printed of it when it is called old and when it is
/// called new.
type Row<'a> = (&'a str, &'a str, &'a str);

fn stated(image: &[u8], picks: &[u8], rows: &[Row]) -> Stated {
    let listing = |called, text: &str| Listing {
        called,
        bytes: text.as_bytes().to_vec(),
    };
    let both = |(text, ..): &Row| Age::BOTH.map(|called| listing(called, text));
    let case = Case {
        image: image.to_vec(),
        picks: picks.to_vec(),
        listings: rows.iter().flat_map(both).collect(),
    };
    let prints = |(_, old, new): &Row| [*old, *new].map(str::to_string);
    let prints = rows.iter().flat_map(prints).collect();
    Stated { case, prints }
}

// The same, all listings opening with these lines.
fn stated_after(lines: &str, image: &[u8], picks: &[u8], rows: &[Row]) -> Stated {
    let whole = |(rest, ..): &Row| [lines, rest].concat();
    let texts: Vec<String> = rows.iter().map(whole).collect();
    let rows = texts.iter().zip(rows);
    let rows = rows.map(|(text, (_, old, new))| (&text[..], *old, *new));
    stated(image, picks, &rows.collect::<Vec<_>>())
}

// The paper's run.

/// Its first five lines in either age.
const RUN: &str = "net 1 2\npick 1 0 0 0\npick 2 0 0 1\npick 3 0 0 7\nnode 0 1 0\n";

/// What comes after them, and what is printed of it when it is called old
/// and when it is called new.
const AFTER_RUN: [Row; 27] = [
    ("tuple 0 5\n", "0", "41 6"),
    ("tuple 0 5 from 0\ntotal 1\n", "41 6", "0"),
    ("tuple 0 5 from 0\n", "41 6", "42 7"),
    ("tuple 0 5\ntotal 1\n", "43 7", "41 6"),
    // Padding.
    ("tuple 0000000000 0000000005\n", "0", "41 6"),
    ("tuple 00000000000 5\n", "41 6", "41 6"),
    ("tuple 0 00000000005\n", "41 6", "41 6"),
    ("tuple 00 05 from 0000000000\ntotal 01\n", "41 6", "0"),
    ("tuple 0 5 from 00000000000\ntotal 1\n", "41 6", "41 6"),
    ("tuple 0 5 from 0\ntotal 0000000001\n", "41 6", "0"),
    ("tuple 0 5 from 0\ntotal 00000000001\n", "41 6", "41 7"),
    // Mark and total.
    ("tuple 0 5 from 1\ntotal 1\n", "41 6", "41 6"),
    ("tuple 0 5 from @0\ntotal 1\n", "41 6", "41 6"),
    ("tuple 0 5 from\ntotal 1\n", "41 6", "41 6"),
    ("tuple 0 5 from 0\ntotal 2\n", "41 6", "41 7"),
    ("tuple 0 5 from 0\ntotal\n", "41 6", "41 7"),
    // A newline missing, and lines left over or wanting.
    ("tuple 0 5", "41 6", "41 6"),
    ("tuple 0 5 from 0\ntotal 1", "41 6", "41 7"),
    ("tuple 0 5\n\n", "43 7", "41 6"),
    ("tuple 0 5 from 0\ntotal 1\n\n", "41 6", "43 8"),
    ("tuple 0 5\n0", "43 7", "41 6"),
    ("tuple 0 5 from 0\ntotal 1\n\0", "41 6", "43 8"),
    ("tuple 0 5\ntuple 0 5\n", "43 7", "41 6"),
    ("tuple 0 6\nmore\n", "41 6", "41 6"),
    ("\ntuple 0 5\n", "41 6", "41 6"),
    ("\n", "41 6", "41 6"),
    ("", "42 6", "42 6"),
];

fn paper() -> Stated {
    stated_after(RUN, &PAPER_IMAGE, &[0; 3], &AFTER_RUN)
}

/// In the place of the first line `net 1 2`: none carries it.
const FIRST_LINES: [&str; 28] = [
    "",
    "\n",
    "net 1 2",
    "\nnet 1 2\n",
    "net  1 2\n",
    "net 1  2\n",
    " net 1 2\n",
    "net 1 2 \n",
    "net 1 2\r\n",
    "net\t1 2\n",
    "net1 2\n",
    "net 12\n",
    "net 1\n",
    "net 1 2 0\n",
    "net\n1 2\n",
    "Net 1 2\n",
    "0net 1 2\n",
    "nett 1 2\n",
    "node 1 2\n",
    "net 1 2\0\n",
    "net 2 1\n",
    "net 1 3\n",
    "net -1 2\n",
    "net +1 2\n",
    "net 1 0x2\n",
    "net 1 2.0\n",
    "\u{FEFF}net 1 2\n",
    "net 1 \u{0662}\n",
];

fn first_lines() -> Stated {
    let rest = &RUN["net 1 2\n".len()..];
    let texts = FIRST_LINES.map(|first| format!("{first}{rest}tuple 0 5\n"));
    let rows = texts.each_ref().map(|text| (&text[..], "41 1", "41 1"));
    stated(&PAPER_IMAGE, &[0; 3], &rows)
}

/// Without picks there is no tuple, and only the total tells the ages apart.
fn unpicked() -> Stated {
    let rows = [
        ("net 1 2\nnode 0 0 1\n", "0", "42 3"),
        ("net 1 2\nnode 0 0 1\ntotal 0\n", "43 3", "0"),
        ("net 1 2\n", "42 2", "42 2"),
        ("net 1 2\nnode 0 0 1", "41 2", "41 2"),
        ("\n\n\n", "41 1", "41 1"),
        ("", "42 1", "42 1"),
    ];
    stated(&PAPER_IMAGE, &[], &rows)
}

// Refused images: a register of one line, without nodes and total.

fn no_image() -> Stated {
    let rows = [
        ("refused 28\n", "0", "41 1"),
        ("refused 28 at 0\n", "41 1", "0"),
        ("refused 0000000028\n", "0", "41 1"),
        ("refused 00000000028\n", "41 1", "41 1"),
        ("refused 028 at 0000000000\n", "41 1", "0"),
        ("refused 28 at 00000000000\n", "41 1", "41 1"),
        ("refused 28", "41 1", "41 1"),
        ("refused 28 at 0", "41 1", "41 1"),
        ("refused 28 at\n", "41 1", "41 1"),
        ("refused 28\n\n", "43 2", "41 1"),
        ("refused 28\ntotal 0\n", "43 2", "41 1"),
        ("refused 28 at 0\ntotal 0\n", "41 1", "43 2"),
        ("refused 28 at 0\nx", "41 1", "43 2"),
        ("net 1 1\nnode 0 0 0\ntotal 0\n", "41 1", "41 1"),
        ("", "42 1", "42 1"),
        ("\n", "41 1", "41 1"),
    ];
    stated(&[], &[0; 3], &rows)
}

/// Each number, at fault in each sort of field that can have it.
fn refused() -> Vec<Stated> {
    let all = faulty_images().into_iter();
    all.map(|(image, fault)| refused_with(&image, fault))
        .collect()
}

fn refused_with(image: &[u8], Fault { number, bit }: Fault) -> Stated {
    let old = format!("{number:04}\n");
    let new = format!("{number:010} at {bit:07}\n");
    let other = format!("{} at {bit}\n", number + 1);
    let next = format!("{number} at {}\n", bit + 1);
    let rows: [Row; 4] = [
        (&old, "0", "41 1"),
        (&new, "41 1", "0"),
        (&other, "41 1", "41 1"),
        (&next, "41 1", "41 1"),
    ];
    stated_after("refused ", image, &[0], &rows)
}

// Other nets.

/// A tuple put by another node, which old listings do not say.
fn from_elsewhere() -> Stated {
    let mut net = net(2, &[out(written(1), &[TemplateField::Own], 1)]);
    grant(&mut net, 0, 1, PUT);
    let run = "net 2 2\npick 1 0 0 0\nnode 0 0 1\nnode 1 1 0\n";
    let rows = [
        ("tuple 1 @0\n", "0", "41 5"),
        ("tuple 1 @0 from 0\ntotal 1\n", "41 5", "0"),
        ("tuple 1 @0 from 1\ntotal 1\n", "41 5", "41 5"),
    ];
    stated_after(run, &write_image(&net), &[0], &rows)
}

/// With a line more or less than two equal ones.
fn equal_tuples() -> Stated {
    let mut net = stops(1, 1);
    fill(&mut net, 0, &[readings(&[4]), readings(&[4])]);
    let marked = |count: usize| "tuple 0 4 from 0\n".repeat(count) + "total 2\n";
    let rows: [Row; 7] = [
        ("tuple 0 4\ntuple 0 04\n", "0", "41 3"),
        ("tuple 0 04\ntuple 0 4\n", "0", "41 3"),
        ("tuple 0 4\n", "42 4", "41 3"),
        ("tuple 0 4\ntuple 0 4\ntuple 0 4\n", "43 5", "41 3"),
        (&marked(2), "41 3", "0"),
        (&marked(1), "41 3", "41 4"),
        (&marked(3), "41 3", "41 5"),
    ];
    let head = "net 1 1\nnode 0 2 0\n";
    stated_after(head, &write_image(&net), &[], &rows)
}

/// A read where i is held and not r: by today's rule (slip 6) it is admitted
/// and answered 0, and old listings that say otherwise differ.
fn taking_covers_reading() -> Stated {
    let mut net = net(1, &[read(OWN, &[TemplateField::FormalReading(0)], 1)]);
    grant(&mut net, 0, 0, TAKE);
    fill(&mut net, 0, &[readings(&[3])]);
    let rows = [
        (
            "net 1 2\npick 1 0 0 0\nnode 0 1 1\ntuple 0 3\n",
            "0",
            "41 4",
        ),
        (
            "net 1 2\npick 1 0 0 4\nnode 0 1 1\ntuple 0 3\n",
            "41 2",
            "41 2",
        ),
        ("refused 30\n", "41 1", "41 1"),
    ];
    stated(&write_image(&net), &[0], &rows)
}
