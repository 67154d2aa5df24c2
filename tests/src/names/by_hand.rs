//! Lists of names by hand, and what the programs make of them.

mod border;
mod faults;

use super::{LONGEST_NAME, MOST_BYTES};

/// A list of these entries.
pub fn list(entries: &[(u8, &str)]) -> Vec<u8> {
    let entry = |(address, name): &(u8, &str)| {
        let length = u8::try_from(name.len()).expect("at most 15 bytes");
        assert!(*address < 16 && (1..=15).contains(&length));
        [&[address << 4 | length], name.as_bytes()].concat()
    };
    entries.iter().flat_map(entry).collect()
}

/// Both lists, and the names that they give or the number that they are
/// refused with.
pub struct Stated {
    pub site: Vec<u8>,
    pub office: Vec<u8>,
    pub gives: Result<Vec<(u8, &'static str)>, u8>,
}

impl Stated {
    /// The name of an address, empty where there is none.
    pub fn name(&self, address: u8) -> &'static str {
        let names = self.gives.iter().flatten();
        let mut named = names.filter(|(of, _)| *of == address);
        named.next().map_or("", |(_, name)| *name)
    }

    /// What the programs say on standard error.
    pub fn says(&self) -> String {
        match self.gives {
            Ok(_) => String::new(),
            Err(number) => format!("names refused {number}\n"),
        }
    }
}

/// All of them.
pub fn all() -> Vec<Stated> {
    let mut all = accepted();
    all.extend(faults::all());
    all.extend(border::all());
    all
}

type Entries = &'static [(u8, &'static str)];

/// The entries of the site's list, those of the office's, and the names.
const ACCEPTED: [(Entries, Entries, Entries); 12] = [
    (&[], &[], &[]),
    (&[(0, "a")], &[], &[(0, "a")]),
    (&[], &[(0, "a")], &[(0, "a")]),
    // In both lists: the site's.
    (&[(1, "site")], &[(1, "office")], &[(1, "site")]),
    // In one list each.
    (&[(2, "two")], &[(1, "one")], &[(1, "one"), (2, "two")]),
    (&[(1, "one")], &[(2, "two")], &[(1, "one"), (2, "two")]),
    // Two entries for one address: the first, in either list.
    (&[(3, "first"), (3, "second")], &[], &[(3, "first")]),
    (&[], &[(3, "first"), (3, "second")], &[(3, "first")]),
    (&[(3, "x"), (3, "y")], &[(3, "v"), (3, "w")], &[(3, "x")]),
    (
        &[(0, "x"), (1, "y"), (0, "z")],
        &[(1, "w")],
        &[(0, "x"), (1, "y")],
    ),
    // The shortest name and the longest, the first byte of the range and the
    // last, and bytes that look like an entry or a line.
    (
        &[(15, "!"), (14, "~")],
        &[(0, "!!~~!!~~!!~~!!~")],
        &[(15, "!"), (14, "~"), (0, "!!~~!!~~!!~~!!~")],
    ),
    (
        &[(7, "node"), (8, "@0")],
        &[(7, "5"), (9, "1A")],
        &[(7, "node"), (8, "@0"), (9, "1A")],
    ),
];

fn accepted() -> Vec<Stated> {
    let stated = |(site, office, names): (Entries, Entries, Entries)| Stated {
        site: list(site),
        office: list(office),
        gives: Ok(names.to_vec()),
    };
    ACCEPTED.map(stated).into()
}

/// Two lists of as many bytes as are read, with the longest names, even
/// addresses in the site's and odd ones in the office's. One address fills the
/// list, the others stand at its very end.
pub fn longest() -> [Vec<u8>; 2] {
    [14, 15].map(|filling| {
        let others = (0..filling).filter(|address| address % 2 == filling % 2);
        let others: Vec<u8> = others.collect();
        let entries = MOST_BYTES / (LONGEST_NAME + 1);
        let filling = vec![filling; entries - others.len()];
        let entry = |address: &u8| list(&[(*address, &format!("longest-name-{address:02}"))]);
        filling.iter().chain(&others).flat_map(entry).collect()
    })
}
