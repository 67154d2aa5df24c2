//! What a reader is told of an example's lists of names.

use super::{bytes_text, Example};
use crate::names::by_hand::list;
use crate::names::generate::Lists;
use crate::names::Names;

/// The entries of the site's list and of the office's.
pub struct NameEntries {
    pub site: &'static [(u8, &'static str)],
    pub office: &'static [(u8, &'static str)],
}

const ABOUT: &str = "\
Two lists beside the net name its stations: `site.bin` is the site's own, `office.bin` the
office's common one. An entry is a byte, 4 bits of address and 4 bits of length, and then so
many bytes of the name. The site's list goes first, and in a list the first entry for an
address; a station that is in neither has no name.
";

impl Example {
    /// Both files; neither where the example has no names.
    pub fn lists(&self) -> Lists {
        match &self.names {
            None => Lists::NEITHER,
            Some(NameEntries { site, office }) => Lists {
                site: Some(list(site)),
                office: Some(list(office)),
            },
        }
    }

    // The section of the README.
    pub(super) fn about_names(&self, entries: &NameEntries) -> String {
        let lists = self.lists();
        let [site, office] = lists.bytes();
        let names = Names::of(site, office).expect("an example's lists have no fault");
        let row = |address: u8| {
            let [site, office] = [entries.site, entries.office].map(|list| in_list(list, address));
            let name = shown(std::str::from_utf8(names.name(address)).expect("it is text"));
            format!("| {address} | {site} | {office} | {name} |\n")
        };
        let rows: String = (0..self.net.address_count).map(row).collect();
        format!(
            "## The names\n\n{ABOUT}\n\
             | address | in `site.bin` | in `office.bin` | name |\n|---|---|---|---|\n{rows}\n\
             The bytes of `site.bin`, and those of `office.bin`:\n\n\
             ```\n{}{}```\n\n",
            bytes_text(site),
            bytes_text(office)
        )
    }
}

// The names of an address in a list, in order.
fn in_list(list: &[(u8, &str)], address: u8) -> String {
    let of_address = list.iter().filter(|(of, _)| *of == address);
    let names: Vec<String> = of_address.map(|(_, name)| shown(name)).collect();
    names.join(", ")
}

fn shown(name: &str) -> String {
    match name {
        "" => String::new(),
        _ => format!("`{name}`"),
    }
}

#[cfg(test)]
mod tests {
    use crate::examples::examples;

    /// The site's name, the office's, the first of two, and none.
    #[test]
    fn the_register_has_the_names() {
        let all = examples();
        let named: Vec<_> = all.iter().filter(|one| one.names.is_some()).collect();
        let [example] = named[..] else {
            panic!("one example has names");
        };
        let register = example.register();
        let nodes: Vec<&str> = register
            .lines()
            .filter(|line| line.starts_with("node "))
            .collect();
        let expected = [
            "node 0 0 0 upper-gate",
            "node 1 0 0 pump-house",
            "node 2 1 0 spillway",
            "node 3 0 0",
        ];
        assert_eq!(nodes, expected);
    }
}
