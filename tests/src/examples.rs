//! Seven small nets that a person can follow, with picks and register, one of
//! them with a listing of the old program, one with names and two of format 2,
//! and an image that is refused. They are stored below `examples`.

pub mod damaged;
mod listing;
pub mod names;
mod nets;
mod origins;
mod sets;

use crate::image::{read_image, write_image};
use crate::names::names_by;
use crate::net::*;
use crate::register::register_named;
use crate::step::{pick, pick_address, pick_slot};
use crate::stored::Stored;
use names::NameEntries;
use std::fmt::Write;

/// A net and its picks, with what a reader is told of them.
pub struct Example {
    /// The directory's name.
    pub name: &'static str,
    pub title: &'static str,
    /// What the example shows.
    pub about: &'static str,
    /// The net in the planners' notation.
    pub text: &'static str,
    /// The same net, written by hand.
    pub net: Net,
    /// Each pick, and what it does.
    pub picks: &'static [(u8, &'static str)],
    /// What the old program printed of it, where that is shown.
    pub listing: Option<&'static str>,
    /// The names of its stations, where it has lists of them.
    pub names: Option<NameEntries>,
}

/// All examples with an accepted net.
pub fn examples() -> Vec<Example> {
    vec![
        nets::put_and_take(),
        nets::moved_process(),
        nets::new_address(),
        nets::tenant(),
        nets::named_stations(),
        origins::rows_by_origin(),
        sets::flood_warning(),
    ]
}

/// The files of all examples.
pub fn stored_files() -> Vec<Stored> {
    let accepted = examples();
    let files = accepted.iter().flat_map(Example::files);
    files.chain(damaged::files()).collect()
}

// A file of an example.
fn file(example: &str, name: &str, content: Vec<u8>) -> Stored {
    let path = format!("examples/{example}/{name}");
    Stored { path, content }
}

// The bytes of a file on one line.
fn bytes_text(bytes: &[u8]) -> String {
    let bytes: Vec<String> = bytes.iter().map(|byte| format!("{byte:02X}")).collect();
    bytes.join(" ") + "\n"
}

impl Example {
    pub fn image(&self) -> Vec<u8> {
        write_image(&self.net)
    }

    pub fn pick_bytes(&self) -> Vec<u8> {
        self.picks.iter().map(|(pick, _)| *pick).collect()
    }

    pub fn register(&self) -> String {
        let lists = self.lists();
        let [site, office] = lists.bytes();
        let (names, _) = names_by(site, office);
        register_named(&self.image(), &self.pick_bytes(), &names)
    }

    fn files(&self) -> Vec<Stored> {
        let file = |name: &str, content| file(self.name, name, content);
        let mut files = vec![
            file("net.bin", self.image()),
            file("net.txt", self.text.as_bytes().to_vec()),
            file("picks.bin", self.pick_bytes()),
            file("register.txt", self.register().into_bytes()),
            file("README.md", self.readme().into_bytes()),
        ];
        if let Some(listing) = self.listing {
            files.push(file("listing.txt", listing.as_bytes().to_vec()));
        }
        let lists = self.lists();
        let lists = lists.files().map(|(name, list)| file(name, list.to_vec()));
        files.extend(lists);
        files
    }

    fn readme(&self) -> String {
        let (title, about, net) = (self.title, self.about, self.about_net());
        let (table, register) = (self.table(), self.register());
        let rows_after = match self.net.format {
            ROW_BY_ORIGIN => self.about_rows_after(),
            _ => String::new(),
        };
        let names = self.names.as_ref();
        let names = names.map_or(String::new(), |entries| self.about_names(entries));
        let listing = self
            .listing
            .map_or(String::new(), |text| self.about_listing(text));
        format!(
            "# {title}\n\n{about}\n\
             ## The net\n\n{net}\
             ## The picks\n\n\
             One byte each in `picks.bin`.\n\n\
             {table}\n\
             {rows_after}{names}\
             ## The register\n\n\
             Run in this directory, `../../crates/register/out/register` prints what `register.txt` holds, and so does \
             `../../crates/register_text/out/register_text`, which reads the text:\n\n\
             ```\n{register}```\n{listing}"
        )
    }

    fn about_net(&self) -> String {
        let text = self.text;
        let format = match self.net.format {
            ROW_BY_ORIGIN => " of format 2",
            _ => "",
        };
        format!(
            "In the planners' notation, as `net.txt` has it; `net.bin` holds the same net as an image{format}, which \
             `../../crates/pack/out/pack` makes of the text. Of the image `../../crates/unpack/out/unpack` makes a text again, \
             with one definition for each instruction.\n\n\
             ```\n{text}```\n\n"
        )
    }

    // The net at the end of the picks.
    fn net_after(&self) -> Net {
        let mut net = self.net.clone();
        for byte in self.pick_bytes() {
            pick(&mut net, byte);
        }
        net
    }

    // The picks one by one, as a table.
    fn table(&self) -> String {
        let mut net = read_image(&self.image()).expect("an example's image is accepted");
        let mut text = String::from(
            "| pick | byte | address | slot | what it does | answer |\n|---|---|---|---|---|---|\n",
        );
        for (index, (byte, does)) in self.picks.iter().enumerate() {
            let (number, address, slot) = (index + 1, pick_address(*byte).0, pick_slot(*byte));
            let answer = pick(&mut net, *byte);
            let row = format!("| {number} | {byte:02X} | {address} | {slot} | {does} | {answer} |");
            writeln!(text, "{row}").expect("a string takes every line");
        }
        text
    }
}

#[cfg(test)]
mod tests {
    use super::*;
    use crate::notation::read_text;

    /// Each text gives the very net of its image, instruction by
    /// instruction.
    #[test]
    fn the_texts_give_the_nets_of_the_images() {
        for example in examples() {
            let image = read_image(&example.image());
            assert_eq!(image.as_ref(), Ok(&example.net), "{}", example.name);
            assert_eq!(read_text(example.text.as_bytes()), Ok(example.net));
        }
    }
}
