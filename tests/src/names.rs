//! Station names (document 02, slip 14): the site's list and the office's.

pub mod by_hand;
pub mod generate;

pub const NO_LENGTH: u8 = 51;
pub const ENTRY_CUT: u8 = 52;
pub const BYTE_OUT_OF_RANGE: u8 = 53;

/// The programs read no more bytes of a list than these.
pub const MOST_BYTES: usize = 65_536;

/// A name has no more bytes than these.
pub const LONGEST_NAME: usize = 15;

/// An entry of a list.
#[derive(Clone, Copy, PartialEq, Eq, Debug)]
pub struct Entry<'a> {
    pub address: u8,
    pub name: &'a [u8],
}

/// The entries of a list, or the number of its first fault.
pub fn entries(list: &[u8]) -> Result<Vec<Entry<'_>>, u8> {
    let mut entries = Vec::new();
    let mut rest = list;
    while let Some((head, after)) = rest.split_first() {
        let (entry, after) = entry(*head, after)?;
        entries.push(entry);
        rest = after;
    }
    Ok(entries)
}

// An entry by its first byte, and what comes after it.
fn entry(head: u8, after: &[u8]) -> Result<(Entry<'_>, &[u8]), u8> {
    let (address, length) = (head >> 4, usize::from(head & 15));
    if length == 0 {
        return Err(NO_LENGTH);
    }
    let (name, rest) = after.split_at_checked(length).ok_or(ENTRY_CUT)?;
    if name.iter().any(|byte| !(33..=126).contains(byte)) {
        return Err(BYTE_OUT_OF_RANGE);
    }
    Ok((Entry { address, name }, rest))
}

/// The entries of both lists.
#[derive(Clone, PartialEq, Eq, Debug, Default)]
pub struct Names<'a> {
    pub site: Vec<Entry<'a>>,
    pub office: Vec<Entry<'a>>,
}

impl<'a> Names<'a> {
    /// Both lists, or the number of the first fault, the site's first.
    pub fn of(site: &'a [u8], office: &'a [u8]) -> Result<Names<'a>, u8> {
        let (site, office) = (entries(site)?, entries(office)?);
        Ok(Names { site, office })
    }

    /// The name of an address: by the first entry for it in the site's list
    /// or, failing that, in the office's. Empty where there is none.
    pub fn name(&self, address: u8) -> &'a [u8] {
        let mut both = self.site.iter().chain(&self.office);
        let entry = both.find(|entry| entry.address == address);
        entry.map_or(&[], |entry| entry.name)
    }
}

/// The names that the programs give by the files site.bin and office.bin, and
/// what they say on standard error. Refused lists give no names.
pub fn names_by<'a>(site: &'a [u8], office: &'a [u8]) -> (Names<'a>, String) {
    let [site, office] = [site, office].map(|list| &list[..list.len().min(MOST_BYTES)]);
    match Names::of(site, office) {
        Ok(names) => (names, String::new()),
        Err(number) => (Names::default(), format!("names refused {number}\n")),
    }
}

#[cfg(test)]
mod tests;
