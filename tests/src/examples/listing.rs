//! What a reader is told of an example's listing.

use super::Example;
use crate::listing::{check_listing, printed, Age};

const ABOUT: &str = "\
What the old program printed of the same image and picks is in `listing.txt`. It pads its
numbers, and it knows neither the mark `from` nor the line `total`:
";

impl Example {
    /// What the program `check_listing` prints of a listing of this example.
    pub fn checked(&self, listing: &str, age: Age) -> String {
        let (image, picks) = (self.image(), self.pick_bytes());
        printed(check_listing(&image, &picks, listing.as_bytes(), age))
    }

    // The section of the README.
    pub(super) fn about_listing(&self, listing: &str) -> String {
        let [old, new] = Age::BOTH.map(|age| self.checked(listing, age));
        let (old, new) = (old.trim_end(), new.trim_end());
        format!(
            "\n## The old program's listing\n\n{ABOUT}\n\
             ```\n{listing}```\n\n\
             Run in this directory, `../../crates/check_listing/out/check_listing old` prints `{old}`: line by line the listing \
             carries the words and values of the register. `../../crates/check_listing/out/check_listing new` prints `{new}`, \
             the number of a line that differs and that line: a new listing has a mark there.\n"
        )
    }
}

#[cfg(test)]
mod tests {
    use crate::examples::examples;
    use crate::listing::Age;

    /// One example has a listing, which is an old one and no new one.
    #[test]
    fn the_listing_is_old() {
        let all = examples();
        let with = all.iter().filter_map(|one| Some((one, one.listing?)));
        let [(example, listing)] = with.collect::<Vec<_>>()[..] else {
            panic!("one example has a listing");
        };
        assert_eq!(example.name, "put_and_take");
        assert_eq!(example.checked(listing, Age::Old), "0\n");
        assert_eq!(example.checked(listing, Age::New), "41 10\n");
    }
}
