//! An image with a damaged field, which is refused, and how a person counts to
//! that field from the bit that the register gives.

use super::nets::put_and_take;
use super::{bytes_text, file, Example};
use crate::bits::{patch, BitReader, FieldAt};
use crate::image::write_with_fields;
use crate::register::register;
use crate::stored::Stored;

/// The directory's name.
pub const NAME: &str = "damaged_image";

/// The damaged image.
pub fn image() -> Vec<u8> {
    let (mut bytes, fields) = write_with_fields(&sound().net);
    patch(&mut bytes, fields[DAMAGED], PLACE);
    bytes
}

pub fn picks() -> Vec<u8> {
    sound().pick_bytes()
}

pub(super) fn files() -> Vec<Stored> {
    vec![
        file(NAME, "net.bin", image()),
        file(NAME, "picks.bin", picks()),
        file(NAME, "register.txt", printed().into_bytes()),
        file(NAME, "README.md", readme().into_bytes()),
    ]
}

/// The image's fields up to the damaged one.
const FIELDS: [&str; 13] = [
    "format",
    "address count",
    "code length",
    "n in the row of address 0",
    "rights over 0 in the row of address 0",
    "rights over 1 in the row of address 0",
    "n in the row of address 1",
    "rights over 0 in the row of address 1",
    "rights over 1 in the row of address 1",
    "process count of address 0",
    "place of the process of address 0",
    "process count of address 1",
    "place of the process of address 1",
];

const DAMAGED: usize = FIELDS.len() - 1;

/// What the damaged field holds; the code has four instructions.
const PLACE: u32 = 6;

// The example whose image it was.
fn sound() -> Example {
    put_and_take()
}

fn printed() -> String {
    register(&image(), &picks())
}

const ABOUT: &str = "\
The image of [put and take](../put_and_take) with one bit wrong, as a bad copy might have
it. It is refused: the process of address 1 would start at place 6, and there are four
instructions, at places 0 to 3. The register gives the number of the fault, 24, and the bit
at which the field at fault begins. A refused image leaves the empty net, and none of the
picks, which are those of put and take, is made.

There is no `net.txt` here, since the refusal of a text has a number and no bit.
";

const COUNTING: &str = "\
Bits are counted from 0, each byte from its most significant bit. Each bit width in the
layout of document 01 is one field; the four rights over an address together are one. So the
format, the address count and the code length have 4 + 5 + 10 = 19 bits, and a row of two
addresses has 1 + 2 * 4 = 9. After two rows, at bit 37, come 3 bits of process count and 9
bits of place for address 0, then 3 bits of process count for address 1, and its place begins
at bit 52.
";

fn readme() -> String {
    let (damaged, sound) = (bytes_text(&image()), bytes_text(&sound().image()));
    let (table, printed) = (table(), printed());
    format!(
        "# A damaged image\n\n{ABOUT}\n\
         ## The image\n\n\
         The bytes of `net.bin`:\n\n\
         ```\n{damaged}```\n\n\
         Those of the sound image, `../put_and_take/net.bin`, where the place is 2:\n\n\
         ```\n{sound}```\n\n\
         ## Counting to the bit\n\n{COUNTING}\n\
         {table}\n\
         ## The register\n\n\
         Run in this directory, `../../crates/register/out/register` prints what `register.txt` holds, and so does \
         `../../crates/unpack/out/unpack`, which would otherwise print the net as a text:\n\n\
         ```\n{printed}```\n"
    )
}

// The fields up to the damaged one, and their bits.
fn table() -> String {
    let (image, fields) = (image(), write_with_fields(&sound().net).1);
    let mut bits = BitReader::new(&image);
    let mut row = |(name, field): (&&str, &FieldAt)| {
        let (begins, width) = (field.first_bit, field.width);
        let number = bits.take(width).expect("the image is whole");
        format!("| {begins} | {name} | {width} | `{number:0width$b}` |\n")
    };
    let rows = FIELDS.iter().zip(&fields).map(&mut row);
    let head = "| begins at | field | width | bits |\n|---|---|---|---|\n";
    rows.fold(head.to_string(), |table, row| table + &row)
}

#[cfg(test)]
mod tests {
    use super::*;
    use crate::bits::Sort;
    use crate::image::{read_image, Fault, PLACE_OUT_OF_RANGE};

    #[test]
    fn the_image_is_at_fault_in_the_last_field_of_the_table() {
        let (number, bit) = (PLACE_OUT_OF_RANGE, 52);
        assert_eq!(read_image(&image()), Err(Fault { number, bit }));
        assert_eq!(printed(), "refused 24 at 52\n");
        let at_fault = write_with_fields(&sound().net).1[DAMAGED];
        assert_eq!((at_fault.sort, at_fault.first_bit), (Sort::Place, bit));
        let last = "| 52 | place of the process of address 1 | 9 | `000000110` |\n";
        assert!(table().ends_with(last));
    }

    /// With one bit as it was the image is sound again.
    #[test]
    fn one_bit_is_wrong() {
        let (damaged, sound) = (image(), sound().image());
        assert!(read_image(&sound).is_ok());
        let differing = damaged.iter().zip(&sound).map(|(one, other)| one ^ other);
        assert_eq!(differing.map(u8::count_ones).sum::<u32>(), 1);
        assert_eq!(damaged.len(), sound.len());
    }
}
