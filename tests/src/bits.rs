//! Reading and writing bits, most significant first
//! (document 01, "The image").

/// The image bytes and the place of the next bit.
pub struct BitReader<'a> {
    bytes: &'a [u8],
    next: usize,
}

impl<'a> BitReader<'a> {
    pub fn new(bytes: &'a [u8]) -> BitReader<'a> {
        BitReader { bytes, next: 0 }
    }

    /// The next bit, counted from 0: the first of the field that is taken
    /// next.
    pub fn next_bit(&self) -> usize {
        self.next
    }

    /// The next `width` bits as a number (width at most 32),
    /// or nothing when they end too soon.
    pub fn take(&mut self, width: usize) -> Option<u32> {
        if self.bytes.len() * 8 - self.next < width {
            return None;
        }
        let mut number = 0;
        for _ in 0..width {
            number = number << 1 | self.bit();
        }
        Some(number)
    }

    /// Whether only zero bits to the end of the byte are left.
    pub fn only_padding_left(&mut self) -> bool {
        let left = self.bytes.len() * 8 - self.next;
        left < 8 && self.take(left) == Some(0)
    }

    fn bit(&mut self) -> u32 {
        let byte = self.bytes[self.next / 8];
        let bit = byte >> (7 - self.next % 8) & 1;
        self.next += 1;
        bit as u32
    }
}

/// The sorts of field an image is made of: one for each bit width in its
/// layout, the four rights over an address together one.
#[derive(Clone, Copy, PartialEq, Eq, Debug)]
pub enum Sort {
    Format,
    AddressCount,
    CodeLength,
    Create,
    Rights,
    ProcessCount,
    Place,
    TupleCount,
    FieldCount,
    TupleFieldKind,
    Reading,
    Address,
    Action,
    TargetKind,
    FieldKind,
    Variable,
    /// The 16 bits of a set, together one field.
    Members,
}

impl Sort {
    pub const ALL: [Sort; 17] = [
        Sort::Format,
        Sort::AddressCount,
        Sort::CodeLength,
        Sort::Create,
        Sort::Rights,
        Sort::ProcessCount,
        Sort::Place,
        Sort::TupleCount,
        Sort::FieldCount,
        Sort::TupleFieldKind,
        Sort::Reading,
        Sort::Address,
        Sort::Action,
        Sort::TargetKind,
        Sort::FieldKind,
        Sort::Variable,
        Sort::Members,
    ];
}

/// Where a field of an image lies.
#[derive(Clone, Copy, PartialEq, Eq, Debug)]
pub struct FieldAt {
    pub sort: Sort,
    pub first_bit: usize,
    pub width: usize,
}

impl FieldAt {
    /// The first bit after the field.
    pub fn end(&self) -> usize {
        self.first_bit + self.width
    }
}

/// The bytes written so far, and where each field lies in them.
#[derive(Default)]
pub struct BitWriter {
    bytes: Vec<u8>,
    next: usize,
    fields: Vec<FieldAt>,
}

impl BitWriter {
    /// Writes the last `width` bits of a number.
    pub fn put(&mut self, sort: Sort, width: usize, number: u32) {
        let field = FieldAt {
            sort,
            first_bit: self.next,
            width,
        };
        self.next += width;
        self.bytes.resize(self.next.div_ceil(8), 0);
        patch(&mut self.bytes, field, number);
        self.fields.push(field);
    }

    /// The bytes, filled up with zero bits, and the fields in them.
    pub fn finish(self) -> (Vec<u8>, Vec<FieldAt>) {
        (self.bytes, self.fields)
    }
}

/// Overwrites one field with the last bits of a number.
pub fn patch(bytes: &mut [u8], field: FieldAt, number: u32) {
    for step in 0..field.width {
        let bit = number >> (field.width - 1 - step) & 1;
        let place = field.first_bit + step;
        let mask = 0x80 >> (place % 8);
        if bit == 1 {
            bytes[place / 8] |= mask;
        } else {
            bytes[place / 8] &= !mask;
        }
    }
}

#[cfg(test)]
mod tests {
    use super::*;

    #[test]
    fn bits_are_read_most_significant_first() {
        let mut bits = BitReader::new(&[0b1010_0111, 0b1000_0000]);
        assert_eq!(bits.take(3), Some(0b101));
        assert_eq!(bits.take(6), Some(0b001111));
        assert_eq!(bits.take(8), None);
        assert!(bits.only_padding_left());
    }

    #[test]
    fn reading_past_the_end_takes_nothing() {
        let mut bits = BitReader::new(&[0xFF]);
        assert_eq!(bits.take(9), None);
        assert_eq!(bits.take(8), Some(0xFF));
        assert_eq!(bits.take(1), None);
        assert_eq!(bits.take(0), Some(0));
    }

    #[test]
    fn each_field_begins_where_the_last_one_ends() {
        let mut bits = BitReader::new(&[0xFF, 0xFF]);
        assert_eq!(bits.next_bit(), 0);
        bits.take(5);
        assert_eq!(bits.next_bit(), 5);
        // One that ends too soon leaves its first bit the next.
        assert_eq!(bits.take(12), None);
        assert_eq!(bits.next_bit(), 5);
        bits.take(11);
        assert_eq!((bits.take(1), bits.next_bit()), (None, 16));
    }

    #[test]
    fn a_whole_byte_is_not_padding() {
        assert!(!BitReader::new(&[0]).only_padding_left());
        assert!(BitReader::new(&[]).only_padding_left());
        let mut bits = BitReader::new(&[0b1000_0001]);
        bits.take(1);
        assert!(!bits.only_padding_left());
    }

    #[test]
    fn what_is_written_is_read_again() {
        let mut bits = BitWriter::default();
        bits.put(Sort::Format, 4, 0x31);
        bits.put(Sort::Reading, 32, 0xFFFF_FFFE);
        bits.put(Sort::Place, 9, 257);
        let (mut bytes, fields) = bits.finish();
        assert_eq!(bytes.len(), 6);
        patch(&mut bytes, fields[0], 7);
        let mut bits = BitReader::new(&bytes);
        assert_eq!(bits.take(4), Some(7));
        assert_eq!(bits.take(32), Some(0xFFFF_FFFE));
        assert_eq!(bits.take(9), Some(257));
        assert!(bits.only_padding_left());
    }
}
