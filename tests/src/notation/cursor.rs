//! The text still to be read, and its smallest parts: words and numbers.

use super::OUTSIDE;
use crate::image::ADDRESS_OUT_OF_RANGE;
use crate::net::{Locality, ADDRESSES, VARIABLES};

/// What is left of a text.
#[derive(Clone, Copy, Debug)]
pub struct Cursor<'a> {
    rest: &'a [u8],
}

impl<'a> Cursor<'a> {
    pub fn new(text: &'a [u8]) -> Cursor<'a> {
        Cursor { rest: text }
    }

    /// The next character; none at the end of the text.
    pub fn next(&self) -> Option<u8> {
        self.rest.first().copied()
    }

    /// Whether the text goes on with this word.
    pub fn goes_on(&self, word: &str) -> bool {
        self.rest.starts_with(word.as_bytes())
    }

    /// Whether the text goes on with digits, at least one, and this word.
    pub fn goes_on_after_digits(&self, word: &str) -> bool {
        let digits = self.digits();
        digits > 0 && self.rest[digits..].starts_with(word.as_bytes())
    }

    /// Passes over this word if the text goes on with it.
    pub fn take(&mut self, word: &str) -> bool {
        let there = self.goes_on(word);
        if there {
            self.rest = &self.rest[word.len()..];
        }
        there
    }

    /// Passes over this word, which has to be there.
    pub fn expect(&mut self, word: &str) -> Result<(), u8> {
        if self.take(word) {
            Ok(())
        } else {
            Err(OUTSIDE)
        }
    }

    /// A number up to `most`: all digits that stand here, at least one, and
    /// no nought before others.
    pub fn number(&mut self, most: u32) -> Result<u32, u8> {
        let (digits, rest) = self.rest.split_at(self.digits());
        let leading_zero = digits.len() > 1 && digits[0] == b'0';
        // Eleven digits without a leading zero are above every bound.
        if digits.is_empty() || leading_zero || digits.len() > 10 {
            return Err(OUTSIDE);
        }
        self.rest = rest;
        let value = digits
            .iter()
            .fold(0, |value: u64, digit| value * 10 + u64::from(digit - b'0'));
        match u32::try_from(value) {
            Ok(number) if number <= most => Ok(number),
            _ => Err(OUTSIDE),
        }
    }

    /// An address of a net with this count: 31 for its form or above 15, 23
    /// where it is not below the count.
    pub fn address(&mut self, count: u8) -> Result<Locality, u8> {
        let address = self.number(ADDRESSES as u32 - 1)? as u8;
        if address < count {
            Ok(Locality(address))
        } else {
            Err(ADDRESS_OUT_OF_RANGE)
        }
    }

    /// The number of a variable.
    pub fn variable(&mut self) -> Result<u8, u8> {
        Ok(self.number(VARIABLES as u32 - 1)? as u8)
    }

    /// A reading; nought has no minus.
    pub fn reading(&mut self) -> Result<i32, u8> {
        if !self.take("-") {
            return Ok(self.number(i32::MAX as u32)? as i32);
        }
        match self.number(i32::MIN.unsigned_abs())? {
            0 => Err(OUTSIDE),
            size => Ok((size as i32).wrapping_neg()),
        }
    }

    // The number of digits that stand here.
    fn digits(&self) -> usize {
        let other = self.rest.iter().position(|byte| !byte.is_ascii_digit());
        other.unwrap_or(self.rest.len())
    }
}

#[cfg(test)]
mod tests {
    use super::*;

    #[test]
    fn numbers_have_no_leading_zero_and_keep_their_bound() {
        let number = |text: &str, most| Cursor::new(text.as_bytes()).number(most);
        assert_eq!(number("0", 0), Ok(0));
        assert_eq!(number("15.", 15), Ok(15));
        assert_eq!(number("4294967295", u32::MAX), Ok(u32::MAX));
        let refused = ["", "a", "-1", "00", "01", "16", "4294967296", "99999999999"];
        assert!(refused.iter().all(|text| number(text, 15) == Err(31)));
        assert_eq!(number("4294967296", u32::MAX), Err(31));
        assert_eq!(number(&"1".repeat(1000), u32::MAX), Err(31));
    }

    #[test]
    fn readings_have_32_bits() {
        let reading = |text: &str| Cursor::new(text.as_bytes()).reading();
        assert_eq!(reading("0"), Ok(0));
        assert_eq!(reading("-1"), Ok(-1));
        assert_eq!(reading("2147483647"), Ok(i32::MAX));
        assert_eq!(reading("-2147483647"), Ok(i32::MIN + 1));
        assert_eq!(reading("-2147483648"), Ok(i32::MIN));
        let refused = ["2147483648", "-2147483649", "-0", "-", "--1", "-01", "01"];
        assert!(refused.iter().all(|text| reading(text) == Err(31)));
    }

    #[test]
    fn a_number_is_taken_whole() {
        let mut cursor = Cursor::new(b"12,3");
        assert_eq!(cursor.number(15), Ok(12));
        assert!(cursor.take(",") && !cursor.take(","));
        assert_eq!(cursor.address(3), Err(23));
        assert_eq!(cursor.next(), None);
    }

    #[test]
    fn digits_before_a_word() {
        let after = |text: &str| Cursor::new(text.as_bytes()).goes_on_after_digits(" has");
        assert!(after("0 has") && after("007 hash"));
        assert!(!after(" has") && !after("0 ha") && !after("a has") && !after("0"));
    }
}
