//! Fractions in lowest terms.

use std::cmp::Ordering;
use std::fmt;

/// A fraction in lowest terms; nought is 0/1.
#[derive(Clone, Copy, PartialEq, Eq, Debug)]
pub struct Fraction {
    over: u64,
    under: u64,
}

impl Fraction {
    /// The fraction of two numbers, none over nought.
    pub fn of(over: u64, under: u64) -> Option<Fraction> {
        if under == 0 {
            return None;
        }
        let common = common_divisor(over, under);
        let (over, under) = (over / common, under / common);
        Some(Fraction { over, under })
    }
}

// The greatest number that divides both, one of which is above 0.
fn common_divisor(one: u64, other: u64) -> u64 {
    match other {
        0 => one,
        _ => common_divisor(other, one % other),
    }
}

/// By value, without rounding.
impl Ord for Fraction {
    fn cmp(&self, other: &Fraction) -> Ordering {
        let product = |one: u64, other: u64| u128::from(one) * u128::from(other);
        product(self.over, other.under).cmp(&product(other.over, self.under))
    }
}

impl PartialOrd for Fraction {
    fn partial_cmp(&self, other: &Fraction) -> Option<Ordering> {
        Some(self.cmp(other))
    }
}

/// As in a line of a season.
impl fmt::Display for Fraction {
    fn fmt(&self, formatter: &mut fmt::Formatter) -> fmt::Result {
        write!(formatter, "{}/{}", self.over, self.under)
    }
}

#[cfg(test)]
mod tests {
    use super::*;

    fn text(over: u64, under: u64) -> String {
        Fraction::of(over, under)
            .expect("not over nought")
            .to_string()
    }

    #[test]
    fn lowest_terms_by_hand() {
        assert_eq!(text(0, 1), "0/1");
        assert_eq!(text(0, 65_536), "0/1");
        assert_eq!(text(2, 4), "1/2");
        assert_eq!(text(3, 1), "3/1");
        assert_eq!(text(6, 4), "3/2");
        assert_eq!(text(7, 7), "1/1");
        assert_eq!(text(65_535, 65_536), "65535/65536");
        assert_eq!(text(65_536_000, 65_536), "1000/1");
        assert_eq!(Fraction::of(0, 0), None);
        assert_eq!(Fraction::of(3, 0), None);
    }

    /// Of all small fractions: the value is kept, and no number above 1
    /// divides both parts.
    #[test]
    fn lowest_terms_of_small_fractions() {
        for under in 1..60 {
            for over in 0..60 {
                let lowest = Fraction::of(over, under).expect("not over nought");
                assert_eq!(lowest.over * under, over * lowest.under);
                let divides =
                    |number: &u64| lowest.over % number == 0 && lowest.under % number == 0;
                assert_eq!((2..60).find(divides), None);
            }
        }
    }

    /// Fractions that few bits cannot tell apart.
    #[test]
    fn the_order_is_exact() {
        let fraction = |over, under| Fraction::of(over, under).expect("not over nought");
        assert!(fraction(65_534, 65_535) < fraction(65_535, 65_536));
        assert!(fraction(1, 65_536) < fraction(1, 65_535));
        assert!(fraction(32_767, 65_535) < fraction(1, 2));
        assert!(fraction(32_768, 65_535) > fraction(1, 2));
        assert_eq!(fraction(65_536, 65_536), fraction(1, 1));
        let (most, less) = (u64::MAX, u64::MAX - 1);
        assert!(fraction(less, most) < fraction(most, most));
        assert!(fraction(1, most) < fraction(1, less));
    }
}
