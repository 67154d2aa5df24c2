//! The digest of bytes, by which test tools say what a net is.

const PRIME: u64 = (1 << 56) - 5;

/// The digest of bytes, as in crates/dump/src/digest.rt: from the first on,
/// the remainder by the prime of what was made so far, times 256, and the
/// byte.
pub fn digest(bytes: &[u8]) -> u64 {
    match bytes.split_last() {
        None => 0,
        Some((last, before)) => remainder(before) * 256 + u64::from(*last),
    }
}

// The remainder by the prime of the number that these bytes write, the
// highest first. As 2^56 leaves 5, seven bytes are taken at a time.
fn remainder(bytes: &[u8]) -> u64 {
    let number = |part: &[u8]| {
        part.iter()
            .fold(0, |number, byte| number << 8 | u64::from(*byte))
    };
    let (first, rest) = bytes.split_at(bytes.len() % 7);
    let sevens = rest.chunks_exact(7);
    sevens.fold(number(first), |left, seven| {
        (left * 5 + number(seven)) % PRIME
    })
}

#[cfg(test)]
mod tests {
    use super::*;
    use crate::dump::dump_state;
    use crate::net::Net;
    use crate::random::Random;

    // Byte by byte, as the program makes it.
    fn plain_digest(bytes: &[u8]) -> u64 {
        let add = |digest: u64, byte: &u8| digest % PRIME * 256 + u64::from(*byte);
        bytes.iter().fold(0, add)
    }

    #[test]
    fn seven_bytes_at_a_time_give_the_same_digest() {
        let mut random = Random::new(26);
        for length in (0..100).chain([12_819, 12_820]) {
            let mut bytes = vec![0xFF; length];
            assert_eq!(digest(&bytes), plain_digest(&bytes));
            bytes.fill_with(|| random.byte());
            assert_eq!(digest(&bytes), plain_digest(&bytes));
        }
    }

    #[test]
    fn digests_differ_where_bytes_do() {
        let bytes = dump_state(&Net::empty());
        let plain = digest(&bytes);
        for at in 0..bytes.len() {
            let mut other = bytes.clone();
            other[at] += 1;
            assert_ne!(digest(&other), plain, "byte {at}");
        }
    }
}
