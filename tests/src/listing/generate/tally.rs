//! What listings were answered with.

use crate::listing::Fault;
use std::collections::{BTreeMap, BTreeSet};
use std::fmt;

/// The lines that each number was met at, one for each listing; 0 is met at
/// no line and counted at line 0.
#[derive(Default)]
pub struct Tally {
    met: BTreeMap<u8, Vec<usize>>,
}

impl Tally {
    pub fn of(answers: impl IntoIterator<Item = Result<(), Fault>>) -> Tally {
        let mut tally = Tally::default();
        for answer in answers {
            let (number, line) =
                answer.map_or_else(|fault| (fault.number, fault.line), |()| (0, 0));
            tally.met.entry(number).or_default().push(line);
        }
        tally
    }

    /// How many listings were answered with a number.
    pub fn count(&self, number: u8) -> usize {
        self.met.get(&number).map_or(0, Vec::len)
    }

    /// At how many different lines a number was met.
    pub fn lines(&self, number: u8) -> usize {
        let lines = self.met.get(&number).into_iter().flatten();
        lines.collect::<BTreeSet<_>>().len()
    }
}

impl fmt::Display for Tally {
    fn fmt(&self, formatter: &mut fmt::Formatter) -> fmt::Result {
        let one = |number: &u8| {
            let (count, lines) = (self.count(*number), self.lines(*number));
            format!("{number}: {count} listings, {lines} lines")
        };
        let all: Vec<String> = self.met.keys().map(one).collect();
        formatter.write_str(&all.join("; "))
    }
}
