//! The names of a text: which are used, what each stands for.

use super::draft::Entry;
use super::{NAME, NAMES};
use crate::net::Place;

/// The names met so far.
pub struct Names {
    used: [bool; NAMES],
    bodies: [Option<Entry>; NAMES],
    twice: bool,
}

/// The first instruction of each name's body; none for a name without one.
pub struct Firsts([Option<usize>; NAMES]);

impl Names {
    pub fn new() -> Names {
        Names {
            used: [false; NAMES],
            bodies: [None; NAMES],
            twice: false,
        }
    }

    pub fn use_name(&mut self, name: u16) {
        self.used[name as usize] = true;
    }

    pub fn define(&mut self, name: u16, body: Entry) {
        self.twice |= self.bodies[name as usize].is_some();
        self.bodies[name as usize] = Some(body);
    }

    /// What the names stand for: 33 where one is used and not defined, is
    /// defined twice, or stands in a circle of bare names.
    pub fn firsts(&self) -> Result<Firsts, u8> {
        let both = self.used.iter().zip(&self.bodies);
        let undefined = both.filter(|(used, body)| **used && body.is_none());
        if self.twice || undefined.count() > 0 {
            return Err(NAME);
        }
        let mut firsts = Firsts([None; NAMES]);
        for (first, body) in firsts.0.iter_mut().zip(self.bodies) {
            if let Some(entry) = body {
                *first = Some(self.follow(entry)?);
            }
        }
        Ok(firsts)
    }

    // The instruction that an entry leads to. More bare names one after
    // another than there are names stand in a circle.
    fn follow(&self, entry: Entry) -> Result<usize, u8> {
        let mut entry = entry;
        for _ in 0..=NAMES {
            match entry {
                Entry::At(number) => return Ok(number),
                Entry::Named(name) => entry = self.bodies[name as usize].ok_or(NAME)?,
            }
        }
        Err(NAME)
    }
}

impl Firsts {
    /// The place of an entry, in code of at most 512 instructions.
    pub fn place(&self, entry: Entry) -> Place {
        let number = match entry {
            Entry::At(number) => number,
            Entry::Named(name) => {
                let first = self.0[name as usize];
                first.expect("a name that is used is defined")
            }
        };
        Place(number as u16)
    }
}
