//! Runs by hand in format 2, where the row is chosen by the origin of the
//! code (document 02, slip 10): each with the answer to every pick and, where
//! that is what it shows, the net at the end.

mod acting;
mod at_16;
mod creating;
mod sending;

use crate::by_hand;
use crate::by_hand::{grant_from, in_format_2};
use crate::net::*;
use crate::replay::Run;

/// A run, and what is stated of it.
pub struct Stated {
    pub name: String,
    pub run: Run,
    /// The answers to its picks.
    pub answers: Vec<u8>,
    /// The net at its end, where it is stated.
    pub after: Option<Net>,
}

impl Stated {
    pub(crate) fn new(name: &str, net: Net, picks: &[u8], answers: &[u8]) -> Stated {
        let picks = picks.to_vec();
        Stated {
            name: name.to_string(),
            run: Run { net, picks },
            answers: answers.to_vec(),
            after: None,
        }
    }

    pub(crate) fn ending(self, after: Net) -> Stated {
        let after = Some(after);
        Stated { after, ..self }
    }
}

/// All of them.
pub fn all() -> Vec<Stated> {
    together([acting::all(), sending::all(), creating::all(), at_16::all()])
}

// The runs of several parts.
fn together<const N: usize>(parts: [Vec<Stated>; N]) -> Vec<Stated> {
    parts.into_iter().flatten().collect()
}

// Nets.

const OWN_ADDRESS: [TemplateField; 1] = [TemplateField::Own];
const HELD: Target = Target::Variable(0);

/// A net of format 2 with this code, one more stop, and neither rights nor
/// processes.
pub(crate) fn idle(addresses: u8, code: &[Instruction]) -> Net {
    let mut net = in_format_2(by_hand::net(addresses, code));
    net.nodes[0].processes[0] = Process::FREE;
    net
}

/// Starts a process of this origin at a place of a node.
pub(crate) fn start(net: &mut Net, at: usize, place: u16, origin: u8) {
    let slot = net.nodes[at].free_slot().expect("at most four processes");
    net.nodes[at].processes[slot] = Process::starting(Place(place), Locality(origin));
}

/// The same, with an address in its variable 0.
fn start_holding(net: &mut Net, at: usize, origin: u8, held: u8) {
    start(net, at, 0, origin);
    let slot = net.nodes[at].busy_slots() - 1;
    net.nodes[at].processes[slot].variables[0] = Value::Address(Locality(held));
}

/// Grants rights in each row of a node but that for one origin.
pub(crate) fn grant_all_but(net: &mut Net, by: usize, origin: usize, over: usize, rights: Rights) {
    let others = (0..net.row_count()).filter(|other| *other != origin);
    others.for_each(|other| grant_from(net, by, other, over, rights));
}

#[cfg(test)]
mod tests {
    use super::*;
    use crate::by_hand::own_rows_alone;
    use crate::sound::sound;
    use crate::step::pick;

    #[test]
    fn each_run_is_as_stated() {
        for Stated {
            name,
            run,
            answers,
            after,
        } in all()
        {
            let mut net = run.net;
            assert!(sound(&net) && net.format == ROW_BY_ORIGIN, "{name}");
            let found = run.picks.iter().map(|byte| pick(&mut net, *byte));
            assert_eq!(found.collect::<Vec<_>>(), answers, "{name}");
            assert!(sound(&net) && net.format == ROW_BY_ORIGIN, "{name}");
            if let Some(after) = after {
                assert_eq!(net, after, "{name}");
            }
        }
    }

    /// Judged by each node's row for itself, most runs have other answers.
    #[test]
    fn the_rows_for_other_origins_matter() {
        let same = |stated: &Stated| {
            let mut net = own_rows_alone(&stated.run.net);
            let mut picks = stated.run.picks.iter().zip(&stated.answers);
            picks.all(|(byte, answer)| pick(&mut net, *byte) == *answer)
        };
        let all = all();
        let same = all.iter().filter(|stated| same(stated)).count();
        assert!(same < all.len() / 2, "{same} of {}", all.len());
    }
}
