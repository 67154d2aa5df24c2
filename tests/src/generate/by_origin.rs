//! Nets of format 2 in whose runs code is sent, sent on and forked, opens
//! addresses and goes there, and in which what code may do rests on where it
//! came from.

use super::{address, fill_processes, grant_needed, row};
use crate::by_hand::{eval, fill, fork, new, one_address, out, read, take, OWN};
use crate::net::*;
use crate::random::Random;

/// A net as an accepted image of format 2 gives it. Each node holds addresses
/// in tuples, lets its own code do much, and code from elsewhere much, little
/// or nothing.
pub fn by_origin_net(random: &mut Random) -> Net {
    let count = random.choose(&[1, 2, 2, 3, 3, 3, 4, 5, 12, 14, 15, 16]);
    let starts = routines(random);
    let length = starts[starts.len() - 1];
    let mut net = Net::of(ROW_BY_ORIGIN, count, length);
    for at in 0..count {
        fill_node(random, &mut net, at.into());
    }
    fill_processes(random, &mut net);
    let processes = net.nodes.iter_mut().flat_map(|node| &mut node.processes);
    processes.for_each(|process| process.at = Place(0));
    fill_code(random, &mut net, &starts);
    grant_needed(&mut net);
    net
}

const HELD: Target = Target::Variable(0);
const HELD_FIELD: TemplateField = TemplateField::Variable(0);

// Where routines of a few instructions begin, and where the last one ends.
// The first has two.
fn routines(random: &mut Random) -> Vec<u16> {
    let mut starts = vec![0, 2];
    for _ in 0..random.between(2, 5) {
        starts.push(starts[starts.len() - 1] + random.between(1, 4) as u16);
    }
    starts
}

// The rows of a node, and three addresses in its store.
fn fill_node(random: &mut Random, net: &mut Net, at: usize) {
    let count = net.address_count;
    for origin in 0..count.into() {
        net.nodes[at].rows[origin] = some_row(random, count.into(), at == origin);
    }
    let held = [0; 3].map(|_| one_address(address(random, count).0));
    fill(net, at, &held);
}

// Each routine begins again at its end. In the first, where all processes
// start, a process gets an address and sends code there.
fn fill_code(random: &mut Random, net: &mut Net, starts: &[u16]) {
    let begins = &starts[..starts.len() - 1];
    for routine in starts.windows(2) {
        for at in routine[0]..routine[1] {
            let last = at + 1 == routine[1];
            let next = if last { routine[0] } else { at + 1 };
            net.code[at as usize] = instruction(random, net.address_count, begins, next);
        }
    }
    let held = [TemplateField::FormalAddress(0)];
    net.code[0] = random.choose(&[read(OWN, &held, 1), take(OWN, &held, 1), new(0, 1)]);
    net.code[1] = eval(HELD, random.choose(begins), 0);
}

// A node's row for itself, or for another origin.
fn some_row(random: &mut Random, count: usize, own: bool) -> Row {
    let generosity = match own {
        true => random.choose(&[100, 100, 90, 70]),
        false => random.choose(&[100, 100, 90, 70, 50, 0]),
    };
    row(random, count, generosity)
}

// An instruction that goes on to a place; what it sends or forks off begins
// at a routine.
fn instruction(random: &mut Random, count: u8, begins: &[u16], next: u16) -> Instruction {
    let (target, other) = (target(random, count), random.choose(begins));
    let held = [TemplateField::FormalAddress(random.choose(&[0, 0, 1]))];
    let put = [random.choose(&[TemplateField::Own, HELD_FIELD])];
    match random.below(20) {
        0..=4 => Instruction::STOP,
        5..=9 => eval(target, other, next),
        10 => new(random.choose(&[0, 0, 1]), next),
        11 => fork(next, other),
        12..=15 => out(target, &put, next),
        16 | 17 => read(target, &held, next),
        _ => take(target, &held, next),
    }
}

// Mostly an address that is held in a variable, which is judged only when
// the instruction runs.
fn target(random: &mut Random, count: u8) -> Target {
    match random.below(20) {
        0..=14 => HELD,
        15 => Target::Variable(1),
        16 | 17 => OWN,
        _ => Target::Written(address(random, count)),
    }
}

#[cfg(test)]
mod tests {
    use super::*;
    use crate::by_hand::own_rows_alone;
    use crate::generate::picks;
    use crate::image::{read_image, write_image};
    use crate::step::{pick_address, pick_slot, step};

    #[test]
    fn they_are_accepted() {
        let mut random = Random::new(32);
        for _ in 0..500 {
            let net = by_origin_net(&mut random);
            assert_eq!(read_image(&write_image(&net)), Ok(net));
        }
    }

    /// How often what is met in the runs.
    #[derive(Default, Debug)]
    struct Met {
        /// By the origin alone, as a node's row for itself says otherwise:
        /// an action granted and one denied, sent code admitted and refused.
        granted: usize,
        denied: usize,
        admitted: usize,
        refused: usize,
        /// Performed news, and those of them by code from elsewhere.
        news: usize,
        foreign_news: usize,
        /// Steps performed at addresses that were opened in the run, and
        /// evals there that were answered with 5.
        at_new: usize,
        refused_at_new: usize,
    }

    impl Met {
        // Makes a pick and adds what it met. So many addresses are the
        // image's.
        fn add(&mut self, net: &mut Net, byte: u8, of_image: u8) {
            let (host, count) = (pick_address(byte), net.address_count);
            let process = net.nodes[host.0 as usize].processes[pick_slot(byte) as usize];
            let by_own_row = step(&mut own_rows_alone(net), byte);
            let answer = step(net, byte);
            match (answer, by_own_row) {
                (0 | 2 | 3, 4) => self.granted += 1,
                (4, 0 | 2 | 3 | 5) => self.denied += 1,
                (0 | 3, 5) => self.admitted += 1,
                (5, 0 | 3) => self.refused += 1,
                _ => {}
            }
            let opened = net.address_count > count;
            self.news += usize::from(opened);
            self.foreign_news += usize::from(opened && process.origin != host);
            match answer {
                0 if host.0 >= of_image => self.at_new += 1,
                5 if host.0 >= of_image => self.refused_at_new += 1,
                _ => {}
            }
        }
    }

    #[test]
    fn origins_matter_in_their_runs() {
        let mut random = Random::new(33);
        let mut met = Met::default();
        for _ in 0..500 {
            let mut net = by_origin_net(&mut random);
            let of_image = net.address_count;
            for byte in picks(&mut random, &net, 100) {
                met.add(&mut net, byte, of_image);
            }
        }
        assert!(met.granted > 100 && met.denied > 100, "{met:?}");
        assert!(met.admitted > 50 && met.refused > 100, "{met:?}");
        assert!(met.news > 500 && met.foreign_news > 100, "{met:?}");
        assert!(met.at_new > 500 && met.refused_at_new > 20, "{met:?}");
    }
}
