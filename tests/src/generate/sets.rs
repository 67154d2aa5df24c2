//! Nets of format 2 in whose runs tuples are put to sets: some members full
//! or nearly so, some barred, the host among them or not, and none at all.

use super::{
    address, fill_processes, grant_needed, mark_tuples, place, row, set, set_origins, variables,
};
use crate::by_hand::{eval, fill, fork, new, out, out_to_set, readings, take, OWN};
use crate::net::*;
use crate::random::Random;

/// A net as an accepted image of format 2 gives it.
pub fn set_image_net(random: &mut Random) -> Net {
    let mut net = idle(random);
    fill_processes(random, &mut net);
    grant_needed(&mut net);
    net
}

/// A sound net of format 2, mostly one that no run reaches: rows that bar the
/// code, variables set and unset, processes from anywhere.
pub fn set_net(random: &mut Random) -> Net {
    let mut net = idle(random);
    let (count, length) = (net.address_count, net.code_length);
    for at in 0..count {
        for slot in 0..random.between(1, SLOTS) {
            let at_place = place(random, length);
            let mut process = Process::starting(at_place, Locality(at));
            if random.percent(70) {
                process.variables = variables(random, count);
            }
            net.nodes[at as usize].processes[slot] = process;
        }
    }
    mark_tuples(random, &mut net);
    set_origins(random, &mut net);
    net
}

// Rows, tuples and code.
fn idle(random: &mut Random) -> Net {
    let count = random.choose(&[1, 2, 2, 3, 3, 3, 4, 4, 5, 6, 14, 15, 16]);
    let length = random.between(3, 12) as u16;
    let mut net = Net::of(ROW_BY_ORIGIN, count, length);
    let fullest = random.choose(&[0, 15, 15, 40]);
    let generosities = [[100; 5], [100, 100, 100, 100, 60], [100, 100, 90, 80, 0]];
    let generosities = random.choose(&generosities);
    for at in 0..count as usize {
        for origin in 0..count as usize {
            let generosity = random.choose(&generosities);
            net.nodes[at].rows[origin] = row(random, count.into(), generosity);
        }
        let held = tuple_count(random, fullest);
        let tuples: Vec<Tuple> = (0..held).map(|_| some_tuple(random)).collect();
        fill(&mut net, at, &tuples);
    }
    for at in 0..length {
        net.code[at as usize] = instruction(random, count, length, at);
    }
    net
}

// In so many cases of a hundred there is no room.
fn tuple_count(random: &mut Random, full: usize) -> usize {
    match random.percent(full) {
        true => TUPLES,
        false => random.choose(&[0, 0, 1, 3, 13, 14, 15, 15]),
    }
}

fn some_tuple(random: &mut Random) -> Tuple {
    readings(&[random.below(4) as i32])
}

// Mostly outs to a set, and ins that make room.
fn instruction(random: &mut Random, count: u8, length: u16, at: u16) -> Instruction {
    let (next, other) = ((at + 1) % length, place(random, length).0);
    let far = Target::Written(address(random, count));
    match random.below(24) {
        0..=10 => to_some(random, count, next),
        11..=15 => take(OWN, &[TemplateField::FormalReading(0)], next),
        16 => take(far, &[TemplateField::FormalReading(1)], next),
        17 | 18 => eval(far, other, next),
        19 => fork(next, other),
        20 => new(2, next),
        21 => out(far, &[TemplateField::Own], next),
        22 => Instruction::STOP,
        _ => to_some(random, count, other),
    }
}

// An out to a set, with variables that may be unset.
fn to_some(random: &mut Random, count: u8, next: u16) -> Instruction {
    let fields = [
        TemplateField::Reading(random.below(4) as i32),
        random.choose(&[TemplateField::Own, TemplateField::Variable(0)]),
        TemplateField::Variable(random.choose(&[0, 0, 1, 2])),
    ];
    let first = random.choose(&[0, 0, 0, 1, 2]);
    let last = random.between(first, fields.len() - 1);
    let members: Vec<u8> = set(random, count).members().map(|one| one.0).collect();
    out_to_set(&members, &fields[first..=last], next)
}

#[cfg(test)]
mod tests {
    use super::*;
    use crate::by_hand::own_rows_alone;
    use crate::generate::picks;
    use crate::image::{read_image, write_image};
    use crate::sound::sound;
    use crate::step::{pick_address, pick_slot, step};

    #[test]
    fn those_of_images_are_accepted() {
        let mut random = Random::new(40);
        for _ in 0..500 {
            let net = set_image_net(&mut random);
            assert_eq!(read_image(&write_image(&net)), Ok(net));
        }
    }

    #[test]
    fn they_are_sound() {
        let mut random = Random::new(41);
        assert!((0..500).all(|_| sound(&set_net(&mut random))));
    }

    /// How often what is met at picks of outs to a set.
    #[derive(Default, Debug)]
    struct Met {
        answers: [usize; 11],
        /// Performed with the host among the members, to all addresses of
        /// several, and to none.
        host: usize,
        all: usize,
        none: usize,
        /// To none with a variable unset.
        none_unset: usize,
        /// Some but not all of several members full, barred, or both.
        some_full: usize,
        some_barred: usize,
        both: usize,
        /// By the origin alone, as the host's row for itself says otherwise.
        granted: usize,
        denied: usize,
    }

    impl Met {
        // Makes a pick and adds what it met.
        fn add(&mut self, net: &mut Net, byte: u8) {
            let host = pick_address(byte);
            let node = &net.nodes[host.0 as usize];
            let process = node.processes[pick_slot(byte) as usize];
            let action = net.code[process.at.0 as usize].action;
            let by_own_row = step(&mut own_rows_alone(net), byte);
            let row = *node.row_for(process.origin);
            let before = net.clone();
            let answer = step(net, byte);
            let (true, Action::OutToSet { members, .. }) = (process.busy && byte & 3 == 0, action)
            else {
                return;
            };
            self.answers[answer as usize] += 1;
            let size = members.members().count();
            let full = |member: &Locality| before.nodes[member.0 as usize].full();
            let barred = |member: &Locality| !row.over(*member).put;
            let full = members.members().filter(full).count();
            let barred = members.members().filter(barred).count();
            let some = |part: usize| usize::from(0 < part && part < size);
            match answer {
                0 => {
                    self.host += usize::from(members.members().any(|member| member == host));
                    self.all += usize::from(size > 1 && size == before.address_count.into());
                    self.none += usize::from(size == 0);
                }
                3 => self.some_full += some(full),
                4 => {
                    self.some_barred += some(barred);
                    self.both += some(full) * some(barred);
                }
                _ => self.none_unset += usize::from(answer == 6 && size == 0),
            }
            match (answer, by_own_row) {
                (0 | 3, 4) => self.granted += 1,
                (4, 0 | 3) => self.denied += 1,
                _ => {}
            }
        }
    }

    fn met(seed: u64, make: fn(&mut Random) -> Net) -> Met {
        let mut random = Random::new(seed);
        let mut met = Met::default();
        for _ in 0..500 {
            let mut net = make(&mut random);
            for byte in picks(&mut random, &net, 60) {
                met.add(&mut net, byte);
            }
        }
        met
    }

    #[test]
    fn all_that_can_be_met_at_a_set_is_met() {
        let met = met(42, set_net);
        let answers = [0, 3, 4, 6].map(|answer| met.answers[answer]);
        assert!(answers.iter().all(|count| *count > 300), "{met:?}");
        assert!(met.host > 300 && met.all > 50 && met.none > 50, "{met:?}");
        assert!(met.none_unset > 20, "{met:?}");
        assert!(met.some_full > 200 && met.some_barred > 100, "{met:?}");
        assert!(met.both > 30, "{met:?}");
        assert!(met.granted > 30 && met.denied > 30, "{met:?}");
    }

    /// What code needs at the members of its sets it has from its admission
    /// on, so that no run of an image meets 4 there.
    #[test]
    fn in_runs_of_images_no_set_is_barred() {
        let met = met(43, set_image_net);
        let answers = [0, 3, 6].map(|answer| met.answers[answer]);
        assert!(answers.iter().all(|count| *count > 300), "{met:?}");
        assert_eq!(met.answers[4], 0, "{met:?}");
        assert!(met.host > 300 && met.all > 50 && met.none > 50, "{met:?}");
        assert!(met.some_full > 200 && met.none_unset > 20, "{met:?}");
    }
}
