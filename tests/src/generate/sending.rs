//! Nets in whose runs code is sent, sent on and forked often.

use super::{address, fill_processes, place};
use crate::by_hand::{eval, fork, grant, grant_create, new, out, OWN};
use crate::net::*;
use crate::random::Random;

/// A net as an accepted image of either format gives it, with all rights and
/// code of mostly evals, forks and stops.
pub fn sending_net(random: &mut Random) -> Net {
    let count = random.choose(&[2, 3, 3, 4, 5, 15, 16]);
    let length = random.between(4, 16) as u16;
    let mut net = Net::of(random.choose(&FORMATS), count as u8, length);
    for at in 0..count {
        grant_create(&mut net, at);
        (0..count).for_each(|over| grant(&mut net, at, over, Rights::ALL));
    }
    fill_processes(random, &mut net);
    for at in 0..net.code_length as usize {
        net.code[at] = instruction(random, &net);
    }
    net.code[0] = send(random, &net);
    net
}

fn instruction(random: &mut Random, net: &Net) -> Instruction {
    let (next, other) = (any(random, net), any(random, net));
    match random.below(20) {
        0..=6 => Instruction::STOP,
        7..=13 => send(random, net),
        14..=17 => fork(next, other),
        18 => new(0, next),
        _ => out(OWN, &[TemplateField::Own], next),
    }
}

// An eval at any address in use, or at self.
fn send(random: &mut Random, net: &Net) -> Instruction {
    let target = match random.below(8) {
        0 => OWN,
        _ => Target::Written(address(random, net.address_count)),
    };
    eval(target, any(random, net), any(random, net))
}

// Any place in the code.
fn any(random: &mut Random, net: &Net) -> u16 {
    place(random, net.code_length).0
}

#[cfg(test)]
mod tests {
    use super::*;
    use crate::generate::picks;
    use crate::image::{read_image, write_image};
    use crate::step::{pick_address, pick_slot, step};

    #[test]
    fn they_are_accepted() {
        let mut random = Random::new(24);
        for _ in 0..500 {
            let net = sending_net(&mut random);
            assert_eq!(read_image(&write_image(&net)), Ok(net));
        }
    }

    /// How often code from another node is sent on to another address,
    /// forks, and stops.
    #[test]
    fn code_from_other_nodes_is_sent_on_forked_and_stopped() {
        let mut random = Random::new(25);
        let mut met = [0; 3];
        for _ in 0..800 {
            let mut net = sending_net(&mut random);
            for byte in picks(&mut random, &net, 60) {
                let sort = foreign_step(&net, byte);
                if let (Some(sort), 0 | 1) = (sort, step(&mut net, byte)) {
                    met[sort] += 1;
                }
            }
        }
        assert!(met.iter().all(|count| *count > 100), "{met:?}");
    }

    // Which of the three a pick of code from another node would be.
    fn foreign_step(net: &Net, byte: u8) -> Option<usize> {
        let host = pick_address(byte);
        let node = &net.nodes[host.0 as usize];
        let process = &node.processes[pick_slot(byte) as usize];
        if !process.busy || process.origin == host {
            return None;
        }
        match net.code[process.at.0 as usize].action {
            Action::Eval { target, .. } => {
                let own = target == Target::Own || target == Target::Written(host);
                (!own).then_some(0)
            }
            Action::Fork { .. } => Some(1),
            Action::Stop => Some(2),
            _ => None,
        }
    }
}
