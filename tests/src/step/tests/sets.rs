//! Outs to a set in random runs: all members receive the tuple or none does.

use super::*;
use crate::generate::{net_after_picks_of, picks, set_net};
use crate::random::Random;

// The members and the next place where a pick is of an out to a set.
fn set_of(net: &Net, byte: u8) -> Option<(Set, Place)> {
    let node = &net.nodes[pick_address(byte).0 as usize];
    let process = &node.processes[pick_slot(byte) as usize];
    match net.code[process.at.0 as usize].action {
        Action::OutToSet { members, next } if process.busy && byte & 3 == 0 => {
            Some((members, next))
        }
        _ => None,
    }
}

// The tuple that the instruction of a pick puts, field by field.
fn tuple_of(net: &Net, byte: u8) -> Tuple {
    let host = pick_address(byte);
    let process = net.nodes[host.0 as usize].processes[pick_slot(byte) as usize];
    let instruction = &net.code[process.at.0 as usize];
    let mut tuple = Tuple::ZERO.marked(host);
    tuple.count = instruction.count;
    for index in 0..instruction.count as usize {
        tuple.fields[index] = match instruction.fields[index] {
            TemplateField::Reading(reading) => Field::Reading(reading),
            TemplateField::Address(address) => Field::Address(address),
            TemplateField::Own => Field::Address(host),
            TemplateField::Variable(variable) => match process.variables[variable as usize] {
                Value::Reading(reading) => Field::Reading(reading),
                Value::Address(address) => Field::Address(address),
                Value::Unset => panic!("it was performed"),
            },
            formal => panic!("{formal:?}"),
        };
    }
    tuple
}

/// Where the answer is 0, each member has the tuple as its newest, nothing
/// else changes but the place of the process, and the total grows by the
/// number of members; otherwise nothing changes at all.
#[test]
fn all_or_none() {
    let mut random = Random::new(44);
    let mut met = [0; 2];
    for index in 0..600 {
        let mut net = match index % 4 {
            0 => net_after_picks_of(&mut random, ROW_BY_ORIGIN),
            _ => set_net(&mut random),
        };
        for byte in picks(&mut random, &net, 40) {
            let before = net.clone();
            let answer = pick(&mut net, byte);
            let Some((set, next)) = set_of(&before, byte) else {
                continue;
            };
            met[usize::from(answer != 0)] += 1;
            if answer != 0 {
                assert_eq!(net, before);
                continue;
            }
            let mut expected = before.clone();
            for at in 0..ADDRESSES {
                if set.0 >> (15 - at) & 1 == 1 {
                    let node = &mut expected.nodes[at];
                    node.tuples[node.tuple_count as usize] = tuple_of(&before, byte);
                    node.tuple_count += 1;
                }
            }
            let host = &mut expected.nodes[pick_address(byte).0 as usize];
            host.processes[pick_slot(byte) as usize].at = next;
            assert_eq!(net, expected);
            assert_eq!(total(&net), total(&before) + set.0.count_ones());
        }
    }
    assert!(met.iter().all(|count| *count > 500), "{met:?}");
}

fn total(net: &Net) -> u32 {
    net.nodes
        .iter()
        .map(|node| u32::from(node.tuple_count))
        .sum()
}
