//! The origins of processes: which a step gives, which it keeps, which are
//! not sound, and that in format 1 no answer rests on the others.

use super::*;
use crate::generate::{picks, set_origins, sound_net_of, without_origins};
use crate::random::Random;

const FIVE: [TemplateField; 1] = [TemplateField::Reading(5)];

/// A net of three addresses whose rows hold all rights over all three.
fn three(code: &[Instruction]) -> Net {
    let mut net = net(3, code);
    for at in 0..3 {
        grant_create(&mut net, at);
        (0..3).for_each(|over| grant(&mut net, at, over, Rights::ALL));
    }
    net
}

/// The same with a process that stands at place 0 of this address alone and
/// has this origin.
fn hosted(code: &[Instruction], host: u8, origin: u8) -> Net {
    let mut net = three(code);
    net.nodes[0].processes[0] = Process::FREE;
    net.nodes[host as usize].processes[0] = Process::starting(Place(0), Locality(origin));
    net
}

/// The origin of a busy slot.
fn origin(net: &Net, at: usize, slot: usize) -> u8 {
    let process = &net.nodes[at].processes[slot];
    assert!(process.busy);
    process.origin.0
}

/// Whatever the origin of the code that sends it, and to its own node too.
#[test]
fn sent_code_has_the_host_of_the_eval_as_origin() {
    for host in 0..3 {
        for target in 0..3 {
            for before in 0..3 {
                let mut net = hosted(&[eval(written(target), 1, 1)], host, before);
                assert_eq!(pick(&mut net, host << 4), 0);
                let slot = if target == host { 1 } else { 0 };
                assert_eq!(origin(&net, target.into(), slot), host);
                assert_eq!(origin(&net, host.into(), 0), before);
            }
        }
    }
}

/// Node 0 sends to 1, and the code there sends on to 2.
#[test]
fn code_sent_on_has_the_node_between_as_origin() {
    let mut net = three(&[eval(FAR, 1, 2), eval(written(2), 2, 2)]);
    assert_eq!(pick(&mut net, 0), 0);
    assert_eq!(origin(&net, 1, 0), 0);
    assert_eq!(pick(&mut net, 0x10), 0);
    assert_eq!(origin(&net, 2, 0), 1);
    assert_eq!([origin(&net, 0, 0), origin(&net, 1, 0)], [0, 0]);
    assert!(sound(&net));
}

/// Node 0 sends to 1, and the code there sends back: it does not get its
/// first origin again.
#[test]
fn code_sent_back_has_the_other_node_as_origin() {
    let mut net = three(&[eval(FAR, 1, 2), eval(written(0), 2, 2)]);
    assert_eq!([pick(&mut net, 0), pick(&mut net, 0x10)], [0, 0]);
    assert_eq!([origin(&net, 0, 0), origin(&net, 0, 1)], [0, 1]);
}

/// Self is the host, wherever the code came from.
#[test]
fn sent_code_that_evals_at_self_gives_the_node_where_it_runs() {
    let mut net = three(&[eval(FAR, 1, 2), eval(OWN, 2, 2)]);
    assert_eq!([pick(&mut net, 0), pick(&mut net, 0x10)], [0, 0]);
    assert_eq!([origin(&net, 1, 0), origin(&net, 1, 1)], [0, 1]);
}

/// Both branches, and the branches of a branch: neither address 0 nor the
/// node where they run.
#[test]
fn a_fork_of_sent_code_keeps_its_origin() {
    let mut net = hosted(&[eval(written(2), 1, 2), fork(1, 1)], 1, 1);
    assert_eq!(pick(&mut net, 0x10), 0);
    for (picked, busy) in [(0x20, 2), (0x24, 3), (0x20, 4)] {
        assert_eq!(pick(&mut net, picked), 0);
        assert_eq!(net.nodes[2].busy_slots(), busy);
        assert!((0..busy).all(|slot| origin(&net, 2, slot) == 1));
    }
    let mut starting = hosted(&[fork(1, 0)], 2, 2);
    assert_eq!(pick(&mut starting, 0x20), 0);
    assert_eq!([origin(&starting, 2, 0), origin(&starting, 2, 1)], [2, 2]);
}

/// The whole record is zero again, and the next process there has its own
/// origin.
#[test]
fn a_stop_frees_to_origin_0() {
    let mut net = hosted(&[eval(written(2), 2, 1), eval(written(2), 2, 2)], 1, 1);
    assert_eq!(pick(&mut net, 0x10), 0);
    assert_eq!(origin(&net, 2, 0), 1);
    assert_eq!(pick(&mut net, 0x20), 1);
    assert_eq!(net.nodes[2].processes[0], Process::FREE);
    assert_eq!(net.nodes[2].processes[0].origin, Locality(0));
    assert_eq!([pick(&mut net, 0x20), pick(&mut net, 0x10)], [7, 0]);
    assert_eq!(origin(&net, 2, 0), 1);
}

/// Out, read, in, new, eval and the first branch of a fork; a new address
/// has no process.
#[test]
fn every_other_step_keeps_the_origin() {
    let code = [
        out(OWN, &FIVE, 1),
        read(OWN, &FIVE, 2),
        take(OWN, &FIVE, 3),
        new(0, 4),
        eval(HELD, 6, 5),
        fork(6, 6),
    ];
    for kept in 0..3 {
        let mut net = hosted(&code, 1, kept);
        for place in 1..=6 {
            assert_eq!(pick(&mut net, 0x10), 0);
            assert_eq!(net.nodes[1].processes[0].at, Place(place));
            assert_eq!(origin(&net, 1, 0), kept);
            assert!(place != 4 || net.nodes[3].processes == [Process::FREE; SLOTS]);
        }
        assert_eq!([origin(&net, 3, 0), origin(&net, 1, 1)], [1, kept]);
        assert!(sound(&net));
    }
}

/// The origin may be an address opened only now.
#[test]
fn code_sent_from_a_new_address_has_it_as_origin() {
    let code = [new(0, 1), eval(HELD, 2, 3), eval(written(0), 3, 3)];
    let mut net = net(15, &code);
    grant_create(&mut net, 0);
    grant(&mut net, 0, 0, SEND);
    assert_eq!([0, 0, 0xF0].map(|byte| pick(&mut net, byte)), [0; 3]);
    assert_eq!([origin(&net, 15, 0), origin(&net, 0, 1)], [0, 15]);
    assert!(sound(&net));
}

/// Not below the address count, or not 0 in a free slot.
#[test]
fn an_unsound_origin_is_10() {
    let sound = three(&[]);
    for (at, slot, bad) in [
        (0, 0, 3),
        (0, 0, 16),
        (0, 0, 255),
        (0, 1, 1),
        (0, 3, 3),
        (2, 0, 2),
        (3, 0, 1),
        (15, 3, 15),
    ] {
        let mut damaged = sound.clone();
        damaged.nodes[at].processes[slot].origin = Locality(bad);
        assert_eq!(unchanged(&damaged), 10);
    }
    for good in 0..3 {
        let mut net = sound.clone();
        net.nodes[0].processes[0].origin = Locality(good);
        assert_eq!(picked(&net).0, 1);
    }
}

/// Two sound nets of format 1 that differ in nothing but origins answer the
/// same to every pick, and still differ in nothing but origins.
#[test]
fn no_answer_rests_on_an_origin() {
    let mut random = Random::new(22);
    let mut differ = 0;
    for _ in 0..300 {
        let mut net = sound_net_of(&mut random, SINGLE_ROW);
        let mut other = net.clone();
        set_origins(&mut random, &mut other);
        for byte in picks(&mut random, &net, 60) {
            assert_eq!(pick(&mut net, byte), pick(&mut other, byte));
            assert_eq!(without_origins(&net), without_origins(&other));
        }
        differ += usize::from(net != other);
    }
    assert!(differ > 50, "{differ}");
}
