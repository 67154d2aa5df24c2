//! The proved step beside the model where the row is chosen by origin: runs
//! by hand, nets that are not sound by their rows or their format, and random
//! picks in format 2. Each pick is compared in its answer and in the net after
//! it.

use cavindorum_tests::by_hand::{in_format_2, net, stops, PUT};
use cavindorum_tests::by_origin::all;
use cavindorum_tests::generate::{by_origin_net, net_after_picks_of, picks, sound_net_of};
use cavindorum_tests::net::*;
use cavindorum_tests::random::Random;
use cavindorum_tests::replay::{replay, replay_many, Made, Run};

// By hand.

#[test]
fn stated_runs() {
    let all = all();
    let runs: Vec<Run> = all.iter().map(|stated| stated.run.clone()).collect();
    for (stated, made) in all.iter().zip(replay(&runs)) {
        let name = &stated.name;
        assert_eq!(made.answers, stated.answers, "{name}");
        if let Some(after) = &stated.after {
            assert_eq!(made.net, *after, "{name}");
        }
    }
}

/// One pick of slot 0 at address 0 on each of these nets: whether it is
/// answered with 10. A net that is not sound comes back as it was.
fn not_sound(nets: Vec<Net>) -> Vec<bool> {
    let picks = vec![0];
    let run = |net| Run {
        net,
        picks: picks.clone(),
    };
    let runs: Vec<Run> = nets.into_iter().map(run).collect();
    let one = |(run, made): (&Run, Made)| {
        let not_sound = made.answers == [10];
        assert!(!not_sound || made.net == run.net);
        not_sound
    };
    runs.iter().zip(replay(&runs)).map(one).collect()
}

/// Whatever the format's byte.
#[test]
fn there_are_two_formats() {
    let of = |format| {
        let mut net = net(2, &[]);
        net.format = format;
        net
    };
    let found = not_sound((0..=255).map(of).collect());
    for (format, not_sound) in found.into_iter().enumerate() {
        assert_eq!(not_sound, format != 1 && format != 2, "{format}");
    }
}

/// A right over address 0, and n, in each row of each node of a net with two
/// addresses. In format 1 a row that differs from the others is not sound, in
/// format 2 one for an unused origin or of an unused address.
#[test]
fn a_right_in_each_row() {
    let (one, two) = (net(2, &[]), in_format_2(net(2, &[])));
    let (mut nets, mut expected) = (Vec::new(), Vec::new());
    for at in 0..ADDRESSES {
        for origin in 0..ADDRESSES {
            let used = at < 2 && origin < 2;
            for (net, not_sound) in [(&one, true), (&two, !used)] {
                let (mut right, mut creation) = (net.clone(), net.clone());
                right.nodes[at].rows[origin].rights[0] = PUT;
                creation.nodes[at].rows[origin].create = true;
                nets.extend([right, creation]);
                expected.extend([not_sound; 2]);
            }
        }
    }
    assert_eq!(not_sound(nets), expected);
}

/// In each row for an origin in use, over each address: only those in use may
/// have rights over them.
#[test]
fn a_right_over_each_address() {
    let (mut nets, mut expected) = (Vec::new(), Vec::new());
    for count in [1, 2, 15, 16] {
        for over in 0..ADDRESSES {
            let mut net = in_format_2(net(count, &[]));
            let origin = over % count as usize;
            net.nodes[0].rows[origin].rights[over] = PUT;
            nets.push(net);
            expected.push(over >= count as usize);
        }
    }
    assert_eq!(not_sound(nets), expected);
}

/// The rows of one format are not sound in the other, unless all 16 origins
/// are in use.
#[test]
fn rows_of_the_other_format() {
    let (mut nets, mut expected) = (Vec::new(), Vec::new());
    for count in 1..=16 {
        let mut one = stops(count, 1);
        one.each_row(0, |row| row.create = true);
        let two = in_format_2(one.clone());
        let (swapped_one, swapped_two) = (
            Net {
                format: 2,
                ..one.clone()
            },
            Net {
                format: 1,
                ..two.clone()
            },
        );
        nets.extend([one, two, swapped_one, swapped_two]);
        let few = count < 16;
        expected.extend([false, false, few, few]);
    }
    assert_eq!(not_sound(nets), expected);
}

/// Each of the 256 picks on one net.
#[test]
fn every_pick() {
    let mut random = Random::new(210);
    let every = |net: Net| {
        (0..=255).map(move |pick| Run {
            net: net.clone(),
            picks: vec![pick],
        })
    };
    let nets = (0..4).map(|_| sound_net_of(&mut random, ROW_BY_ORIGIN));
    replay(&nets.flat_map(every).collect::<Vec<_>>());
}

// Random picks: 500,000 in format 2.

fn from_sound_net(random: &mut Random) -> Run {
    let net = match random.below(3) {
        0 => net_after_picks_of(random, ROW_BY_ORIGIN),
        _ => sound_net_of(random, ROW_BY_ORIGIN),
    };
    let picks = picks(random, &net, 250);
    Run { net, picks }
}

#[test]
fn picks_from_sound_nets() {
    let met = replay_many(211, 1_000, from_sound_net);
    assert_eq!(met.iter().sum::<usize>(), 250_000);
    assert!(met[..10].iter().all(|count| *count > 250), "{met:?}");
    assert_eq!(met[10], 0);
    println!("answers 0 to 10: {met:?}");
}

fn from_by_origin_net(random: &mut Random) -> Run {
    let net = by_origin_net(random);
    let picks = picks(random, &net, 100);
    Run { net, picks }
}

/// Code is sent, opens addresses and goes there.
#[test]
fn picks_of_sent_code_and_news() {
    let met = replay_many(212, 2_500, from_by_origin_net);
    assert_eq!(met.iter().sum::<usize>(), 250_000);
    assert!(met[0] > 60_000 && met[10] == 0, "{met:?}");
    assert!(
        [3, 4, 5].iter().all(|answer| met[*answer] > 1_000),
        "{met:?}"
    );
    println!("answers 0 to 10: {met:?}");
}

/// As long as no address is opened, a net of format 2 whose nodes have the
/// same row for each origin in use has the answers of that of format 1, and in
/// the end the same records.
#[test]
fn equal_rows_are_a_single_row() {
    let mut random = Random::new(213);
    let mut ones = Vec::new();
    for _ in 0..200 {
        let mut net = sound_net_of(&mut random, SINGLE_ROW);
        for at in 0..net.address_count as usize {
            net.each_row(at, |row| row.create = false);
        }
        let picks = picks(&mut random, &net, 100);
        ones.push(Run { net, picks });
    }
    let in_format_2 = |net: &Net| in_format_2(net.clone());
    let twos = ones.iter().map(|Run { net, picks }| Run {
        net: in_format_2(net),
        picks: picks.clone(),
    });
    let twos: Vec<Run> = twos.collect();
    for (one, two) in replay(&ones).iter().zip(replay(&twos)) {
        assert_eq!(one.answers, two.answers);
        assert_eq!(in_format_2(&one.net), two.net);
    }
}
