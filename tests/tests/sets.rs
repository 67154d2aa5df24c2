//! The proved step beside the model where tuples are put to a set: runs by
//! hand, nets that are not sound by their sets, and random picks. Each pick is
//! compared in its answer and in the net after it.

use cavindorum_tests::by_hand::{in_format_2, out_to_set, stops};
use cavindorum_tests::generate::{picks, set_image_net, set_net};
use cavindorum_tests::net::*;
use cavindorum_tests::random::Random;
use cavindorum_tests::replay::{replay, replay_many, Run};
use cavindorum_tests::sets::all;

const OWN_FIELD: [TemplateField; 1] = [TemplateField::Own];

// By hand.

#[test]
fn stated_runs() {
    let all = all();
    let runs: Vec<Run> = all.iter().map(|stated| stated.run.clone()).collect();
    for (stated, made) in all.iter().zip(replay(&runs)) {
        let name = &stated.name;
        assert_eq!(made.answers, stated.answers, "{name}");
        if let Some(after) = &stated.after {
            assert_eq!(made.net, *after, "{name}");
        }
    }
}

/// One pick of a free slot on each of these nets: whether it is answered with
/// 10. Every net comes back as it was.
fn not_sound(nets: Vec<Net>) -> Vec<bool> {
    let run = |net| Run {
        net,
        picks: vec![0],
    };
    let runs: Vec<Run> = nets.into_iter().map(run).collect();
    let made = replay(&runs);
    assert!(runs
        .iter()
        .zip(&made)
        .all(|(run, made)| made.net == run.net));
    let answers = made.iter().map(|made| made.answers[0]);
    answers.map(|answer| answer == 10).collect()
}

/// Stops at so many addresses, and this instruction in place of the first.
fn with(format: u8, count: u8, instruction: Instruction) -> Net {
    let mut net = in_format_2(stops(count, 2));
    net.format = format;
    net.code[0] = instruction;
    net
}

/// Each address alone, and beside all those below the count, at each count.
#[test]
fn a_member_not_below_the_count_is_10() {
    let (mut nets, mut expected) = (Vec::new(), Vec::new());
    for count in [1, 2, 3, 8, 15, 16] {
        for member in 0..16 {
            let below: Vec<u8> = (0..count).chain([member]).collect();
            for members in [&[member][..], &below] {
                nets.push(with(2, count, out_to_set(members, &OWN_FIELD, 0)));
                expected.push(member >= count);
            }
        }
    }
    assert_eq!(not_sound(nets), expected);
}

/// Whatever its members, and none.
#[test]
fn a_set_in_format_1_is_10() {
    let mut nets = Vec::new();
    for count in [1, 2, 16] {
        let below: Vec<u8> = (0..count).collect();
        for members in [&[][..], &[0], &[count - 1], &below] {
            let instruction = out_to_set(members, &OWN_FIELD, 0);
            nets.extend(FORMATS.map(|format| with(format, count, instruction)));
        }
    }
    let expected: Vec<bool> = nets.iter().map(|net| net.format == SINGLE_ROW).collect();
    assert_eq!(not_sound(nets), expected);
}

/// Its template and its next place are those of an out, and past the code
/// length there is none.
#[test]
fn the_rest_of_an_out_to_a_set() {
    let to = |fields: &[TemplateField], next| with(2, 2, out_to_set(&[0, 1], fields, next));
    let four = [TemplateField::Variable(7); 4];
    let mut past = to(&OWN_FIELD, 0);
    past.code[2] = out_to_set(&[], &OWN_FIELD, 0);
    let mut further = to(&OWN_FIELD, 0);
    further.code[0].fields[3] = TemplateField::Own;
    let nets = vec![
        to(&four, 1),
        to(&four, 2),
        to(&[], 0),
        to(&[TemplateField::Variable(8)], 0),
        to(&[TemplateField::Address(Locality(1))], 0),
        to(&[TemplateField::Address(Locality(2))], 0),
        to(&[TemplateField::Own, TemplateField::FormalReading(0)], 0),
        to(&[TemplateField::FormalAddress(0)], 0),
        past,
        further,
    ];
    let expected = [false, true, true, true, false, true, true, true, true, true];
    assert_eq!(not_sound(nets), expected);
}

/// Each of the 256 picks on one net.
#[test]
fn every_pick() {
    let mut random = Random::new(220);
    let every = |net: Net| {
        (0..=255).map(move |pick| Run {
            net: net.clone(),
            picks: vec![pick],
        })
    };
    let nets = (0..3).map(|_| set_net(&mut random));
    replay(&nets.flat_map(every).collect::<Vec<_>>());
}

// Random picks.

fn from_set_net(random: &mut Random) -> Run {
    let net = set_net(random);
    let picks = picks(random, &net, 100);
    Run { net, picks }
}

fn from_image(random: &mut Random) -> Run {
    let net = set_image_net(random);
    let picks = picks(random, &net, 100);
    Run { net, picks }
}

/// Members are full and barred, the host is among them, and there are none.
#[test]
fn picks_from_sound_nets() {
    let met = replay_many(221, 1_200, from_set_net);
    assert_eq!(met.iter().sum::<usize>(), 120_000);
    let often = [0, 3, 4, 6].map(|answer| met[answer]);
    assert!(often.iter().all(|count| *count > 1_000), "{met:?}");
    assert_eq!(met[10], 0);
    println!("answers 0 to 10: {met:?}");
}

#[test]
fn picks_from_images() {
    let met = replay_many(222, 500, from_image);
    assert_eq!(met.iter().sum::<usize>(), 50_000);
    let often = [0, 3, 6].map(|answer| met[answer]);
    assert!(often.iter().all(|count| *count > 500), "{met:?}");
    assert_eq!(met[10], 0);
    println!("answers 0 to 10: {met:?}");
}
