//! The proved step beside the model: the edges of document 01 that concern
//! picks, and random picks, mostly in format 1. Each pick is compared in its
//! answer and in the net after it.

use cavindorum_tests::by_hand::{
    self, eval, fill, fill_marked, fork, from, grant, grant_create, new, one_address, out, read,
    readings, take, written, NONE, OWN, PUT, READ, SEND, TAKE,
};
use cavindorum_tests::generate::{
    net_after_picks_of, pick_byte, picks, random_net, sending_net, set_origins, sound_net,
    sound_net_of, without_origins,
};
use cavindorum_tests::net::*;
use cavindorum_tests::random::Random;
use cavindorum_tests::replay::{replay, replay_many, Made, Run};
use cavindorum_tests::sound::sound;

const FAR: Target = Target::Written(Locality(1));
const HELD: Target = Target::Variable(0);

const FORMAL: TemplateField = TemplateField::FormalReading(0);

// Nets by hand.

/// A net by hand whose address 0 has these rights over itself.
fn net(addresses: u8, rights: Rights, code: &[Instruction]) -> Net {
    let mut net = by_hand::net(addresses, code);
    grant(&mut net, 0, 0, rights);
    net
}

/// Sets a variable of the process.
fn set(net: &mut Net, variable: usize, value: Value) {
    net.nodes[0].processes[0].variables[variable] = value;
}

// Comparing.

/// What program and model both make of these picks.
fn made(net: &Net, picks: &[u8]) -> Made {
    let (net, picks) = (net.clone(), picks.to_vec());
    replay(&[Run { net, picks }]).remove(0)
}

/// The answer to a pick of slot 0 at address 0 that leaves the net as it
/// was.
fn unchanged(net: &Net) -> u8 {
    let made = made(net, &[0]);
    assert_eq!(made.net, *net);
    made.answers[0]
}

/// The net after a pick of slot 0 at address 0 that is answered with 0.
fn performed(net: &Net) -> Net {
    let made = made(net, &[0]);
    assert_eq!(made.answers, [0]);
    made.net
}

// The edges.

#[test]
fn in_at_self_without_a_tuple_is_2() {
    let mut net = net(1, TAKE, &[take(OWN, &[FORMAL], 1)]);
    assert_eq!(unchanged(&net), 2);
    fill(&mut net, 0, &[one_address(0)]);
    assert_eq!(unchanged(&net), 2);
}

#[test]
fn out_to_15_tuples_is_0_and_to_16_is_3() {
    let mut net = net(1, PUT, &[out(OWN, &[TemplateField::Own], 0)]);
    fill(&mut net, 0, &[readings(&[3]); 15]);
    let mut after = performed(&net);
    assert_eq!(after.nodes[0].tuple_count, 16);
    assert_eq!(after.nodes[0].tuples[15], one_address(0));
    assert_eq!(unchanged(&after), 3);
    grant(&mut after, 0, 0, NONE);
    assert_eq!(unchanged(&after), 4);
}

/// 0 if a tuple fits, which stays, and 2 if none does.
#[test]
fn read_at_a_variable_holding_self_with_i_but_not_r_is_0_or_2() {
    let mut net = net(1, TAKE, &[read(HELD, &[FORMAL], 1)]);
    fill(&mut net, 0, &[readings(&[1])]);
    assert_eq!(unchanged(&net), 6);
    set(&mut net, 0, Value::Reading(0));
    assert_eq!(unchanged(&net), 6);
    set(&mut net, 0, Value::Address(Locality(0)));
    for rights in [TAKE, READ] {
        grant(&mut net, 0, 0, rights);
        let after = performed(&net);
        assert_eq!(after.nodes[0].tuples, net.nodes[0].tuples);
        assert_eq!(after.nodes[0].processes[0].variables[0], Value::Reading(1));
        let mut without = net.clone();
        fill(&mut without, 0, &[one_address(0)]);
        assert_eq!(unchanged(&without), 2);
        fill(&mut without, 0, &[]);
        assert_eq!(unchanged(&without), 2);
    }
    grant(&mut net, 0, 0, Rights { send: true, ..PUT });
    assert_eq!(unchanged(&net), 4);
}

#[test]
fn in_at_a_variable_holding_self_with_r_but_not_i_is_4() {
    let mut net = net(1, READ, &[take(HELD, &[FORMAL], 1)]);
    set(&mut net, 0, Value::Address(Locality(0)));
    assert_eq!(unchanged(&net), 4);
    fill(&mut net, 0, &[readings(&[1])]);
    assert_eq!(unchanged(&net), 4);
}

/// Code sent to a node that may take there reads, with both answers.
#[test]
fn sent_code_may_read_where_the_target_may_take() {
    let mut net = net(2, NONE, &[eval(FAR, 1, 2), read(OWN, &[FORMAL], 2)]);
    grant(&mut net, 0, 1, SEND);
    grant(&mut net, 1, 0, Rights::ALL);
    assert_eq!(unchanged(&net), 5);
    grant(&mut net, 1, 1, TAKE);
    assert_eq!(made(&net, &[0, 0x10]).answers, [0, 2]);
    fill(&mut net, 1, &[readings(&[1])]);
    assert_eq!(made(&net, &[0, 0x10, 0x10]).answers, [0, 0, 1]);
}

#[test]
fn sent_code_may_not_take_where_the_target_may_read() {
    let mut net = net(2, NONE, &[eval(FAR, 1, 2), take(OWN, &[FORMAL], 2)]);
    grant(&mut net, 0, 1, SEND);
    grant(&mut net, 1, 1, READ);
    assert_eq!(unchanged(&net), 5);
}

#[test]
fn the_older_of_two_that_fit_is_taken() {
    let mut net = net(1, TAKE, &[take(OWN, &[FORMAL], 1)]);
    fill(
        &mut net,
        0,
        &[one_address(0), readings(&[7]), readings(&[8])],
    );
    let after = performed(&net);
    let mut expected = net.clone();
    fill(&mut expected, 0, &[one_address(0), readings(&[8])]);
    set(&mut expected, 0, Value::Reading(7));
    expected.nodes[0].processes[0].at = Place(1);
    assert_eq!(after, expected);
}

#[test]
fn no_formal_is_set_when_a_later_field_does_not_fit() {
    let fields = [FORMAL, TemplateField::Reading(1)];
    let mut net = net(1, TAKE, &[take(OWN, &fields, 1)]);
    fill(&mut net, 0, &[readings(&[1, 2])]);
    assert_eq!(unchanged(&net), 2);
}

#[test]
fn an_actual_variable_has_its_value_from_before() {
    let fields = [FORMAL, TemplateField::Variable(0)];
    let mut net = net(1, TAKE, &[take(OWN, &fields, 1)]);
    fill(&mut net, 0, &[readings(&[5, 5]), readings(&[5, 1])]);
    assert_eq!(unchanged(&net), 6);
    set(&mut net, 0, Value::Reading(1));
    let after = performed(&net);
    assert_eq!(after.nodes[0].tuples[0], readings(&[5, 5]));
    assert_eq!(after.nodes[0].processes[0].variables[0], Value::Reading(5));
}

#[test]
fn eval_to_itself_fills_its_own_slots() {
    let mut net = net(1, SEND, &[eval(OWN, 1, 0)]);
    set(&mut net, 2, Value::Reading(-1));
    let filled = made(&net, &[0; 4]);
    assert_eq!(filled.answers, [0, 0, 0, 3]);
    let mut expected = net.clone();
    for slot in 1..4 {
        expected.nodes[0].processes[slot] = net.nodes[0].processes[0];
        expected.nodes[0].processes[slot].at = Place(1);
    }
    assert_eq!(filled.net, expected);
    assert_eq!(unchanged(&filled.net), 3);
}

#[test]
fn fork_fills_a_slot_of_its_node() {
    let mut net = net(1, NONE, &[fork(1, 0)]);
    net.nodes[0].processes.swap(0, 2);
    let filled = made(&net, &[0x08]);
    assert_eq!(filled.answers, [0]);
    let processes = &filled.net.nodes[0].processes;
    assert_eq!(processes[0], Process::starting(Place(0), Locality(0)));
    assert_eq!(processes[2], Process::starting(Place(1), Locality(0)));
    net.nodes[0].processes = [Process::starting(Place(0), Locality(0)); SLOTS];
    assert_eq!(unchanged(&net), 3);
}

#[test]
fn sent_code_is_judged_by_the_target_s_row() {
    let code = [eval(FAR, 1, 2), out(OWN, &[TemplateField::Own], 2)];
    let mut net = net(2, Rights::ALL, &code);
    grant(&mut net, 0, 1, Rights::ALL);
    assert_eq!(unchanged(&net), 5);
    grant(&mut net, 1, 1, PUT);
    let sent = made(&net, &[0, 0x10]);
    assert_eq!(sent.answers, [0, 0]);
    assert_eq!(sent.net.nodes[1].tuples[0], from(1, one_address(1)));
    net.nodes[1].processes = [Process::starting(Place(2), Locality(1)); SLOTS];
    assert_eq!(unchanged(&net), 3);
    net.each_row(0, |row| row.rights[1].send = false);
    assert_eq!(unchanged(&net), 4);
}

#[test]
fn a_barred_action_with_a_full_target_is_4() {
    let mut net = net(2, Rights::ALL, &[out(FAR, &[TemplateField::Own], 1)]);
    fill(&mut net, 1, &[readings(&[0]); 16]);
    grant(&mut net, 1, 0, Rights::ALL);
    assert_eq!(unchanged(&net), 4);
    grant(&mut net, 0, 1, PUT);
    assert_eq!(unchanged(&net), 3);
}

#[test]
fn creation_at_15_is_0_and_at_16_is_3_or_4() {
    let mut net = net(15, READ, &[new(0, 0)]);
    assert_eq!(unchanged(&net), 4);
    grant_create(&mut net, 0);
    let mut after = performed(&net);
    let mut expected = net.clone();
    expected.address_count = 16;
    grant(&mut expected, 0, 15, Rights::ALL);
    expected.nodes[15].rows = expected.nodes[0].rows;
    set(&mut expected, 0, Value::Address(Locality(15)));
    assert_eq!(after, expected);
    assert_eq!(unchanged(&after), 3);
    after.each_row(0, |row| row.create = false);
    assert_eq!(unchanged(&after), 4);
}

#[test]
fn stop_zeroes_the_slot() {
    let mut net = net(1, NONE, &[]);
    net.nodes[0].processes[2] = Process::starting(Place(0), Locality(0));
    set(&mut net, 4, Value::Reading(1));
    let ended = made(&net, &[0, 0]);
    assert_eq!(ended.answers, [1, 7]);
    net.nodes[0].processes[0] = Process::FREE;
    assert_eq!(ended.net, net);
}

#[test]
fn ten_nine_eight_seven_stand_in_this_order() {
    let mut net = net(1, NONE, &[]);
    let picks = [0xFF, 0x01, 0x02, 0x07, 0xF0, 0x10, 0x04, 0x0C, 0x00, 0x00];
    let sound = made(&net, &picks);
    assert_eq!(sound.answers, [9, 9, 9, 9, 8, 8, 7, 7, 1, 7]);
    net.nodes[0].processes[1].at = Place(1);
    let damaged = made(&net, &picks);
    assert_eq!(damaged.answers, [10; 10]);
    assert_eq!(damaged.net, net);
    assert_eq!(made(&Net::empty(), &[0, 1, 0xFF]).answers, [10; 3]);
}

// Marks.

/// The tuples that a node holds.
fn held(net: &Net, at: usize) -> &[Tuple] {
    let node = &net.nodes[at];
    &node.tuples[..node.tuple_count as usize]
}

#[test]
fn an_out_bears_its_host_s_address() {
    let mut net = net(2, NONE, &[out(FAR, &[TemplateField::Own], 1)]);
    grant(&mut net, 0, 1, PUT);
    fill(&mut net, 1, &[readings(&[7])]);
    let tuples = [from(1, readings(&[7])), from(0, one_address(0))];
    assert_eq!(held(&performed(&net), 1), tuples);
}

/// Wherever it puts the tuple.
#[test]
fn an_out_of_sent_code_bears_the_address_where_it_runs() {
    for (target, at) in [(OWN, 1), (written(0), 0), (written(2), 2)] {
        let code = [eval(FAR, 1, 2), out(target, &[TemplateField::Own], 2)];
        let mut net = net(3, NONE, &code);
        grant(&mut net, 0, 1, SEND);
        grant(&mut net, 1, at, PUT);
        let sent = made(&net, &[0, 0x10]);
        assert_eq!(sent.answers, [0, 0]);
        assert_eq!(held(&sent.net, at), [from(1, one_address(1))]);
    }
}

/// The oldest tuple that fits is read, taken and put again with the mark of
/// its host, whatever its own mark; the others keep theirs.
#[test]
fn marks_take_no_part_in_fitting() {
    for marks in [[0, 1, 2], [2, 1, 0], [1, 2, 1]] {
        let put = [TemplateField::Variable(0)];
        let code = [
            read(OWN, &[FORMAL], 1),
            take(OWN, &[FORMAL], 2),
            out(OWN, &put, 3),
        ];
        let mut net = net(3, Rights::ALL, &code);
        let fields = [one_address(0), readings(&[7]), readings(&[8])];
        let [odd, first, second] = [0, 1, 2].map(|index| from(marks[index], fields[index]));
        fill_marked(&mut net, 0, &[odd, first, second]);
        let left = [
            &[odd, first, second][..],
            &[odd, second],
            &[odd, second, from(0, readings(&[7]))],
        ];
        for left in left {
            net = performed(&net);
            assert_eq!(held(&net, 0), left);
            assert_eq!(net.nodes[0].processes[0].variables[0], Value::Reading(7));
        }
    }
}

/// Tuples that differ in their marks alone, taken one after another.
#[test]
fn the_older_of_two_alike_is_taken() {
    let mut net = net(3, TAKE, &[take(OWN, &[FORMAL], 0)]);
    fill_marked(
        &mut net,
        0,
        &[2, 0, 1].map(|mark| from(mark, readings(&[7]))),
    );
    for left in [&[0, 1][..], &[1], &[]] {
        net = performed(&net);
        let marks: Vec<u8> = held(&net, 0).iter().map(|tuple| tuple.from.0).collect();
        assert_eq!(marks, left);
    }
    assert_eq!(net.nodes[0].tuples[0], Tuple::ZERO);
}

/// A mark that is not below the address count, and one on a zero tuple: at
/// each node and in each record.
#[test]
fn an_unsound_mark_is_10() {
    let mut sound = net(2, NONE, &[]);
    fill(&mut sound, 1, &[readings(&[7]); 3]);
    let marked = |at: usize, index: usize, mark: u8| {
        let mut net = sound.clone();
        net.nodes[at].tuples[index].from = Locality(mark);
        let picks = vec![0];
        Run { net, picks }
    };
    let mut runs = Vec::new();
    for at in 0..ADDRESSES {
        for index in 0..TUPLES {
            let least = if at == 1 && index < 3 { 2 } else { 1 };
            runs.extend([least, 255].map(|mark| marked(at, index, mark)));
        }
    }
    for (run, made) in runs.iter().zip(replay(&runs)) {
        assert_eq!(made.answers, [10]);
        assert_eq!(made.net, run.net);
    }
    let foreign = marked(1, 0, 0);
    assert_eq!(made(&foreign.net, &[0]).answers, [1]);
}

// Origins.

/// A net by hand of three addresses with all rights over all of them, whose
/// process stands at address 1.
fn three(code: &[Instruction]) -> Net {
    let mut net = net(3, NONE, code);
    for at in 0..3 {
        (0..3).for_each(|over| grant(&mut net, at, over, Rights::ALL));
    }
    net.nodes[0].processes[0] = Process::FREE;
    net.nodes[1].processes[0] = Process::starting(Place(0), Locality(1));
    net
}

/// The origins of a node's four slots.
fn origins(net: &Net, at: usize) -> [u8; SLOTS] {
    net.nodes[at].processes.map(|process| process.origin.0)
}

/// Node 1 sends to 2, where the code sends on to 0 and then back to 1.
#[test]
fn code_sent_on_has_the_node_between_as_origin() {
    let sent = [eval(written(2), 1, 3), eval(written(0), 3, 2)];
    let net = three(&[&sent[..], &[eval(written(1), 3, 3)]].concat());
    let sent = made(&net, &[0x10, 0x20, 0x20]);
    assert_eq!(sent.answers, [0; 3]);
    assert_eq!(origins(&sent.net, 0), [2, 0, 0, 0]);
    assert_eq!(origins(&sent.net, 1), [1, 2, 0, 0]);
    assert_eq!(origins(&sent.net, 2), [1, 0, 0, 0]);
}

/// Both branches keep it, and a branch that stops frees its slot to 0.
#[test]
fn a_fork_of_sent_code_keeps_its_origin() {
    let net = three(&[eval(written(2), 1, 3), fork(2, 1), fork(1, 3)]);
    let forked = made(&net, &[0x10, 0x20, 0x24, 0x20]);
    assert_eq!(forked.answers, [0; 4]);
    assert_eq!(origins(&forked.net, 2), [1; 4]);
    let stopped = made(&forked.net, &[0x2C]);
    assert_eq!(stopped.answers, [1]);
    assert_eq!(origins(&stopped.net, 2), [1, 1, 1, 0]);
    assert_eq!(stopped.net.nodes[2].processes[3], Process::FREE);
}

/// Whatever it is, and only an eval gives another, to the code that it sends.
#[test]
fn every_other_step_keeps_the_origin() {
    let field = [TemplateField::Reading(5)];
    let code = [
        out(OWN, &field, 1),
        read(OWN, &field, 2),
        take(OWN, &field, 3),
        new(0, 4),
        eval(HELD, 5, 5),
    ];
    for origin in 0..3 {
        let mut net = three(&code);
        grant_create(&mut net, 1);
        net.nodes[1].processes[0].origin = Locality(origin);
        let kept = made(&net, &[0x10; 5]);
        assert_eq!(kept.answers, [0; 5]);
        assert_eq!(origins(&kept.net, 1), [origin, 0, 0, 0]);
        assert_eq!(origins(&kept.net, 3), [1, 0, 0, 0]);
    }
}

/// An origin that is not below the address count, and one that is not 0 in a
/// free slot: at each node and in each slot.
#[test]
fn an_unsound_origin_is_10() {
    let mut sound = net(2, NONE, &[]);
    sound.nodes[1].processes[2] = Process::starting(Place(0), Locality(1));
    let changed = |at: usize, slot: usize, origin: u8| {
        let mut net = sound.clone();
        net.nodes[at].processes[slot].origin = Locality(origin);
        let picks = vec![0];
        Run { net, picks }
    };
    let mut runs = Vec::new();
    for at in 0..ADDRESSES {
        for slot in 0..SLOTS {
            let least = if sound.nodes[at].processes[slot].busy {
                2
            } else {
                1
            };
            runs.extend([least, 16, 255].map(|origin| changed(at, slot, origin)));
        }
    }
    for (run, made) in runs.iter().zip(replay(&runs)) {
        assert_eq!(made.answers, [10]);
        assert_eq!(made.net, run.net);
    }
    for (at, slot) in [(0, 0), (1, 2)] {
        let both = [0, 1].map(|origin| changed(at, slot, origin));
        assert!(replay(&both).iter().all(|made| made.answers == [1]));
    }
}

/// With 16 addresses in use the highest may be an origin.
#[test]
fn address_15_as_an_origin() {
    let mut net = net(16, NONE, &[]);
    net.nodes[0].processes[0].origin = Locality(15);
    assert_eq!(made(&net, &[0]).answers, [1]);
    net.nodes[0].processes[0].origin = Locality(16);
    assert_eq!(unchanged(&net), 10);
}

/// Each of the 256 picks on one net.
#[test]
fn every_pick() {
    let mut random = Random::new(200);
    let every = |net: Net| (0..=255).map(move |pick| (net.clone(), vec![pick]));
    let runs = (0..8).map(|_| sound_net(&mut random)).flat_map(every);
    replay(
        &runs
            .map(|(net, picks)| Run { net, picks })
            .collect::<Vec<_>>(),
    );
}

// Random picks.

/// That every answer to a sound net was met often.
fn assert_all_met(met: [usize; 11], picks: usize) {
    assert_eq!(met.iter().sum::<usize>(), picks);
    assert!(
        met[..10].iter().all(|count| *count > picks / 1000),
        "{met:?}"
    );
    assert_eq!(met[10], 0);
    println!("answers 0 to 10: {met:?}");
}

fn from_sound_net(random: &mut Random) -> Run {
    let net = sound_net_of(random, SINGLE_ROW);
    let picks = picks(random, &net, 250);
    Run { net, picks }
}

fn from_reached_net(random: &mut Random) -> Run {
    let net = net_after_picks_of(random, SINGLE_ROW);
    let picks = picks(random, &net, 250);
    Run { net, picks }
}

fn from_random_net(random: &mut Random) -> Run {
    let net = random_net(random);
    let picks = (0..4).map(|_| pick_byte(random, &net)).collect();
    Run { net, picks }
}

#[test]
fn picks_from_sound_nets() {
    assert_all_met(replay_many(201, 2_000, from_sound_net), 500_000);
}

#[test]
fn picks_from_reached_nets() {
    assert_all_met(replay_many(202, 2_000, from_reached_net), 500_000);
}

#[test]
fn picks_from_damaged_nets() {
    let met = replay_many(203, 8_000, from_random_net);
    assert!(met[10] > 4_000 && met[10] < 28_000, "{met:?}");
    println!("answers 0 to 10: {met:?}");
}

fn from_sending_net(random: &mut Random) -> Run {
    let net = sending_net(random);
    let picks = picks(random, &net, 60);
    Run { net, picks }
}

/// Code is sent, sent on and forked.
#[test]
fn picks_of_sent_code() {
    let met = replay_many(205, 2_000, from_sending_net);
    assert!(met[0] > 20_000 && met[10] == 0, "{met:?}");
    println!("answers 0 to 10: {met:?}");
}

/// Two nets of format 1 that differ in nothing but origins have the same
/// answers, and in the end differ in nothing else.
#[test]
fn no_answer_rests_on_an_origin() {
    let mut random = Random::new(206);
    let ones: Vec<_> = (0..200).map(|_| from_sound_net(&mut random)).collect();
    let mut others = ones.clone();
    for other in &mut others {
        set_origins(&mut random, &mut other.net);
    }
    for (one, other) in replay(&ones).iter().zip(replay(&others)) {
        assert_eq!(one.answers, other.answers);
        assert_eq!(without_origins(&one.net), without_origins(&other.net));
    }
}

/// A net that is not sound comes back as it was.
#[test]
fn damaged_nets_are_unchanged() {
    let mut random = Random::new(204);
    let damaged = std::iter::repeat_with(|| from_random_net(&mut random));
    let runs: Vec<_> = damaged.filter(|run| !sound(&run.net)).take(500).collect();
    for (run, made) in runs.iter().zip(replay(&runs)) {
        assert_eq!(made.answers, [10; 4]);
        assert_eq!(made.net, run.net);
    }
}
