//! The answers to a pick and the net after it, on nets written by hand.

mod marks;
mod origins;
mod rows;
mod sets;

use super::*;
use crate::by_hand::*;

const FAR: Target = Target::Written(Locality(1));
const HELD: Target = Target::Variable(0);

fn process(net: &mut Net) -> &mut Process {
    &mut net.nodes[0].processes[0]
}

/// Sets a variable of the process.
fn set(net: &mut Net, variable: usize, value: Value) {
    process(net).variables[variable] = value;
}

/// One pick of slot 0 at address 0 that leaves the net as it was.
fn unchanged(net: &Net) -> u8 {
    let mut after = net.clone();
    let answer = pick(&mut after, 0);
    assert_eq!(after, *net);
    answer
}

/// One pick of slot 0 at address 0, and the net after it.
fn picked(net: &Net) -> (u8, Net) {
    let mut after = net.clone();
    let answer = pick(&mut after, 0);
    assert!(sound(&after));
    (answer, after)
}

#[test]
fn a_pick_has_address_slot_and_two_zero_bits() {
    assert_eq!((pick_address(0xB4), pick_slot(0xB4)), (Locality(11), 1));
    assert_eq!((pick_address(0x0C), pick_slot(0x0C)), (Locality(0), 3));
    let mut net = net(3, &[]);
    net.nodes[0].processes[0] = Process::FREE;
    net.nodes[2].processes[1] = Process::starting(Place(0), Locality(2));
    assert_eq!(pick(&mut net, 0x20), 7);
    assert_eq!(pick(&mut net, 0x24), 1);
    assert_eq!(pick(&mut net, 0x24), 7);
}

#[test]
fn ten_nine_eight_seven_stand_in_this_order() {
    let mut net = net(1, &[]);
    net.nodes[0].processes[1].at = Place(1);
    let before = net.clone();
    assert_eq!(pick(&mut net, 0xFF), 10);
    assert_eq!(net, before);
    net.nodes[0].processes[1].at = Place(0);
    assert_eq!(pick(&mut net, 0xFF), 9);
    assert_eq!(pick(&mut net, 0x01), 9);
    assert_eq!(pick(&mut net, 0x02), 9);
    assert_eq!(pick(&mut net, 0x06), 9);
    assert_eq!(pick(&mut net, 0x10), 8);
    assert_eq!(pick(&mut net, 0x04), 7);
    assert_eq!(pick(&mut net, 0x00), 1);
}

#[test]
fn the_empty_net_answers_10() {
    let mut net = Net::empty();
    assert_eq!(pick(&mut net, 0), 10);
    assert_eq!(pick(&mut net, 1), 10);
    assert_eq!(net, Net::empty());
}

#[test]
fn stop_frees_the_slot() {
    let mut net = net(1, &[]);
    net.nodes[0].processes[2] = Process::starting(Place(0), Locality(0));
    set(&mut net, 4, Value::Reading(1));
    let (answer, after) = picked(&net);
    assert_eq!(answer, 1);
    let mut expected = net.clone();
    expected.nodes[0].processes[0] = Process::FREE;
    assert_eq!(after, expected);
}

#[test]
fn out_adds_the_newest() {
    let fields = [
        TemplateField::Reading(4),
        TemplateField::Address(Locality(1)),
        TemplateField::Own,
        TemplateField::Variable(2),
    ];
    let mut net = net(2, &[out(FAR, &fields, 1)]);
    grant(&mut net, 0, 1, PUT);
    fill(&mut net, 1, &[Tuple::of(&[reading(9)])]);
    set(&mut net, 2, Value::Reading(-3));
    let (answer, after) = picked(&net);
    assert_eq!(answer, 0);
    let mut expected = net.clone();
    let tuple = Tuple::of(&[reading(4), address(1), address(0), reading(-3)]);
    let tuples = [from(1, readings(&[9])), from(0, tuple)];
    fill_marked(&mut expected, 1, &tuples);
    process(&mut expected).at = Place(1);
    assert_eq!(after, expected);
}

#[test]
fn out_to_15_tuples_is_0_and_to_16_is_3() {
    let mut net = net(1, &[out(Target::Own, &[TemplateField::Own], 0)]);
    grant(&mut net, 0, 0, PUT);
    fill(&mut net, 0, &[Tuple::of(&[reading(0)]); 15]);
    let (answer, mut after) = picked(&net);
    assert_eq!((answer, after.nodes[0].tuple_count), (0, 16));
    assert_eq!(after.nodes[0].tuples[15], Tuple::of(&[address(0)]));
    assert_eq!(unchanged(&after), 3);
    // A barred action with a full target: 4.
    grant(&mut after, 0, 0, NONE);
    assert_eq!(unchanged(&after), 4);
}

#[test]
fn in_without_a_tuple_is_2() {
    let mut net = net(
        1,
        &[take(Target::Own, &[TemplateField::FormalReading(0)], 1)],
    );
    grant(&mut net, 0, 0, TAKE);
    assert_eq!(unchanged(&net), 2);
}

#[test]
fn a_formal_reading_against_an_address_is_2() {
    let mut net = net(
        1,
        &[take(Target::Own, &[TemplateField::FormalReading(0)], 1)],
    );
    grant(&mut net, 0, 0, TAKE);
    fill(&mut net, 0, &[Tuple::of(&[address(0)])]);
    assert_eq!(unchanged(&net), 2);
}

#[test]
fn no_formal_is_set_when_a_later_field_does_not_fit() {
    let fields = [TemplateField::FormalReading(0), TemplateField::Reading(1)];
    let mut net = net(1, &[take(Target::Own, &fields, 1)]);
    grant(&mut net, 0, 0, TAKE);
    fill(&mut net, 0, &[Tuple::of(&[reading(1), reading(2)])]);
    assert_eq!(unchanged(&net), 2);
}

#[test]
fn the_older_of_two_that_fit_is_taken() {
    let mut net = net(
        1,
        &[take(Target::Own, &[TemplateField::FormalReading(6)], 1)],
    );
    grant(&mut net, 0, 0, TAKE);
    let (odd, first, second) = (address(0), reading(7), reading(8));
    let all = [Tuple::of(&[odd]), Tuple::of(&[first]), Tuple::of(&[second])];
    fill(&mut net, 0, &all);
    let (answer, after) = picked(&net);
    assert_eq!(answer, 0);
    let mut expected = net.clone();
    fill(&mut expected, 0, &[Tuple::of(&[odd]), Tuple::of(&[second])]);
    set(&mut expected, 6, Value::Reading(7));
    process(&mut expected).at = Place(1);
    assert_eq!(after, expected);
}

#[test]
fn the_last_of_16_is_taken() {
    let mut net = net(1, &[take(Target::Own, &[TemplateField::Reading(15)], 1)]);
    grant(&mut net, 0, 0, TAKE);
    let tuples: Vec<Tuple> = (0..16).map(|index| Tuple::of(&[reading(index)])).collect();
    fill(&mut net, 0, &tuples);
    let (answer, after) = picked(&net);
    assert_eq!((answer, after.nodes[0].tuple_count), (0, 15));
    assert_eq!(after.nodes[0].tuples[..15], tuples[..15]);
    assert_eq!(after.nodes[0].tuples[15], Tuple::ZERO);
}

#[test]
fn read_leaves_the_tuple() {
    let mut net = net(2, &[read(FAR, &[TemplateField::FormalAddress(0)], 1)]);
    grant(&mut net, 0, 1, READ);
    fill(&mut net, 1, &[Tuple::of(&[address(1)])]);
    let (answer, after) = picked(&net);
    assert_eq!(answer, 0);
    let mut expected = net.clone();
    set(&mut expected, 0, Value::Address(Locality(1)));
    process(&mut expected).at = Place(1);
    assert_eq!(after, expected);
}

#[test]
fn an_actual_variable_has_its_value_from_before() {
    let fields = [TemplateField::FormalReading(0), TemplateField::Variable(0)];
    let mut net = net(1, &[take(Target::Own, &fields, 1)]);
    grant(&mut net, 0, 0, TAKE);
    fill(
        &mut net,
        0,
        &[
            Tuple::of(&[reading(5), reading(5)]),
            Tuple::of(&[reading(5), reading(1)]),
        ],
    );
    assert_eq!(unchanged(&net), 6);
    set(&mut net, 0, Value::Reading(1));
    let (answer, after) = picked(&net);
    assert_eq!(answer, 0);
    assert_eq!(after.nodes[0].processes[0].variables[0], Value::Reading(5));
    assert_eq!(
        after.nodes[0].tuples[0],
        Tuple::of(&[reading(5), reading(5)])
    );
}

#[test]
fn the_target_variable_may_be_formal_too() {
    let mut net = net(2, &[take(HELD, &[TemplateField::FormalReading(0)], 1)]);
    grant(&mut net, 0, 1, TAKE);
    set(&mut net, 0, Value::Address(Locality(1)));
    fill(&mut net, 1, &[Tuple::of(&[reading(2)])]);
    let (answer, after) = picked(&net);
    assert_eq!((answer, after.nodes[1].tuple_count), (0, 0));
    assert_eq!(after.nodes[0].processes[0].variables[0], Value::Reading(2));
}

#[test]
fn self_in_a_template_is_the_host() {
    let mut net = net(2, &[take(FAR, &[TemplateField::Own], 1)]);
    grant(&mut net, 0, 1, TAKE);
    fill(&mut net, 1, &[Tuple::of(&[address(1)])]);
    assert_eq!(unchanged(&net), 2);
    fill(&mut net, 1, &[Tuple::of(&[address(0)])]);
    assert_eq!(picked(&net).0, 0);
}

/// 0 if a tuple fits, which stays, and 2 if none does.
#[test]
fn read_at_a_variable_with_i_but_not_r_is_0_or_2() {
    let mut net = net(1, &[read(HELD, &[TemplateField::FormalReading(1)], 1)]);
    set(&mut net, 0, Value::Address(Locality(0)));
    assert_eq!(unchanged(&net), 4);
    grant(&mut net, 0, 0, TAKE);
    assert_eq!(unchanged(&net), 2);
    fill(&mut net, 0, &[one_address(0)]);
    assert_eq!(unchanged(&net), 2);
    fill(&mut net, 0, &[one_address(0), readings(&[7])]);
    let (answer, after) = picked(&net);
    assert_eq!(answer, 0);
    let mut expected = net.clone();
    set(&mut expected, 1, Value::Reading(7));
    process(&mut expected).at = Place(1);
    assert_eq!(after, expected);
}

#[test]
fn in_at_a_variable_with_r_but_not_i_is_4() {
    let mut net = net(1, &[take(HELD, &[TemplateField::FormalReading(1)], 1)]);
    set(&mut net, 0, Value::Address(Locality(0)));
    grant(&mut net, 0, 0, READ);
    assert_eq!(unchanged(&net), 4);
    fill(&mut net, 0, &[readings(&[7])]);
    assert_eq!(unchanged(&net), 4);
    grant(&mut net, 0, 0, TAKE);
    assert_eq!(picked(&net).0, 0);
}

/// i includes r; no other right includes another.
#[test]
fn each_action_needs_its_right() {
    let field = [TemplateField::Reading(0)];
    let code = [
        (take(FAR, &field, 1), TAKE),
        (read(FAR, &field, 1), READ),
        (out(FAR, &field, 1), PUT),
        (eval(FAR, 1, 1), SEND),
    ];
    for (instruction, needed) in code {
        for held in [TAKE, READ, PUT, SEND] {
            let mut net = net(2, &[instruction]);
            fill(&mut net, 1, &[Tuple::of(&[reading(0)])]);
            grant(&mut net, 0, 1, held);
            // The target's own row over the host is of no avail.
            grant(&mut net, 1, 0, Rights::ALL);
            let covered = needed == READ && held == TAKE;
            let expected = if needed == held || covered { 0 } else { 4 };
            assert_eq!(picked(&net).0, expected);
        }
    }
}

/// Code that reads is sent to a node that may take there and not read, and
/// is answered there with 2 until a tuple fits.
#[test]
fn sent_code_may_read_where_the_target_may_take() {
    let any = [TemplateField::FormalReading(1)];
    let mut net = net(2, &[eval(FAR, 1, 2), read(OWN, &any, 2)]);
    grant(&mut net, 0, 1, SEND);
    assert_eq!(unchanged(&net), 5);
    grant(&mut net, 1, 1, TAKE);
    let (answer, mut after) = picked(&net);
    assert_eq!(answer, 0);
    assert_eq!(pick(&mut after, 0x10), 2);
    fill(&mut after, 1, &[readings(&[7])]);
    assert_eq!(pick(&mut after, 0x10), 0);
    assert_eq!(after.nodes[1].tuples[0], from(1, readings(&[7])));
}

#[test]
fn sent_code_may_not_take_where_the_target_may_read() {
    let any = [TemplateField::FormalReading(1)];
    let mut net = net(2, &[eval(FAR, 1, 2), take(OWN, &any, 2)]);
    grant(&mut net, 0, 1, SEND);
    grant(&mut net, 1, 1, READ);
    assert_eq!(unchanged(&net), 5);
    grant(&mut net, 1, 1, TAKE);
    assert_eq!(picked(&net).0, 0);
}

/// What is included is not written into a row.
#[test]
fn a_new_row_has_i_without_r_where_the_creator_s_has() {
    let mut net = net(1, &[new(0, 1)]);
    grant_create(&mut net, 0);
    grant(&mut net, 0, 0, TAKE);
    let (answer, after) = picked(&net);
    assert_eq!(answer, 0);
    for row in after.nodes[..2].iter().flat_map(|node| &node.rows) {
        assert_eq!(row.rights[0], TAKE);
    }
}

#[test]
fn an_unset_or_misused_variable_is_6() {
    let own = [TemplateField::Own];
    let code = [
        take(HELD, &own, 1),
        read(HELD, &own, 1),
        out(HELD, &own, 1),
        eval(HELD, 1, 1),
    ];
    for instruction in code {
        let mut net = net(1, &[instruction]);
        assert_eq!(unchanged(&net), 6);
        set(&mut net, 0, Value::Reading(0));
        assert_eq!(unchanged(&net), 6);
        set(&mut net, 0, Value::Address(Locality(0)));
        assert_eq!(unchanged(&net), 4);
    }
}

#[test]
fn an_unset_field_is_6_before_rights_and_room() {
    let held = [TemplateField::Reading(0), TemplateField::Variable(0)];
    let own = Target::Own;
    for instruction in [take(own, &held, 1), read(own, &held, 1), out(own, &held, 1)] {
        let mut net = net(1, &[instruction]);
        fill(&mut net, 0, &[Tuple::of(&[reading(0)]); 16]);
        assert_eq!(unchanged(&net), 6);
        set(&mut net, 0, Value::Reading(3));
        assert_eq!(unchanged(&net), 4);
    }
}

#[test]
fn eval_starts_a_copy_at_the_target() {
    let mut net = net(
        2,
        &[eval(FAR, 1, 2), out(Target::Own, &[TemplateField::Own], 2)],
    );
    grant(&mut net, 0, 1, SEND);
    grant(&mut net, 1, 1, PUT);
    set(&mut net, 3, Value::Reading(8));
    net.nodes[1].processes[0] = Process::starting(Place(2), Locality(1));
    net.nodes[1].processes[2] = Process::starting(Place(2), Locality(1));
    let (answer, mut after) = picked(&net);
    assert_eq!(answer, 0);
    let mut expected = net.clone();
    expected.nodes[1].processes[1] = *process(&mut net);
    expected.nodes[1].processes[1].at = Place(1);
    process(&mut expected).at = Place(2);
    assert_eq!(after, expected);
    // Self in the sent code then means the target.
    assert_eq!(pick(&mut after, 0x14), 0);
    assert_eq!(after.nodes[1].tuples[0], from(1, one_address(1)));
}

#[test]
fn sent_code_is_judged_by_the_target_s_row() {
    let code = [eval(FAR, 1, 2), out(Target::Own, &[TemplateField::Own], 2)];
    // Only the sender's row holds o, over itself and over the target.
    let mut net = net(2, &code);
    grant(&mut net, 0, 0, Rights::ALL);
    grant(&mut net, 0, 1, Rights::ALL);
    assert_eq!(unchanged(&net), 5);
    // The target's row holds o over the sender only.
    grant(&mut net, 1, 0, Rights::ALL);
    assert_eq!(unchanged(&net), 5);
    grant(&mut net, 1, 1, PUT);
    assert_eq!(picked(&net).0, 0);
    // Four before five.
    grant(&mut net, 1, 1, NONE);
    grant(&mut net, 0, 1, PUT);
    assert_eq!(unchanged(&net), 4);
}

#[test]
fn the_sent_place_of_sent_code_is_not_followed() {
    let code = [eval(FAR, 1, 3), eval(Target::Own, 2, 3), new(0, 3)];
    let mut net = net(2, &code);
    grant(&mut net, 0, 1, SEND);
    grant(&mut net, 1, 1, SEND);
    let (answer, mut after) = picked(&net);
    assert_eq!(answer, 0);
    assert_eq!(pick(&mut after, 0x10), 5);
}

#[test]
fn eval_without_a_free_slot_is_3_after_5() {
    let code = [eval(FAR, 1, 2), out(Target::Own, &[TemplateField::Own], 2)];
    let mut net = net(2, &code);
    grant(&mut net, 0, 1, SEND);
    net.nodes[1].processes = [Process::starting(Place(2), Locality(1)); 4];
    assert_eq!(unchanged(&net), 5);
    grant(&mut net, 1, 1, PUT);
    assert_eq!(unchanged(&net), 3);
    net.nodes[1].processes[3] = Process::FREE;
    assert_eq!(picked(&net).0, 0);
}

#[test]
fn eval_to_itself_with_four_busy_slots_is_3() {
    let mut net = net(1, &[eval(Target::Own, 1, 0)]);
    grant(&mut net, 0, 0, SEND);
    for busy in 1..4 {
        assert_eq!(pick(&mut net, 0), 0);
        assert_eq!(net.nodes[0].busy_slots(), busy + 1);
    }
    assert_eq!(unchanged(&net), 3);
}

#[test]
fn fork_keeps_the_first_branch() {
    let mut net = net(1, &[fork(1, 0)]);
    net.nodes[0].processes[1] = Process::starting(Place(1), Locality(0));
    net.nodes[0].processes[3] = Process::starting(Place(1), Locality(0));
    set(&mut net, 5, Value::Reading(2));
    let (answer, after) = picked(&net);
    assert_eq!(answer, 0);
    let mut expected = net.clone();
    expected.nodes[0].processes[2] = *process(&mut net);
    process(&mut expected).at = Place(1);
    assert_eq!(after, expected);
    net.nodes[0].processes[2] = Process::starting(Place(1), Locality(0));
    assert_eq!(unchanged(&net), 3);
}

#[test]
fn a_fork_from_another_slot_uses_slot_0() {
    let mut net = net(1, &[fork(1, 0)]);
    net.nodes[0].processes.swap(0, 2);
    assert_eq!(pick(&mut net, 0x08), 0);
    assert_eq!(
        net.nodes[0].processes[0],
        Process::starting(Place(0), Locality(0))
    );
    assert_eq!(
        net.nodes[0].processes[2],
        Process::starting(Place(1), Locality(0))
    );
}

#[test]
fn new_shares_the_creator_s_row() {
    let mut net = net(3, &[new(7, 1)]);
    grant_create(&mut net, 0);
    grant(&mut net, 0, 0, READ);
    grant(&mut net, 0, 2, PUT);
    grant(&mut net, 1, 0, Rights::ALL);
    let (answer, after) = picked(&net);
    assert_eq!(answer, 0);
    let mut expected = net.clone();
    expected.address_count = 4;
    expected.nodes[3].rows = net.nodes[0].rows;
    grant(&mut expected, 3, 3, Rights::ALL);
    grant(&mut expected, 0, 3, Rights::ALL);
    set(&mut expected, 7, Value::Address(Locality(3)));
    process(&mut expected).at = Place(1);
    assert_eq!(after, expected);
}

#[test]
fn creation_at_15_is_0_and_at_16_is_3_or_4() {
    let mut net = net(15, &[new(0, 0)]);
    assert_eq!(unchanged(&net), 4);
    grant_create(&mut net, 0);
    assert_eq!(pick(&mut net, 0), 0);
    assert_eq!(net.address_count, 16);
    assert_eq!(
        net.nodes[0].processes[0].variables[0],
        Value::Address(Locality(15))
    );
    assert_eq!(unchanged(&net), 3);
    net.each_row(0, |row| row.create = false);
    assert_eq!(unchanged(&net), 4);
}

#[test]
fn a_barred_action_at_a_written_address_is_4() {
    // Such a net is sound although no accepted image leads to it.
    let net = net(2, &[out(FAR, &[TemplateField::Own], 1)]);
    assert!(sound(&net));
    assert_eq!(unchanged(&net), 4);
}

#[test]
fn pick_and_step_agree_on_sound_nets() {
    let mut random = crate::random::Random::new(21);
    for _ in 0..400 {
        let mut net = crate::generate::sound_net(&mut random);
        let mut other = net.clone();
        for _ in 0..40 {
            let byte = crate::generate::pick_byte(&mut random, &net);
            let before = net.clone();
            let answer = pick(&mut net, byte);
            assert_eq!(answer, step(&mut other, byte));
            assert_eq!(net, other);
            assert!(sound(&net) && net.format == before.format);
            assert!(answer <= 1 || net == before);
        }
    }
}
