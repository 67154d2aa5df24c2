//! Reaching, keeping within a row, and soundness.

mod rows;
mod sets;

use super::*;
use crate::by_hand::{self, eval, fork, new, read, take, PUT, READ, SEND, TAKE};
use crate::generate::{image_net, net_after_picks, random_net, sound_net};
use crate::image::{read_layout, write_image};
use crate::random::Random;

const HERE: Locality = Locality(1);
const FAR: Target = Target::Written(Locality(2));

fn out(target: Target, next: u16) -> Instruction {
    by_hand::out(target, &[TemplateField::Own], next)
}

fn places(code: &[Instruction], place: u16) -> Vec<usize> {
    let marks = reached(code, code.len() as u16, Place(place));
    assert_eq!(marks.len(), INSTRUCTIONS);
    (0..marks.len()).filter(|index| marks[*index]).collect()
}

fn keeps(code: &[Instruction], row: &Row) -> bool {
    keeps_within(code, code.len() as u16, Place(0), HERE, row)
}

/// A row with these rights over one address only.
fn row_over(address: u8, rights: Rights) -> Row {
    let mut row = Row::ZERO;
    row.rights[address as usize] = rights;
    row
}

#[test]
fn next_places_and_both_branches_are_reached() {
    let code = [
        fork(1, 3),
        out(FAR, 2),
        Instruction::STOP,
        out(FAR, 3),
        out(FAR, 0),
    ];
    assert_eq!(places(&code, 0), [0, 1, 2, 3]);
    assert_eq!(places(&code, 1), [1, 2]);
    assert_eq!(places(&code, 3), [3]);
    assert_eq!(places(&code, 4), [0, 1, 2, 3, 4]);
}

#[test]
fn the_sent_place_is_not_followed() {
    let code = [eval(Target::Own, 2, 1), Instruction::STOP, out(FAR, 2)];
    assert_eq!(places(&code, 0), [0, 1]);
}

#[test]
fn all_512_can_be_reached() {
    let mut code: Vec<Instruction> = (0..512).map(|at| fork((at + 1) % 512, at / 2)).collect();
    assert_eq!(places(&code, 300).len(), 512);
    code[511] = Instruction::STOP;
    assert_eq!(places(&code, 511), [511]);
}

/// But for a read, for which i will do as well as r.
#[test]
fn each_action_needs_its_own_right() {
    let each = [
        (take(FAR, &[TemplateField::Own], 1), TAKE),
        (read(FAR, &[TemplateField::Own], 1), READ),
        (out(FAR, 1), PUT),
        (eval(FAR, 1, 1), SEND),
    ];
    for (instruction, needed) in each {
        let code = [instruction, Instruction::STOP];
        for (_, held) in each {
            let covered = needed == READ && held == TAKE;
            let expected = needed == held || covered;
            assert_eq!(keeps(&code, &row_over(2, held)), expected);
        }
        assert!(!keeps(&code, &row_over(1, Rights::ALL)));
    }
}

/// i covers a read where it is held, and r covers no in there.
#[test]
fn taking_covers_reading_at_the_same_address() {
    let own = [TemplateField::Own];
    for (target, address, other) in [(Target::Own, 1, 2), (FAR, 2, 1)] {
        let code = [read(target, &own, 1), take(target, &own, 0)];
        assert!(keeps(&code, &row_over(address, TAKE)));
        assert!(!keeps(&code, &row_over(address, READ)));
        let reading = [read(target, &own, 0)];
        assert!(keeps(&reading, &row_over(address, TAKE)));
        assert!(!keeps(&reading, &row_over(other, Rights::ALL)));
    }
}

#[test]
fn self_means_the_address_itself() {
    let code = [out(Target::Own, 0)];
    assert!(keeps(&code, &row_over(1, Rights::ALL)));
    assert!(!keeps(&code, &row_over(0, Rights::ALL)));
}

#[test]
fn a_variable_is_judged_when_it_runs() {
    assert!(keeps(&[out(Target::Variable(0), 0)], &Row::ZERO));
    assert!(keeps(&[eval(Target::Variable(0), 0, 0)], &Row::ZERO));
}

#[test]
fn a_new_needs_n_and_a_fork_nothing() {
    let code = [fork(0, 1), new(0, 0)];
    assert!(!keeps(&code, &row_over(1, Rights::ALL)));
    assert!(keeps(
        &code,
        &Row {
            create: true,
            ..Row::ZERO
        }
    ));
    assert!(keeps(&[fork(0, 0)], &Row::ZERO));
    assert!(keeps(&[Instruction::STOP], &Row::ZERO));
}

/// Two addresses, three instructions, one process and one tuple each.
fn small() -> Net {
    let mut net = Net::of(SINGLE_ROW, 2, 3);
    let read = Action::Read {
        target: Target::Variable(7),
        next: Place(2),
    };
    let fields = [
        TemplateField::FormalReading(1),
        TemplateField::FormalAddress(7),
    ];
    net.code[0] = Instruction::with(read, &fields);
    net.code[1] = out(Target::Written(Locality(1)), 2);
    for address in 0..2 {
        net.each_row(address, |row| row.rights[1] = Rights::ALL);
        let node = &mut net.nodes[address];
        node.processes[2] = Process::starting(Place(2), Locality(address as u8));
        node.processes[2].variables[7] = Value::Address(Locality(1));
        node.tuples[0] = Tuple::of(&[Field::Address(Locality(1)), Field::Reading(3)]);
        node.tuple_count = 1;
    }
    net
}

/// Whether the small net is sound after a change.
fn after(change: impl Fn(&mut Net)) -> bool {
    let mut net = small();
    assert!(sound(&net));
    change(&mut net);
    sound(&net)
}

#[test]
fn the_empty_net_is_not_sound() {
    assert!(!sound(&Net::empty()));
}

#[test]
fn counts_are_in_range() {
    assert!(!after(|net| net.address_count = 0));
    assert!(!after(|net| net.address_count = 1));
    assert!(after(|net| net.address_count = 16));
    assert!(!after(|net| net.address_count = 17));
    assert!(!after(|net| net.address_count = 255));
    assert!(!after(|net| net.code_length = 0));
    assert!(!after(|net| net.code_length = 2));
    assert!(after(|net| net.code_length = 512));
    assert!(!after(|net| net.code_length = 513));
    assert!(!after(|net| net.code_length = u16::MAX));
    assert!(!after(|net| net.nodes[0].tuple_count = 0));
    assert!(!after(|net| net.nodes[0].tuple_count = 2));
    assert!(!after(|net| net.nodes[0].tuple_count = 17));
    assert!(!after(|net| net.nodes[0].tuple_count = 255));
    assert!(!after(|net| net.nodes[0].tuples[0].count = 0));
    assert!(!after(|net| net.nodes[0].tuples[0].count = 1));
    assert!(after(|net| net.nodes[0].tuples[0].count = 4));
    assert!(!after(|net| net.nodes[0].tuples[0].count = 5));
    assert!(!after(|net| net.code[0].count = 0));
    assert!(!after(|net| net.code[0].count = 1));
    assert!(after(|net| net.code[0].count = 3));
    assert!(!after(|net| net.code[0].count = 5));
    assert!(!after(|net| net.code[2].count = 1));
}

#[test]
fn addresses_lie_below_the_count() {
    let two = Locality(2);
    assert!(!after(
        |net| net.nodes[1].tuples[0].fields[0] = Field::Address(two)
    ));
    assert!(!after(
        |net| net.nodes[1].processes[2].variables[0] = Value::Address(two)
    ));
    assert!(!after(
        |net| net.code[1].action = out(Target::Written(two), 0).action
    ));
    assert!(!after(
        |net| net.code[1].fields[0] = TemplateField::Address(two)
    ));
    assert!(after(
        |net| net.code[1].fields[0] = TemplateField::Address(Locality(1))
    ));
}

#[test]
fn marks_lie_below_the_count() {
    let mark = |mark: u8| move |net: &mut Net| net.nodes[0].tuples[0].from = Locality(mark);
    assert!(after(mark(0)));
    assert!(after(mark(1)));
    assert!(!after(mark(2)));
    assert!(!after(mark(16)));
    assert!(!after(mark(255)));
    let of_16 = |mark: u8| {
        move |net: &mut Net| {
            net.address_count = 16;
            net.nodes[1].tuples[0].from = Locality(mark);
        }
    };
    assert!(after(of_16(15)));
    assert!(!after(of_16(16)));
}

#[test]
fn origins_lie_below_the_count() {
    let of = |origin: u8| move |net: &mut Net| net.nodes[0].processes[2].origin = Locality(origin);
    assert!(after(of(0)));
    assert!(after(of(1)));
    assert!(!after(of(2)));
    assert!(!after(of(16)));
    assert!(!after(of(255)));
    let of_16 = |origin: u8| {
        move |net: &mut Net| {
            net.address_count = 16;
            net.nodes[1].processes[2].origin = Locality(origin);
        }
    };
    assert!(after(of_16(15)));
    assert!(!after(of_16(16)));
}

#[test]
fn places_lie_below_the_length() {
    assert!(!after(|net| net.nodes[1].processes[2].at = Place(3)));
    assert!(!after(|net| net.code[1].action = out(Target::Own, 3).action));
    assert!(!after(|net| net.code[2] = eval(Target::Own, 3, 0)));
    assert!(!after(|net| net.code[2] = eval(Target::Own, 0, 3)));
    assert!(!after(|net| net.code[2] = fork(3, 0)));
    assert!(!after(|net| net.code[2] = fork(0, 3)));
    assert!(after(|net| net.code[2] = fork(2, 2)));
    assert!(!after(|net| net.code[2] = new(0, 3)));
    assert!(after(|net| net.code[2] = new(7, 2)));
    assert!(!after(|net| net.code[2] = new(8, 2)));
}

#[test]
fn variables_lie_below_8() {
    assert!(!after(
        |net| net.code[1].fields[0] = TemplateField::Variable(8)
    ));
    assert!(!after(
        |net| net.code[0].fields[0] = TemplateField::FormalReading(8)
    ));
    assert!(!after(
        |net| net.code[0].fields[0] = TemplateField::FormalAddress(255)
    ));
    assert!(!after(|net| net.code[2] = eval(Target::Variable(8), 0, 0)));
}

#[test]
fn code_meets_rules_26_and_27() {
    assert!(!after(
        |net| net.code[1].fields[0] = TemplateField::FormalReading(0)
    ));
    assert!(!after(
        |net| net.code[1].fields[0] = TemplateField::FormalAddress(0)
    ));
    assert!(!after(
        |net| net.code[0].fields[0] = TemplateField::FormalReading(7)
    ));
    assert!(!after(
        |net| net.code[0].fields[0] = TemplateField::FormalAddress(7)
    ));
    assert!(after(
        |net| net.code[0].fields[0] = TemplateField::Variable(7)
    ));
}

#[test]
fn no_right_by_or_over_an_unused_address() {
    let all = |at: usize, over: usize| {
        move |net: &mut Net| net.each_row(at, |row| row.rights[over] = Rights::ALL)
    };
    assert!(after(all(0, 0)));
    assert!(!after(all(0, 2)));
    assert!(!after(all(1, 15)));
    assert!(!after(all(2, 0)));
    assert!(after(|net| net.each_row(1, |row| row.create = true)));
    assert!(!after(|net| net.each_row(2, |row| row.create = true)));
    assert!(!after(|net| net.each_row(15, |row| row.create = true)));
}

#[test]
fn records_past_a_count_or_in_a_free_slot_are_zero() {
    assert!(!after(|net| net.nodes[0].processes[0].at = Place(1)));
    assert!(!after(
        |net| net.nodes[0].processes[0].variables[3] = Value::Reading(0)
    ));
    assert!(!after(|net| net.nodes[0].processes[0].origin = Locality(1)));
    assert!(!after(|net| net.nodes[1].processes[3].origin = Locality(1)));
    assert!(!after(|net| net.nodes[1].processes[3].origin = Locality(2)));
    assert!(!after(|net| net.nodes[2].processes[0].origin = Locality(1)));
    assert!(!after(|net| net.nodes[2].processes[0].busy = true));
    assert!(!after(|net| net.nodes[2].tuple_count = 1));
    assert!(!after(|net| net.nodes[0].tuples[1].count = 1));
    assert!(!after(|net| net.nodes[0].tuples[1].from = Locality(1)));
    assert!(!after(|net| net.nodes[1].tuples[15].from = Locality(1)));
    assert!(!after(|net| net.nodes[2].tuples[0].from = Locality(1)));
    assert!(!after(
        |net| net.nodes[0].tuples[15].fields[3] = Field::Reading(1)
    ));
    assert!(!after(
        |net| net.nodes[0].tuples[0].fields[2] = Field::Address(Locality(0))
    ));
    assert!(!after(|net| net.code[3] = out(Target::Own, 0)));
    assert!(!after(|net| net.code[511].fields[0] = TemplateField::Own));
    assert!(!after(|net| net.code[0].fields[2] = TemplateField::Own));
    assert!(!after(
        |net| net.code[2].fields[0] = TemplateField::Reading(1)
    ));
}

#[test]
fn sound_nets_are_made_and_kept() {
    let mut random = Random::new(11);
    for _ in 0..300 {
        assert!(sound(&image_net(&mut random)));
        assert!(sound(&sound_net(&mut random)));
        assert!(sound(&net_after_picks(&mut random)));
    }
}

// Whether the counts allow a net to be written as an image.
fn writable(net: &Net) -> bool {
    let tuples = |node: &Node| {
        let held = node.tuples.iter().take(node.tuple_count as usize);
        node.tuple_count <= 16 && held.into_iter().all(|tuple| (1..=4).contains(&tuple.count))
    };
    let fields = |instruction: &Instruction| instruction.count <= 4;
    (1..=16).contains(&net.address_count)
        && (1..=512).contains(&net.code_length)
        && net.nodes.iter().all(tuples)
        && net.code.iter().all(fields)
}

// Variables unset, busy slots moved to the front, processes and tuples from
// their own node, as an image has them. An origin or a mark that is not sound
// stays.
fn as_started(net: &mut Net) {
    let count = net.address_count;
    for (address, node) in net.nodes.iter_mut().enumerate() {
        let own = Locality(address as u8);
        for process in &mut node.processes {
            process.variables = Process::FREE.variables;
            if process.busy && process.origin.0 < count {
                process.origin = own;
            }
        }
        node.processes.sort_by_key(|process| !process.busy);
        let held = node.tuples.iter_mut().take(node.tuple_count as usize);
        held.filter(|tuple| tuple.from.0 < count)
            .for_each(|tuple| tuple.from = own);
    }
}

/// A net with no variables set and no process or tuple from another node is
/// sound exactly when it is written as an image without faults 21 to 29 and
/// read back the same.
#[test]
fn soundness_is_what_an_image_can_hold() {
    let mut random = Random::new(12);
    let mut seen = [0; 2];
    for _ in 0..20_000 {
        let mut net = random_net(&mut random);
        as_started(&mut net);
        if writable(&net) {
            let same = read_layout(&write_image(&net)).as_ref() == Ok(&net);
            assert_eq!(sound(&net), same);
            seen[same as usize] += 1;
        }
    }
    assert!(seen[0] > 3000 && seen[1] > 3000, "{seen:?}");
}
