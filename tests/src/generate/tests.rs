//! That the generated nets and images are varied enough, and as promised.

use super::*;
use crate::bits::{patch, FieldAt, Sort};
use crate::image::{answer, read_image, read_layout, starts_keep_within, write_with_fields, Fault};
use crate::sound::sound;
use crate::step::pick;

#[test]
fn the_same_seed_gives_the_same() {
    let (mut one, mut two) = (Random::new(5), Random::new(5));
    for _ in 0..50 {
        assert_eq!(valid_image(&mut one), valid_image(&mut two));
        assert_eq!(damaged_image(&mut one), damaged_image(&mut two));
        assert_eq!(random_net(&mut one), random_net(&mut two));
    }
}

#[test]
fn image_nets_are_written_and_read_back() {
    let mut random = Random::new(1);
    for _ in 0..2000 {
        let net = image_net(&mut random);
        let bytes = write_image(&net);
        assert_eq!(read_layout(&bytes).as_ref(), Ok(&net));
        let beyond = first_beyond_row(&net);
        assert_eq!(starts_keep_within(&net), beyond.is_none());
        let expected = match beyond {
            None => Ok(net),
            Some(bit) => Err(Fault { number: 30, bit }),
        };
        assert_eq!(read_image(&bytes), expected);
    }
}

// The bit at which the first entry of a process that reaches beyond its row
// begins, counted from the layout.
fn first_beyond_row(net: &Net) -> Option<usize> {
    let addresses = net.address_count as usize;
    let rows = match net.format {
        SINGLE_ROW => addresses,
        _ => addresses * addresses,
    };
    let mut bit = 19 + rows * (1 + 4 * addresses);
    for address in 0..net.address_count {
        let (node, own) = (&net.nodes[address as usize], Locality(address));
        let row = node.row_for(own);
        bit += 3;
        for process in &node.processes[..node.busy_slots()] {
            let (code, length) = (&net.code[..], net.code_length);
            if !keeps_within(code, length, process.at, own, row) {
                return Some(bit);
            }
            bit += 9;
        }
    }
    None
}

#[test]
fn valid_images_are_mostly_accepted() {
    let mut random = Random::new(2);
    let images: Vec<_> = (0..2000).map(|_| valid_image(&mut random)).collect();
    let numbers = images.iter().map(|image| read_image(image).err());
    let accepted = numbers.filter(|number| number.is_none()).count();
    assert!((1900..2000).contains(&accepted), "{accepted}");
}

#[test]
fn accepted_images_are_written_the_same() {
    let mut random = Random::new(3);
    for _ in 0..5000 {
        let image = damaged_image(&mut random);
        if let Ok(net) = read_image(&image) {
            assert!(sound(&net));
            assert_eq!(write_image(&net), image);
        }
    }
}

#[test]
fn damaged_images_meet_every_number() {
    let mut random = Random::new(4);
    let mut seen = [0; 31];
    for _ in 0..20_000 {
        let (number, _) = answer(&damaged_image(&mut random));
        seen[number as usize] += 1;
    }
    assert!(seen[0] > 200, "{seen:?}");
    assert!(seen[21..].iter().all(|count| *count > 200), "{seen:?}");
}

// The number a field out of its range is refused with, if it has one.
fn expected(sort: Sort) -> Option<u8> {
    match sort {
        Sort::Format => Some(21),
        Sort::AddressCount | Sort::CodeLength => Some(22),
        Sort::ProcessCount | Sort::TupleCount => Some(22),
        Sort::Address | Sort::Members => Some(23),
        Sort::Place => Some(24),
        Sort::Action | Sort::TargetKind | Sort::FieldKind => Some(25),
        _ => None,
    }
}

// Whether the sort has numbers out of range in this net.
fn has_bad(net: &Net, sort: Sort) -> bool {
    match sort {
        Sort::Address | Sort::Members => net.address_count < 16,
        Sort::Action => net.format == SINGLE_ROW,
        Sort::Place => net.code_length < 512,
        _ => expected(sort).is_some(),
    }
}

fn bad(random: &mut Random, net: &Net, field: FieldAt) -> u32 {
    match field.sort {
        Sort::FieldKind => random.choose(&[6, 7]),
        _ => damage::bad_number(random, net, field),
    }
}

/// Everything before the field is right, so its own number is reported, and
/// the bit at which it begins.
#[test]
fn each_single_field_out_of_range_has_its_number_and_bit() {
    let mut random = Random::new(6);
    for _ in 0..3000 {
        let net = image_net(&mut random);
        let (mut bytes, fields) = write_with_fields(&net);
        let field = random.choose(&fields);
        if has_bad(&net, field.sort) {
            let number = bad(&mut random, &net, field);
            patch(&mut bytes, field, number);
            let expected = expected(field.sort).expect("it has a range");
            assert_eq!(answer(&bytes), (expected, field.first_bit));
        }
    }
}

/// A formal in an out is at fault in its kind, one that is there twice in its
/// variable, a process beyond its row in its place.
#[test]
fn damaged_records_are_at_fault_in_their_fields() {
    let mut random = Random::new(14);
    let mut seen = [0; 31];
    for _ in 0..3000 {
        let mut net = image_net(&mut random);
        damage::damage_records(&mut random, &mut net);
        let (bytes, fields) = write_with_fields(&net);
        let (number, bit) = answer(&bytes);
        let sort = match number {
            0 => continue,
            26 => Sort::FieldKind,
            27 => Sort::Variable,
            30 => Sort::Place,
            other => panic!("{other}"),
        };
        let at_fault = fields.iter().find(|field| field.first_bit == bit);
        assert_eq!(at_fault.map(|field| field.sort), Some(sort));
        seen[number as usize] += 1;
    }
    assert!(
        [26, 27, 30].iter().all(|number| seen[*number] > 200),
        "{seen:?}"
    );
}

/// Of each sort of field some end early; what stands after the code is at
/// fault from the code's end on.
#[test]
fn each_cut_image_is_28_and_each_longer_one_29() {
    let mut random = Random::new(7);
    let mut seen = Vec::new();
    for _ in 0..3000 {
        let (mut bytes, fields) = write_with_fields(&image_net(&mut random));
        let cut = random.below(bytes.len());
        let early = fields.iter().find(|field| field.end() > cut * 8);
        let early = early.expect("the last one at least");
        assert_eq!(answer(&bytes[..cut]), (28, early.first_bit));
        if !seen.contains(&early.sort) {
            seen.push(early.sort);
        }
        bytes.push(random.byte());
        let end = fields.last().map(FieldAt::end);
        assert_eq!(answer(&bytes), (29, end.expect("there are fields")));
    }
    assert_eq!(seen.len(), Sort::ALL.len(), "{seen:?}");
}

#[test]
fn random_nets_are_sound_and_not() {
    let mut random = Random::new(8);
    let nets = (0..4000)
        .filter(|_| sound(&random_net(&mut random)))
        .count();
    assert!((1200..2800).contains(&nets), "{nets}");
}

/// Of both formats alike, and some of none.
#[test]
fn random_nets_are_of_both_formats_and_of_none() {
    let mut random = Random::new(34);
    let mut met = [0; 3];
    for _ in 0..4000 {
        match random_net(&mut random).format {
            SINGLE_ROW => met[0] += 1,
            ROW_BY_ORIGIN => met[1] += 1,
            _ => met[2] += 1,
        }
    }
    assert!(met[0] > 1500 && met[1] > 1500 && met[2] > 50, "{met:?}");
}

// The net that a net would be without what is wrong in its rows by its
// format: of format 1 all rows like the first, of format 2 none for unused
// origins, of no format no rows at all.
fn with_right_rows(net: &Net) -> Net {
    let (mut net, count) = (net.clone(), net.row_count());
    for node in net.nodes.iter_mut() {
        match net.format {
            SINGLE_ROW => node.rows = [node.rows[0]; ADDRESSES],
            ROW_BY_ORIGIN => node.rows[count..].fill(Row::ZERO),
            _ => node.rows.fill(Row::ZERO),
        }
    }
    if !FORMATS.contains(&net.format) {
        net.format = SINGLE_ROW;
    }
    net
}

/// Some nets are not sound by this alone: unequal rows in format 1, rights for
/// unused origins in format 2, no format.
#[test]
fn random_nets_are_not_sound_by_their_rows() {
    let mut random = Random::new(35);
    let mut met = [0; 3];
    for _ in 0..4000 {
        let net = random_net(&mut random);
        if !sound(&net) && sound(&with_right_rows(&net)) {
            match net.format {
                SINGLE_ROW => met[0] += 1,
                ROW_BY_ORIGIN => met[1] += 1,
                _ => met[2] += 1,
            }
        }
    }
    assert!(met.iter().all(|count| *count > 40), "{met:?}");
}

// The outs to a set in the code of a net.
fn sets(net: &Net) -> impl Iterator<Item = Set> + '_ {
    net.code.iter().filter_map(|one| match one.action {
        Action::OutToSet { members, .. } => Some(members),
        _ => None,
    })
}

/// In format 2 alone; empty, of all addresses, and others.
#[test]
fn image_nets_have_sets_of_all_sizes() {
    let mut random = Random::new(37);
    let mut met = [0; 3];
    for _ in 0..1000 {
        assert_eq!(sets(&image_net_of(&mut random, SINGLE_ROW)).count(), 0);
        let net = image_net_of(&mut random, ROW_BY_ORIGIN);
        for set in sets(&net) {
            let all = set == whole(net.address_count);
            let kind = if set == Set::EMPTY {
                0
            } else {
                1 + all as usize
            };
            met[kind] += 1;
        }
    }
    assert!(met.iter().all(|count| *count > 200), "{met:?}");
}

// The same net without what is wrong in its sets: in format 2 their members
// below the count alone, otherwise outs at self.
fn with_right_sets(net: &Net) -> Net {
    let (mut net, target) = (net.clone(), Target::Own);
    let below = whole(net.address_count.min(16)).0;
    for instruction in net.code.iter_mut() {
        if let Action::OutToSet { members, next } = instruction.action {
            let members = Set(members.0 & below);
            instruction.action = match net.format {
                ROW_BY_ORIGIN => Action::OutToSet { members, next },
                _ => Action::Out { target, next },
            };
        }
    }
    net
}

/// Some nets are not sound by this alone: a set in format 1, a member not
/// below the count in format 2.
#[test]
fn random_nets_are_not_sound_by_their_sets() {
    let mut random = Random::new(38);
    let mut met = [0; 2];
    for _ in 0..6000 {
        let net = random_net(&mut random);
        if !sound(&net) && sound(&with_right_sets(&net)) {
            met[net.format as usize - 1] += 1;
        }
    }
    assert!(met.iter().all(|count| *count > 30), "{met:?}");
}

/// Those of format 1 and those of format 2 are damaged alike.
#[test]
fn damaged_images_of_both_formats_meet_every_number() {
    let mut random = Random::new(36);
    let mut met = [[0; 31]; 3];
    for _ in 0..10_000 {
        let image = damaged_image(&mut random);
        let format = image.first().map_or(0, |first| usize::from(first >> 4));
        let (number, _) = answer(&image);
        met[format.min(3) % 3][number as usize] += 1;
    }
    for met in &met[1..] {
        assert!(met[0] > 100, "{met:?}");
        assert!(met[22..].iter().all(|count| *count > 50), "{met:?}");
    }
}

// A net whose tuples are all from address 0.
fn without_marks(net: &Net) -> Net {
    let mut net = net.clone();
    let tuples = net.nodes.iter_mut().flat_map(|node| &mut node.tuples);
    tuples.for_each(|tuple| tuple.from = Locality(0));
    net
}

// Whether a record past the count of its node has a mark.
fn zero_tuple_marked(net: &Net) -> bool {
    let past = |node: &Node| {
        let past = node.tuples.iter().skip(node.tuple_count as usize);
        past.into_iter().any(|tuple| tuple.from != Locality(0))
    };
    net.nodes.iter().any(past)
}

/// Some nets are not sound by a mark alone: on a zero tuple, or not below the
/// address count.
#[test]
fn random_nets_are_not_sound_by_a_mark() {
    let mut random = Random::new(16);
    let mut met = [0; 2];
    for _ in 0..4000 {
        let net = random_net(&mut random);
        if !sound(&net) && sound(&without_marks(&net)) {
            met[zero_tuple_marked(&net) as usize] += 1;
        }
    }
    assert!(met.iter().all(|count| *count > 20), "{met:?}");
}

// Whether a free slot has an origin that is not 0.
fn free_slot_with_origin(net: &Net) -> bool {
    let mut processes = net.nodes.iter().flat_map(|node| &node.processes);
    processes.any(|process| !process.busy && process.origin != Locality(0))
}

/// Some nets are not sound by an origin alone: in a free slot, or not below
/// the address count.
#[test]
fn random_nets_are_not_sound_by_an_origin() {
    let mut random = Random::new(18);
    let mut met = [0; 2];
    for _ in 0..4000 {
        let net = random_net(&mut random);
        if !sound(&net) && sound(&without_origins(&net)) {
            met[free_slot_with_origin(&net) as usize] += 1;
        }
    }
    assert!(met.iter().all(|count| *count > 20), "{met:?}");
}

// The number of processes that have another origin than their own node.
fn foreign_origins(net: &Net) -> usize {
    let foreign = |(address, node): (usize, &Node)| {
        let busy = node.processes.iter().filter(|process| process.busy);
        busy.filter(|process| process.origin.0 as usize != address)
            .count()
    };
    net.nodes.iter().enumerate().map(foreign).sum()
}

/// Processes of images are their own nodes', and runs send some to others.
#[test]
fn processes_from_other_nodes_are_met() {
    let mut random = Random::new(19);
    let (mut placed, mut reached) = (0, 0);
    for _ in 0..500 {
        assert_eq!(foreign_origins(&valid_net(&mut random)), 0);
        placed += foreign_origins(&sound_net(&mut random));
        reached += foreign_origins(&net_after_picks(&mut random));
    }
    assert!(placed > 1000 && reached > 20, "{placed} {reached}");
}

// The number of tuples that are from another node than their own.
fn foreign_marks(net: &Net) -> usize {
    let foreign = |(address, node): (usize, &Node)| {
        let held = &node.tuples[..node.tuple_count as usize];
        let own = held.iter().filter(|tuple| tuple.from.0 as usize == address);
        held.len() - own.count()
    };
    net.nodes.iter().enumerate().map(foreign).sum()
}

/// Tuples of images are their own nodes', and runs put some at others.
#[test]
fn tuples_from_other_nodes_are_met() {
    let mut random = Random::new(17);
    let (mut placed, mut reached) = (0, 0);
    for _ in 0..500 {
        assert_eq!(foreign_marks(&valid_net(&mut random)), 0);
        placed += foreign_marks(&sound_net(&mut random));
        reached += foreign_marks(&net_after_picks(&mut random));
    }
    assert!(placed > 1000 && reached > 200, "{placed} {reached}");
}

#[test]
fn picks_on_random_nets_meet_every_answer() {
    let mut random = Random::new(9);
    let mut seen = [0; 11];
    for _ in 0..20_000 {
        let mut net = random_net(&mut random);
        let byte = pick_byte(&mut random, &net);
        seen[pick(&mut net, byte) as usize] += 1;
    }
    assert!(seen.iter().all(|count| *count > 100), "{seen:?}");
}

#[test]
fn runs_from_images_meet_every_answer_but_10() {
    let mut random = Random::new(10);
    let mut seen = [0; 11];
    for _ in 0..2000 {
        let Ok(mut net) = read_image(&valid_image(&mut random)) else {
            continue;
        };
        for byte in picks(&mut random, &net, 60) {
            seen[pick(&mut net, byte) as usize] += 1;
        }
    }
    assert!(seen[..10].iter().all(|count| *count > 200), "{seen:?}");
    assert_eq!(seen[10], 0);
}

// The action a pick of a busy slot would perform.
fn action_name(net: &Net, byte: u8) -> usize {
    let process = &net.nodes[(byte >> 4) as usize].processes[(byte >> 2 & 3) as usize];
    match net.code[process.at.0 as usize].action {
        Action::Stop => 0,
        Action::Out { .. } => 1,
        Action::In { .. } => 2,
        Action::Read { .. } => 3,
        Action::Eval { .. } => 4,
        Action::New { .. } => 5,
        Action::Fork { .. } => 6,
        Action::OutToSet { .. } => 7,
    }
}

#[test]
fn runs_from_images_perform_every_action() {
    let mut random = Random::new(13);
    let mut performed = [0; 8];
    for _ in 0..2000 {
        let mut net = valid_net(&mut random);
        for byte in picks(&mut random, &net, 60) {
            let action = action_name(&net, byte);
            if step(&mut net, byte) <= 1 {
                performed[action] += 1;
            }
        }
    }
    assert!(performed.iter().all(|count| *count > 1000), "{performed:?}");
}
