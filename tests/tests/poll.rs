//! The engine beside the model, by the program `poll`: its edges by hand, and
//! random picks in calls of any length, in both formats. Compared are the
//! answer to each source, the whole net that it gives, whether each call has
//! room, its whole buffer, the digest of the net after it, and the whole net
//! after the last call.

use cavindorum_tests::by_hand::{longest, longest_of_format_2, ONE_STOP, PAPER_IMAGE};
use cavindorum_tests::by_origin;
use cavindorum_tests::edges::edges;
use cavindorum_tests::examples::{damaged, examples};
use cavindorum_tests::faulty::faulty_images;
use cavindorum_tests::generate::{
    by_origin_net, damaged_image, picks, sending_net, set_image_net, valid_net_of,
};
use cavindorum_tests::image::{image_of, read_image, write_image};
use cavindorum_tests::net::*;
use cavindorum_tests::notation::edges::edges as text_edges;
use cavindorum_tests::notation::generate::damage::damaged_text;
use cavindorum_tests::notation::generate::valid_text_of;
use cavindorum_tests::notation::read_text;
use cavindorum_tests::poll::{poll, Call, Made, Record, Source, KEPT};
use cavindorum_tests::random::Random;
use cavindorum_tests::replay::met_in_batches;
use cavindorum_tests::sets;
use cavindorum_tests::step::{pick_address, pick_slot, step, RIGHT_LACKING};

/// A call whose buffer is just long enough.
fn call(picks: &[u8]) -> Call {
    call_into(picks, picks.len())
}

fn call_into(picks: &[u8], length: usize) -> Call {
    let picks = picks.to_vec();
    Call { picks, length }
}

fn image(image: &[u8], calls: Vec<Call>) -> Record {
    let source = Source::Image(image.to_vec());
    Record { source, calls }
}

fn text(text: &[u8], calls: Vec<Call>) -> Record {
    let source = Source::Text(text.to_vec());
    Record { source, calls }
}

/// What program and model both make of a record.
fn made(record: Record) -> Made {
    poll(&[record]).remove(0)
}

/// The buffers that calls leave, of which each had room.
fn buffers(made: &Made) -> Vec<&[u8]> {
    assert!(made.calls.iter().all(|called| called.room));
    made.calls.iter().map(|called| &called.buffer[..]).collect()
}

/// The digests after calls, one after another.
fn digests(made: &Made) -> Vec<u64> {
    made.calls.iter().map(|called| called.digest).collect()
}

// Refused sources.

/// Every pick in one call, and again into a longer buffer; none; one; and
/// both without room.
fn every_pick() -> Vec<Call> {
    let all: Vec<u8> = (0..=255).collect();
    let roomy = [call(&all), call_into(&all, 300), call(&[]), call(&[0])];
    let short = [call_into(&all, 255), call_into(&[0], 0)];
    [&roomy[..], &short].concat()
}

/// That a refused source gives the empty net, which stays, and 10 to every
/// pick.
fn assert_refused(made: &Made, number: u8, bit: usize) {
    assert_eq!((made.number, made.bit), (number, bit));
    assert_eq!(made.net, Net::empty());
    let [one, longer, empty, single, short, none] = &made.calls[..] else {
        panic!("six calls")
    };
    assert!(one.room && longer.room && empty.room && single.room);
    assert!(!short.room && !none.room);
    assert_eq!(one.buffer, [10; 256]);
    assert_eq!(longer.buffer, [[10; 256].to_vec(), vec![KEPT; 44]].concat());
    assert_eq!(single.buffer, [10]);
    assert_eq!(short.buffer, [KEPT; 255]);
    let same = digests(made);
    assert!(same.iter().all(|digest| *digest == same[0]));
}

/// Each number in the ways that the paper names, with its place.
#[test]
fn refused_images() {
    let mut faults: Vec<(Vec<u8>, (u8, usize))> = faulty_images()
        .into_iter()
        .map(|(image, fault)| (image, (fault.number, fault.bit)))
        .collect();
    faults.push((Vec::new(), (28, 0)));
    faults.push((damaged::image(), (24, 52)));
    faults.push(([&PAPER_IMAGE[..], &[0]].concat(), (29, 95)));
    let records = faults.iter().map(|(bytes, _)| image(bytes, every_pick()));
    let records: Vec<Record> = records.collect();
    for (made, (_, (number, bit))) in poll(&records).iter().zip(&faults) {
        assert_refused(made, *number, *bit);
    }
    for number in 21..=30 {
        assert!(
            faults.iter().any(|(_, fault)| fault.0 == number),
            "{number}"
        );
    }
}

/// Each text by hand that the program can be given, with its number.
#[test]
fn texts_by_hand() {
    let mut edges = text_edges();
    edges.retain(|(text, _)| text.len() <= 65_535);
    let records = edges.iter().map(|(bytes, _)| text(bytes, every_pick()));
    let records: Vec<Record> = records.collect();
    let mut refused = 0;
    for (made, (_, number)) in poll(&records).iter().zip(&edges) {
        match number {
            0 => assert_eq!((made.number, made.bit), (0, 0)),
            _ => {
                assert_refused(made, *number, 0);
                refused += 1;
            }
        }
    }
    assert!(refused > 100, "{refused}");
}

/// Most of them are refused, some are not.
#[test]
fn damaged_sources() {
    let mut random = Random::new(701);
    let mut records = Vec::new();
    for _ in 0..300 {
        records.push(image(&damaged_image(&mut random), every_pick()));
        let mut bytes = damaged_text(&mut random);
        bytes.truncate(65_535);
        records.push(text(&bytes, every_pick()));
    }
    let mut met = [0; 2];
    for made in poll(&records) {
        met[usize::from(made.number != 0)] += 1;
        if made.number != 0 {
            assert_refused(&made, made.number, made.bit);
        }
    }
    assert!(met.iter().all(|count| *count > 50), "{met:?}");
}

// Room.

/// By one byte there is no room: nothing is written and the net stays. The
/// same list then has the answers that it would have had.
#[test]
fn no_room_by_one_byte() {
    let list = [0, 0, 0, 4, 0x10, 1];
    let calls = vec![call_into(&list, 5), call(&list), call_into(&list, 5)];
    let short = made(image(&PAPER_IMAGE, calls));
    let plain = made(image(&PAPER_IMAGE, vec![call(&[]), call(&list)]));
    let [first, second, third] = &short.calls[..] else {
        panic!("three calls")
    };
    assert_eq!(plain.answers, [0, 1, 7, 7, 8, 9]);
    assert_eq!(*second, plain.calls[1]);
    for (called, net) in [(first, &plain.calls[0]), (third, &plain.calls[1])] {
        assert!(!called.room && called.buffer == [KEPT; 5]);
        assert_eq!(called.digest, net.digest);
    }
    assert_eq!(short.net, plain.net);
}

/// At each length of a list and each length of a buffer up to 20.
#[test]
fn lists_and_buffers_of_each_length() {
    let mut random = Random::new(702);
    let mut records = Vec::new();
    for net in [by_origin_net(&mut random), set_image_net(&mut random)] {
        let list = picks(&mut random, &net, 20);
        for length in 0..=20 {
            let calls = (0..=20).map(|room| call_into(&list[..length], room));
            records.push(image(&write_image(&net), calls.collect()));
        }
    }
    for (record, made) in records.iter().zip(poll(&records)) {
        for (call, called) in record.calls.iter().zip(&made.calls) {
            let (picks, room) = (call.picks.len(), called.room);
            assert_eq!(room, picks <= call.length);
            let used = if room { picks } else { 0 };
            assert!(called.buffer[..used].iter().all(|byte| *byte <= 9));
            assert!(called.buffer[used..].iter().all(|byte| *byte == KEPT));
        }
    }
}

/// A call of no picks changes nothing, whatever its buffer, before, between
/// and after others; nor does it matter that there is no call at all.
#[test]
fn calls_of_no_picks() {
    let none = || [call_into(&[], 0), call_into(&[], 4), call_into(&[], 0)];
    let mut calls = none().to_vec();
    calls.push(call(&[0]));
    calls.extend(none());
    calls.push(call(&[0]));
    calls.extend(none());
    let paper = made(image(&PAPER_IMAGE, calls));
    let empty: [&[u8]; 3] = [&[], &[KEPT; 4], &[]];
    let [first, second]: [&[&[u8]]; 2] = [&[&[0]], &[&[1]]];
    let expected = [&empty, first, &empty, second, &empty].concat();
    assert_eq!(buffers(&paper), expected);
    let found = digests(&paper);
    let (start, put, stopped) = (found[0], found[3], found[7]);
    assert!(start != put && put != stopped);
    let expected = [[start; 3].to_vec(), vec![put; 4], vec![stopped; 4]];
    assert_eq!(found, expected.concat());
    for net in [longest(), longest_of_format_2()] {
        assert_eq!(made(image(&write_image(&net), Vec::new())).net, net);
    }
    assert_eq!(made(text(b"", Vec::new())).net, Net::empty());
}

#[test]
fn a_longer_buffer_keeps_its_rest() {
    for more in [1, 2, 255, 256, 65_535 - 3] {
        let list = [0, 0, 0xF1];
        let paper = made(image(&PAPER_IMAGE, vec![call_into(&list, 3 + more)]));
        let called = &paper.calls[0];
        assert!(called.room);
        assert_eq!(called.buffer[..3], [0, 1, 9]);
        assert_eq!(called.buffer[3..], vec![KEPT; more]);
    }
}

/// 65,535 picks in one call, with all the room there can be and with one byte
/// less.
#[test]
fn the_longest_calls() {
    let mut random = Random::new(703);
    let list: Vec<u8> = (0..65_535).map(|_| random.byte()).collect();
    let calls = || vec![call_into(&list, 65_534), call(&list), call(&list)];
    let nets = [longest(), longest_of_format_2()].map(|net| image(&write_image(&net), calls()));
    let stop = image(&ONE_STOP, calls());
    for made in poll(&[&nets[..], &[stop]].concat()) {
        let room: Vec<bool> = made.calls.iter().map(|called| called.room).collect();
        assert_eq!(room, [false, true, true]);
        assert!(made.answers.iter().all(|answer| *answer <= 9));
    }
}

// By hand.

/// The picks in one call, one by one, and in calls of two with none between:
/// always the same answers and the same net in the end.
fn in_each_way(source: &Source, picks: &[u8]) -> Made {
    let one = vec![call(picks)];
    let each = picks.iter().map(|pick| call(&[*pick])).collect();
    let twos = picks.chunks(2).flat_map(|two| [call(two), call(&[])]);
    let ways = [one, each, twos.collect()];
    let records = ways.map(|calls| Record {
        source: source.clone(),
        calls,
    });
    let [one, others @ ..] = &poll(&records)[..] else {
        panic!("three records")
    };
    for other in others {
        assert_eq!((&one.answers, &one.net), (&other.answers, &other.net));
    }
    one.clone()
}

/// The edges of the paper.
#[test]
fn the_edges() {
    for edge in edges() {
        in_each_way(&Source::Image(edge.image), &edge.picks);
    }
}

/// As images and as texts.
#[test]
fn the_examples() {
    for example in examples() {
        let picks = example.pick_bytes();
        let sources = [
            Source::Image(example.image()),
            Source::Text(example.text.as_bytes().to_vec()),
        ];
        let [one, other] = sources.map(|source| in_each_way(&source, &picks));
        assert_eq!((one.answers, one.net), (other.answers, other.net));
    }
    let refused = in_each_way(&Source::Image(damaged::image()), &damaged::picks());
    assert!(refused.answers.iter().all(|answer| *answer == 10));
}

/// The runs of rows by origin and of sets that start at a net which an image
/// can carry.
#[test]
fn stated_runs() {
    let mut tried = 0;
    for stated in by_origin::all().into_iter().chain(sets::all()) {
        let (run, name) = (&stated.run, &stated.name);
        let Ok(image) = image_of(&run.net) else {
            continue;
        };
        let made = in_each_way(&Source::Image(image), &run.picks);
        assert_eq!(made.answers, stated.answers, "{name}");
        if let Some(after) = &stated.after {
            assert_eq!(made.net, *after, "{name}");
        }
        tried += 1;
    }
    assert!(tried > 20, "{tried}");
}

/// Each of the 256 picks as the first one after opening.
#[test]
fn every_first_pick() {
    let mut random = Random::new(704);
    let makes: [fn(&mut Random) -> Net; 3] = [by_origin_net, set_image_net, sending_net];
    let mut records = Vec::new();
    for make in makes {
        let bytes = write_image(&make(&mut random));
        records.extend((0..=255).map(|pick| image(&bytes, vec![call(&[pick])])));
    }
    poll(&records);
}

// Random picks, all from accepted sources: 1,400,000 in all. Of these 600,000
// are from images with all actions of their format, half of each format;
// 100,000 from images of either format in which code is sent, sent on and
// forked; 300,000 from images of format 2 in which origins matter and addresses
// are opened; 200,000 from images with outs to a set; 200,000 from texts, half
// of each format. They come in calls of no pick, of one, of up to 60, and of
// all that a run has.
//
// Every answer but 10 is met often. 10 is never met: it is for refused sources
// alone. Nor is 4 at an out to a set: what code needs at written targets, at
// self and at sets it has from its admission on.

/// Picks for a run from this net: many perform, and some are any byte.
fn some_picks(random: &mut Random, net: &Net, count: usize) -> Vec<u8> {
    let any = random.choose(&[0, 5, 30]);
    let mut list = picks(random, net, count);
    for byte in &mut list {
        if random.percent(any) {
            *byte = random.byte() & random.choose(&[0xFF, 0xFC]);
        }
    }
    list
}

/// A list made in one call, one by one, or in calls of any length, some of
/// them first without room, some into a longer buffer.
fn in_calls(random: &mut Random, list: &[u8]) -> Vec<Call> {
    let (way, mut calls, mut rest) = (random.below(30), Vec::new(), list);
    while !rest.is_empty() {
        let length = match way {
            0 | 1 => rest.len(),
            2 => 1,
            _ => some_length(random),
        };
        let (part, after) = rest.split_at(length.min(rest.len()));
        if length > 0 && random.percent(5) {
            calls.push(call_into(part, random.below(part.len())));
        }
        let more = random.choose(&[0, 0, 0, 1, 9]);
        calls.push(call_into(part, part.len() + more));
        rest = after;
    }
    calls
}

fn some_length(random: &mut Random) -> usize {
    match random.below(10) {
        0 => 0,
        1..=3 => 1,
        4..=8 => random.between(2, 20),
        _ => random.between(20, 60),
    }
}

fn from_net(random: &mut Random, net: &Net, count: usize) -> Record {
    let list = some_picks(random, net, count);
    image(&write_image(net), in_calls(random, &list))
}

fn from_image_of(random: &mut Random, format: u8) -> Record {
    let mut nets = std::iter::repeat_with(|| valid_net_of(random, format));
    let net = nets.find(|net| image_of(net).is_ok()).expect("most are");
    from_net(random, &net, 200)
}

fn from_text_of(random: &mut Random, format: u8) -> Record {
    let mut texts = std::iter::repeat_with(|| valid_text_of(random, format));
    let opened = texts.find_map(|bytes| {
        let net = read_text(&bytes).ok()?;
        (bytes.len() <= 65_535).then_some((bytes, net))
    });
    let (bytes, net) = opened.expect("most are accepted");
    let list = some_picks(random, &net, 200);
    text(&bytes, in_calls(random, &list))
}

fn from_image_of_format_1(random: &mut Random) -> Record {
    from_image_of(random, SINGLE_ROW)
}

fn from_image_of_format_2(random: &mut Random) -> Record {
    from_image_of(random, ROW_BY_ORIGIN)
}

fn from_text_of_format_1(random: &mut Random) -> Record {
    from_text_of(random, SINGLE_ROW)
}

fn from_text_of_format_2(random: &mut Random) -> Record {
    from_text_of(random, ROW_BY_ORIGIN)
}

fn from_sending_net(random: &mut Random) -> Record {
    let net = sending_net(random);
    from_net(random, &net, 100)
}

fn from_by_origin_net(random: &mut Random) -> Record {
    let net = by_origin_net(random);
    from_net(random, &net, 100)
}

fn from_set_net(random: &mut Random) -> Record {
    let net = set_image_net(random);
    from_net(random, &net, 100)
}

/// Lists are made in calls of each sort.
#[test]
fn calls_of_each_sort() {
    let mut random = Random::new(705);
    // Of no pick, of one, of some, of all, without room, with more than
    // enough.
    let mut met = [0; 6];
    for _ in 0..1_000 {
        let calls = in_calls(&mut random, &[0; 100]);
        let made = calls.iter().filter(|call| call.picks.len() <= call.length);
        assert_eq!(made.map(|call| call.picks.len()).sum::<usize>(), 100);
        for Call { picks, length } in &calls {
            let count = picks.len();
            let some = 1 < count && count < 100;
            let sorts = [count == 0, count == 1, some, count == 100];
            let rooms = [*length < count, *length > count];
            let sorts = sorts.into_iter().chain(rooms);
            let both = met.iter_mut().zip(sorts);
            both.for_each(|(met, sort)| *met += usize::from(sort));
        }
    }
    assert!(met.iter().all(|count| *count > 20), "{met:?}");
}

/// The answer 4 is met at targets in a variable alone: the engine looks up no
/// other right.
#[test]
fn rights_are_lacking_at_variables_alone() {
    let mut random = Random::new(706);
    let mut met = 0;
    for _ in 0..1_000 {
        let record = from_image_of_format_1(&mut random);
        let records = [
            record,
            from_by_origin_net(&mut random),
            from_set_net(&mut random),
        ];
        met += records.iter().map(lacking_at_variables).sum::<usize>();
    }
    assert!(met > 1_000, "{met}");
}

/// How often the model answers a pick of a record with 4, each time at a
/// variable.
fn lacking_at_variables(record: &Record) -> usize {
    let Source::Image(image) = &record.source else {
        panic!("an image")
    };
    let mut net = read_image(image).expect("it is accepted");
    let mut met = 0;
    for pick in record.calls.iter().flat_map(|call| &call.picks) {
        let node = &net.nodes[usize::from(pick_address(*pick).0)];
        let process = node.processes[usize::from(pick_slot(*pick))];
        let action = net.code[usize::from(process.at.0)].action;
        if step(&mut net, *pick) == RIGHT_LACKING {
            assert!(at_a_variable(&action), "{action:?}");
            met += 1;
        }
    }
    met
}

fn at_a_variable(action: &Action) -> bool {
    match action {
        Action::Out { target, .. }
        | Action::In { target, .. }
        | Action::Read { target, .. }
        | Action::Eval { target, .. } => matches!(target, Target::Variable(_)),
        _ => false,
    }
}

/// Makes so many records of accepted sources, of so many picks in all, and
/// says how often each answer was met.
fn poll_many(
    seed: u64,
    count: usize,
    picks: usize,
    make: fn(&mut Random) -> Record,
) -> [usize; 11] {
    let met = met_in_batches(seed, count, make, |records| {
        let made = poll(records).into_iter();
        made.flat_map(|made| made.answers).collect()
    });
    assert_eq!((met.iter().sum::<usize>(), met[10]), (picks, 0));
    println!("answers 0 to 10: {met:?}");
    met
}

/// That these answers were met, each in one of a thousand picks.
fn assert_met(met: [usize; 11], answers: &[usize]) {
    let least = met.iter().sum::<usize>() / 1_000;
    let often = answers.iter().all(|answer| met[*answer] > least);
    assert!(often, "{met:?}");
}

const ALL: [usize; 10] = [0, 1, 2, 3, 4, 5, 6, 7, 8, 9];

#[test]
fn picks_from_images_of_format_1() {
    assert_met(poll_many(711, 1_500, 300_000, from_image_of_format_1), &ALL);
}

#[test]
fn picks_from_images_of_format_2() {
    assert_met(poll_many(712, 1_500, 300_000, from_image_of_format_2), &ALL);
}

/// With all rights.
#[test]
fn picks_of_sent_code() {
    let met = poll_many(713, 1_000, 100_000, from_sending_net);
    assert_met(met, &[0, 1, 3, 7, 8, 9]);
}

#[test]
fn picks_of_code_judged_by_its_origin() {
    assert_met(poll_many(714, 3_000, 300_000, from_by_origin_net), &ALL);
}

/// No target is a variable, so that 4 is not met.
#[test]
fn picks_of_outs_to_a_set() {
    let met = poll_many(715, 2_000, 200_000, from_set_net);
    assert_met(met, &[0, 1, 2, 3, 5, 6, 7, 8, 9]);
    assert_eq!(met[4], 0);
}

#[test]
fn picks_from_texts_of_format_1() {
    assert_met(poll_many(716, 500, 100_000, from_text_of_format_1), &ALL);
}

#[test]
fn picks_from_texts_of_format_2() {
    assert_met(poll_many(717, 500, 100_000, from_text_of_format_2), &ALL);
}
