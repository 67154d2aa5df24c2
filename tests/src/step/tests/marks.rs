//! The marks of tuples: which an out gives, and that no in or read asks for
//! them.

use super::*;

const SEVEN: [TemplateField; 1] = [TemplateField::Reading(7)];
const ANY: [TemplateField; 1] = [TemplateField::FormalReading(1)];

/// A net whose process at address 0 has all rights over three addresses.
fn three(code: &[Instruction]) -> Net {
    let mut net = net(3, code);
    (0..3).for_each(|over| grant(&mut net, 0, over, Rights::ALL));
    net
}

/// The tuples that a node holds.
fn held(net: &Net, at: usize) -> &[Tuple] {
    let node = &net.nodes[at];
    &node.tuples[..node.tuple_count as usize]
}

#[test]
fn an_out_bears_its_host_s_address() {
    for host in 0..3 {
        for target in 0..3 {
            let mut net = net(3, &[out(written(target), &SEVEN, 1)]);
            net.nodes.swap(0, host as usize);
            grant(&mut net, host as usize, target as usize, PUT);
            assert_eq!(pick(&mut net, host << 4), 0);
            assert_eq!(held(&net, target as usize), [from(host, readings(&[7]))]);
        }
    }
}

/// Neither the sender's address nor that of the node where it is put.
#[test]
fn an_out_of_sent_code_bears_the_address_where_it_runs() {
    for target in [OWN, written(0), written(2)] {
        let mut net = three(&[eval(FAR, 1, 2), out(target, &SEVEN, 2)]);
        (0..3).for_each(|over| grant(&mut net, 1, over, PUT));
        assert_eq!(pick(&mut net, 0), 0);
        assert_eq!(pick(&mut net, 0x10), 0);
        let at = match target {
            Target::Written(address) => address.0.into(),
            _ => 1,
        };
        assert_eq!(held(&net, at), [from(1, readings(&[7]))]);
    }
}

/// A tuple that is taken or read, and put again, is the last one's that put
/// it.
#[test]
fn a_mark_is_not_handed_on() {
    let put = [TemplateField::Variable(1)];
    for action in [take, read] {
        let mut net = three(&[action(FAR, &ANY, 1), out(written(2), &put, 2)]);
        fill_marked(&mut net, 1, &[from(2, readings(&[7]))]);
        assert_eq!([pick(&mut net, 0), pick(&mut net, 0)], [0, 0]);
        assert_eq!(held(&net, 2), [from(0, readings(&[7]))]);
    }
}

#[test]
fn in_and_read_ask_for_no_mark() {
    for mark in 0..3 {
        for fields in [SEVEN, ANY] {
            let mut net = three(&[read(FAR, &fields, 1), take(FAR, &fields, 2)]);
            fill_marked(&mut net, 1, &[from(mark, readings(&[7]))]);
            assert_eq!(pick(&mut net, 0), 0);
            assert_eq!(held(&net, 1), [from(mark, readings(&[7]))]);
            assert_eq!(pick(&mut net, 0), 0);
            assert_eq!(net.nodes[1], Node::ZERO);
        }
    }
}

/// The mark is no field.
#[test]
fn a_mark_is_not_matched() {
    let with_mark = [SEVEN[0], TemplateField::FormalAddress(2)];
    let mark_alone = [TemplateField::Address(Locality(2))];
    for fields in [&with_mark[..], &mark_alone] {
        let mut net = three(&[take(FAR, fields, 1)]);
        fill_marked(&mut net, 1, &[from(2, readings(&[7]))]);
        assert_eq!(unchanged(&net), 2);
    }
}

/// The oldest that fits, whatever the marks; the others keep theirs.
#[test]
fn the_oldest_is_chosen_whatever_its_mark() {
    for marks in [[0, 1, 2], [2, 1, 0], [1, 1, 0], [0, 0, 0]] {
        let [odd, first, second] = marks;
        let odd = from(odd, one_address(0));
        let (first, second) = (from(first, readings(&[7])), from(second, readings(&[8])));
        let mut net = three(&[read(FAR, &ANY, 1), take(FAR, &ANY, 2)]);
        fill_marked(&mut net, 1, &[odd, first, second]);
        for left in [&[odd, first, second][..], &[odd, second]] {
            assert_eq!(pick(&mut net, 0), 0);
            assert_eq!(net.nodes[0].processes[0].variables[1], Value::Reading(7));
            assert_eq!(held(&net, 1), left);
        }
    }
}

/// Of tuples that differ in their marks alone the older goes first.
#[test]
fn the_older_of_two_alike_is_taken() {
    let mut net = three(&[take(FAR, &SEVEN, 0)]);
    fill_marked(
        &mut net,
        1,
        &[2, 0, 1].map(|mark| from(mark, readings(&[7]))),
    );
    for left in [&[0, 1][..], &[1], &[]] {
        assert_eq!(pick(&mut net, 0), 0);
        let marks: Vec<u8> = held(&net, 1).iter().map(|tuple| tuple.from.0).collect();
        assert_eq!(marks, left);
        assert!(sound(&net));
    }
    assert_eq!(net.nodes[1], Node::ZERO);
}

/// Of 16 tuples with different marks each is taken in turn.
#[test]
fn marks_survive_takes_of_others() {
    let tuples: Vec<Tuple> = (0..16)
        .map(|index| from(index, readings(&[index.into()])))
        .collect();
    for taken in 0..16 {
        let mut net = net(16, &[take(FAR, &[TemplateField::Reading(taken)], 1)]);
        grant(&mut net, 0, 1, TAKE);
        fill_marked(&mut net, 1, &tuples);
        let (answer, after) = picked(&net);
        assert_eq!(answer, 0);
        let mut left = tuples.clone();
        left.remove(taken as usize);
        assert_eq!(held(&after, 1), left);
        assert_eq!(after.nodes[1].tuples[15], Tuple::ZERO);
    }
}

/// Not below the address count, or on a record past the tuple count.
#[test]
fn an_unsound_mark_is_10() {
    let mut net = three(&[]);
    fill(&mut net, 1, &[readings(&[7])]);
    for (at, index, mark) in [
        (1, 0, 3),
        (1, 0, 255),
        (1, 1, 1),
        (2, 0, 2),
        (0, 15, 1),
        (3, 0, 1),
    ] {
        let mut damaged = net.clone();
        damaged.nodes[at].tuples[index].from = Locality(mark);
        assert_eq!(unchanged(&damaged), 10);
    }
    net.nodes[1].tuples[0].from = Locality(2);
    assert_eq!(picked(&net).0, 1);
}
