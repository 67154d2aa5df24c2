//! Runs by hand with outs to a set (document 02, slip 11): each with the
//! answer to every pick and the net at the end. In all of them node 0 is the
//! host; rows and stores are such as images give, and such as none gives.

use crate::by_hand::*;
use crate::by_origin::{grant_all_but, idle, start, Stated};
use crate::net::*;

/// All of them.
pub fn all() -> Vec<Stated> {
    let parts = [room(), rights(), empty(), variables(), hosts(), many()];
    let others = [origins(), admission()];
    parts.into_iter().chain(others).flatten().collect()
}

const FIVE: [TemplateField; 1] = [TemplateField::Reading(5)];

/// A net of so many addresses whose process at address 0 puts `<5>` to these
/// members and then stops, with o at all addresses.
fn putting(addresses: u8, members: &[u8]) -> Net {
    let mut net = idle(addresses, &[out_to_set(members, &FIVE, 1)]);
    start(&mut net, 0, 0, 0);
    (0..addresses as usize).for_each(|over| grant_from(&mut net, 0, 0, over, PUT));
    net
}

/// Gives a node so many tuples.
fn hold(net: &mut Net, at: usize, count: usize) {
    fill(net, at, &[readings(&[3]); TUPLES][..count]);
}

/// Takes all rights over an address from the process of a net by hand but
/// those that are not o.
fn bar(net: &mut Net, over: usize) {
    let others = Rights {
        put: false,
        ..Rights::ALL
    };
    grant_from(net, 0, 0, over, others);
}

/// A pick that is answered with this number and leaves the net as it was.
fn refused(name: &str, net: Net, answer: u8) -> Stated {
    let before = net.clone();
    Stated::new(name, net, &[0], &[answer]).ending(before)
}

/// A pick that is performed: each of these members has this tuple as its
/// newest, with the mark of node 0, and the process goes to place 1.
fn performed(name: &str, net: Net, members: &[u8], tuple: Tuple) -> Stated {
    let mut after = net.clone();
    for member in members {
        let node = &mut after.nodes[*member as usize];
        node.tuples[node.tuple_count as usize] = from(0, tuple);
        node.tuple_count += 1;
    }
    after.nodes[0].processes[0].at = Place(1);
    Stated::new(name, net, &[0], &[0]).ending(after)
}

/// Two members, of which the first, the second, both or neither is full.
fn room() -> Vec<Stated> {
    let holding = |first, second| {
        let mut net = putting(3, &[1, 2]);
        hold(&mut net, 1, first);
        hold(&mut net, 2, second);
        net
    };
    let mut all = vec![
        refused("two members, the second full", holding(0, 16), 3),
        refused("two members, the first full", holding(16, 0), 3),
        refused("two members, both full", holding(16, 16), 3),
        refused(
            "two members, the second full, one room at the first",
            holding(15, 16),
            3,
        ),
    ];
    for (first, second) in [(0, 0), (15, 15), (0, 15), (7, 3)] {
        let name = format!("two members that hold {first} and {second} tuples");
        all.push(performed(
            &name,
            holding(first, second),
            &[1, 2],
            readings(&[5]),
        ));
    }
    // The last room, and then none.
    let mut net = holding(0, 15);
    net.code[0] = out_to_set(&[1, 2], &FIVE, 0);
    all.push(Stated::new(
        "two members, twice, with one room at the second",
        net,
        &[0, 0],
        &[0, 3],
    ));
    // Another address that is full is of no matter.
    let mut net = holding(0, 0);
    hold(&mut net, 0, 16);
    all.push(performed(
        "two members, another address full",
        net,
        &[1, 2],
        readings(&[5]),
    ));
    all
}

/// A member without o, whatever the room: 4 comes before 3.
fn rights() -> Vec<Stated> {
    let mut all = Vec::new();
    for (barred, others) in [(1, [2, 3]), (2, [1, 3]), (3, [1, 2])] {
        let mut net = putting(4, &[1, 2, 3]);
        bar(&mut net, barred);
        let name = format!("three members, {barred} barred");
        all.push(refused(&name, net.clone(), 4));
        for full in others.into_iter().chain([barred]) {
            let mut net = net.clone();
            hold(&mut net, full, 16);
            let name = format!("three members, {barred} barred and {full} full");
            all.push(refused(&name, net, 4));
        }
    }
    let mut net = putting(3, &[1, 2]);
    hold(&mut net, 1, 16);
    bar(&mut net, 2);
    all.push(refused("second barred and first full", net, 4));
    let mut net = putting(3, &[1, 2]);
    bar(&mut net, 0);
    net.nodes[1].rows = Node::ZERO.rows;
    all.push(performed(
        "a barred address that is no member",
        net,
        &[1, 2],
        readings(&[5]),
    ));
    all
}

/// The empty set needs neither right nor room.
fn empty() -> Vec<Stated> {
    let mut net = putting(2, &[]);
    let mut without = net.clone();
    (0..2).for_each(|over| bar(&mut without, over));
    (0..2).for_each(|at| hold(&mut net, at, 16));
    vec![
        performed("the empty set, all stores full", net, &[], readings(&[5])),
        performed("the empty set, no right o", without, &[], readings(&[5])),
        performed("the empty set, alone", putting(1, &[]), &[], readings(&[5])),
    ]
}

/// 6 at an unset variable comes before 4 and 3, and at the empty set before 0.
fn variables() -> Vec<Stated> {
    let mut all = Vec::new();
    for members in [&[][..], &[1], &[0, 1, 2]] {
        let mut net = putting(3, members);
        let fields = [TemplateField::Own, TemplateField::Variable(3)];
        net.code[0] = out_to_set(members, &fields, 1);
        let name = format!("to {members:?} with a variable unset");
        all.push(refused(&name, net.clone(), 6));
        for (held, field) in [
            (Value::Reading(-7), reading(-7)),
            (Value::Address(Locality(2)), address(2)),
        ] {
            let mut net = net.clone();
            net.nodes[0].processes[0].variables[3] = held;
            let name = format!("to {members:?} with the variable set");
            let tuple = Tuple::of(&[address(0), field]);
            all.push(performed(&name, net, members, tuple));
        }
        bar(&mut net, 1);
        hold(&mut net, 2, 16);
        let name = format!("to {members:?} with a variable unset, 1 barred and 2 full");
        all.push(refused(&name, net, 6));
    }
    all
}

/// The host may be a member: it needs o over itself and room of its own.
fn hosts() -> Vec<Stated> {
    let net = putting(2, &[0, 1]);
    let (mut full, mut barred) = (net.clone(), net.clone());
    hold(&mut full, 0, 16);
    bar(&mut barred, 0);
    let mut both = full.clone();
    bar(&mut both, 0);
    vec![
        performed("the host and another", net, &[0, 1], readings(&[5])),
        performed("the host alone", putting(1, &[0]), &[0], readings(&[5])),
        refused("the host and another, the host full", full, 3),
        refused("the host and another, the host barred", barred, 4),
        refused("the host and another, the host full and barred", both, 4),
    ]
}

/// All 16 addresses, and the last of them full or barred.
fn many() -> Vec<Stated> {
    let members: Vec<u8> = (0..16).collect();
    let net = putting(16, &members);
    let mut all = vec![performed(
        "all 16 members",
        net.clone(),
        &members,
        readings(&[5]),
    )];
    for last in [0, 1, 14, 15] {
        let (mut full, mut barred) = (net.clone(), net.clone());
        hold(&mut full, last, 16);
        bar(&mut barred, last);
        all.push(refused(&format!("all 16 members, {last} full"), full, 3));
        all.push(refused(
            &format!("all 16 members, {last} barred"),
            barred,
            4,
        ));
    }
    // Each member alone: its bit is no other's.
    for member in 0..16 {
        let name = format!("of 16 addresses {member} alone");
        all.push(performed(
            &name,
            putting(16, &[member]),
            &[member],
            readings(&[5]),
        ));
    }
    all
}

/// By the host's row for the origin of the process, and no other row. The
/// mark is the host's, wherever the code came from.
fn origins() -> Vec<Stated> {
    let mut all = Vec::new();
    for origin in 0..3 {
        let mut net = idle(3, &[out_to_set(&[1, 2], &FIVE, 1)]);
        start(&mut net, 0, 0, origin);
        let mut lacking = net.clone();
        (1..3).for_each(|over| grant_from(&mut net, 0, origin.into(), over, PUT));
        let name = format!("to a set with o in the row for its origin, {origin}");
        all.push(performed(&name, net.clone(), &[1, 2], readings(&[5])));
        for over in 1..3 {
            grant_all_but(&mut lacking, 0, origin.into(), over, Rights::ALL);
            (1..3).for_each(|at| grant(&mut lacking, at, over, Rights::ALL));
        }
        let name = format!("to a set with all rights in all rows but that for {origin}");
        all.push(refused(&name, lacking.clone(), 4));
        grant_from(&mut lacking, 0, origin.into(), 1, PUT);
        let name = format!("to a set with o at one member in the row for {origin}");
        all.push(refused(&name, lacking, 4));
    }
    all
}

/// Sent code needs o at each member in the target's row for the sender, as it
/// arrives; the mark is then the target's.
fn admission() -> Vec<Stated> {
    let code = [eval(written(1), 1, 2), out_to_set(&[0, 2], &FIVE, 2)];
    let mut net = idle(3, &code);
    start(&mut net, 0, 0, 0);
    grant_from(&mut net, 0, 0, 1, SEND);
    (0..3).for_each(|over| {
        grant(
            &mut net,
            1,
            over,
            Rights {
                put: false,
                ..Rights::ALL
            },
        )
    });
    let mut all = vec![refused(
        "sent code with a set, o at no member",
        net.clone(),
        5,
    )];
    for only in [0, 2] {
        let mut net = net.clone();
        grant_from(&mut net, 1, 0, only, PUT);
        let name = format!("sent code with a set, o at {only} alone");
        all.push(refused(&name, net.clone(), 5));
        // In rows for other origins it is of no avail.
        grant_from(&mut net, 1, 1, 2 - only, PUT);
        grant_from(&mut net, 1, 2, 2 - only, PUT);
        let name = format!("sent code with a set, o at {only}, and for others at both");
        all.push(refused(&name, net, 5));
    }
    (0..3)
        .step_by(2)
        .for_each(|over| grant_from(&mut net, 1, 0, over, PUT));
    let mut after = net.clone();
    after.nodes[0].processes[0].at = Place(2);
    start(&mut after, 1, 2, 0);
    for member in [0, 2] {
        fill_marked(&mut after, member, &[from(1, readings(&[5]))]);
    }
    let name = "sent code with a set, o at each member";
    all.push(Stated::new(name, net, &[0, 0x10], &[0, 0]).ending(after));
    let mut none = idle(2, &[eval(written(1), 1, 2), out_to_set(&[], &FIVE, 2)]);
    start(&mut none, 0, 0, 0);
    grant_from(&mut none, 0, 0, 1, SEND);
    all.push(Stated::new(
        "sent code with the empty set",
        none,
        &[0, 0x10],
        &[0, 0],
    ));
    all
}

#[cfg(test)]
mod tests {
    use super::*;
    use crate::sound::sound;
    use crate::step::pick;

    #[test]
    fn each_run_is_as_stated() {
        for stated in all() {
            let (name, mut net) = (stated.name, stated.run.net);
            assert!(sound(&net), "{name}");
            let picks = stated.run.picks.iter();
            let found: Vec<u8> = picks.map(|byte| pick(&mut net, *byte)).collect();
            assert_eq!(found, stated.answers, "{name}");
            assert!(sound(&net), "{name}");
            if let Some(after) = stated.after {
                assert_eq!(net, after, "{name}");
            }
        }
    }
}
