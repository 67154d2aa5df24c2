//! The nets of the examples, and what a reader is told of each.

use super::names::NameEntries;
use super::Example;
use crate::by_hand::*;
use crate::net::*;

pub(super) fn start(net: &mut Net, at: usize, place: u16) {
    let slot = net.nodes[at].free_slot().expect("at most four processes");
    net.nodes[at].processes[slot] = Process::starting(Place(place), Locality(at as u8));
}

pub fn put_and_take() -> Example {
    Example {
        name: "put_and_take",
        title: "Put and take",
        about: "\
Address 0 puts the reading 5 at address 1, where a process waits to take a reading.
The tuple `<@0>` that address 1 holds from the start is an address, so it does not fit
and is still there at the end.
",
        text: "\
0 has 1:o
1 has 1:i
0 :: out(5)@1.nil
1 :: in(!x0)@self.nil
1 :: <@0>
",
        net: put_and_take_net(),
        picks: &[
            (0x10, "in: only `<@0>` is there, and it does not fit"),
            (0x00, "out: address 1 now holds `<@0>` and `<5>`"),
            (0x10, "in: takes `<5>`, x0 is 5"),
            (0x10, "stop: the slot is free"),
            (0x00, "stop: the slot is free"),
            (0x00, "nothing: the slot is free"),
        ],
        listing: Some(PUT_AND_TAKE_LISTING),
        names: None,
    }
}

/// As the old program prints the run: numbers padded to one width in each
/// column, no mark, no total.
const PUT_AND_TAKE_LISTING: &str = "\
net 02 004
pick 00001 01 0 02
pick 00002 00 0 00
pick 00003 01 0 00
pick 00004 01 0 01
pick 00005 00 0 01
pick 00006 00 0 07
node 00 00 0
node 01 01 0
tuple 01 @00
";

fn put_and_take_net() -> Net {
    let code = [
        out(written(1), &[TemplateField::Reading(5)], 1),
        Instruction::STOP,
        take(OWN, &[TemplateField::FormalReading(0)], 3),
    ];
    let mut net = net(2, &code);
    grant(&mut net, 0, 1, PUT);
    grant(&mut net, 1, 1, TAKE);
    start(&mut net, 1, 2);
    fill(&mut net, 1, &[one_address(0)]);
    net
}

pub fn moved_process() -> Example {
    Example {
        name: "moved_process",
        title: "A moved process",
        about: "\
Address 0 reads a reading and sends code to address 1. The sent process takes a copy of
the variables with it, and `self` in it means address 1, where it runs: in the register its
tuple is `from 1`. What it may do is for the row of address 1 to say: address 0 itself may
put nothing anywhere.
",
        text: "\
0 has 0:r 1:e
1 has 1:o
0 :: read(!x0)@self.eval(out(v0,self)@self.nil)@1.nil
0 :: <7>
",
        net: moved_process_net(),
        picks: &[
            (0x10, "nothing: no process at address 1 yet"),
            (0x00, "read: x0 is 7, `<7>` stays"),
            (0x00, "eval: the sent process stands in slot 0 of address 1"),
            (0x10, "out, at address 1: puts `<7,@1>` there"),
            (0x10, "stop: the sent process ends"),
            (0x00, "stop: the sender ends"),
        ],
        listing: None,
        names: None,
    }
}

fn moved_process_net() -> Net {
    let code = [
        read(OWN, &[TemplateField::FormalReading(0)], 1),
        eval(written(1), 2, 4),
        out(OWN, &[TemplateField::Variable(0), TemplateField::Own], 3),
        Instruction::STOP,
    ];
    let mut net = net(2, &code);
    grant(&mut net, 0, 0, READ);
    grant(&mut net, 0, 1, SEND);
    grant(&mut net, 1, 1, PUT);
    fill(&mut net, 0, &[readings(&[7])]);
    net
}

pub fn new_address() -> Example {
    Example {
        name: "new_address",
        title: "A new address",
        about: "\
Address 0 may create and has no other right. What it creates becomes address 1: it then
holds all four rights there, and so does address 1 over itself. Address 0 puts a tuple at
the new address and sends code there that takes it.
",
        text: "\
0 has n
0 :: newloc(u0).out(5,v0)@v0.eval(in(!x1,!u2)@self.out(v1)@self.A0)@v0.A0
A0 = nil
",
        net: new_address_net(),
        picks: &[
            (0x10, "nothing: address 1 is not in use"),
            (0x00, "newloc: address 1 is opened, u0 is @1"),
            (0x10, "nothing: address 1 is in use now, its slot is free"),
            (0x00, "out: puts `<5,@1>` at address 1"),
            (0x00, "eval: the sent process stands in slot 0 of address 1"),
            (0x10, "in, at address 1: takes `<5,@1>`, x1 is 5, u2 is @1"),
            (0x10, "out, at address 1: puts `<5>` there"),
            (0x10, "stop: the sent process ends"),
            (0x00, "stop: the creator's process ends"),
        ],
        listing: None,
        names: None,
    }
}

fn new_address_net() -> Net {
    let held = Target::Variable(0);
    let formals = [
        TemplateField::FormalReading(1),
        TemplateField::FormalAddress(2),
    ];
    let code = [
        new(0, 1),
        out(
            held,
            &[TemplateField::Reading(5), TemplateField::Variable(0)],
            2,
        ),
        eval(held, 3, 5),
        take(OWN, &formals, 4),
        out(OWN, &[TemplateField::Variable(1)], 5),
    ];
    let mut net = net(1, &code);
    grant_create(&mut net, 0);
    net
}

pub fn tenant() -> Example {
    Example {
        name: "tenant",
        title: "A tenant",
        about: "\
Address 2 is the tenant's; 0 and 1 are ours. The fence of demand 3 stands in the rows: no
row of ours grants anything over address 2, and the tenant's row grants no creation and,
over ours, nothing but r. So the tenant reads the opening at address 0 and keeps it at its
own node, but cannot put a tuple where our units would meet it.

Strike out the picks of address 2, or make others of that address instead: the answers to
the picks of 0 and 1, and what is at these addresses at the end, stay the same.
",
        text: "\
0 has 0:o 1:o
1 has 1:i
2 has 0:r 2:io
0 :: out(40)@self.out(40)@1.nil
1 :: in(!x0)@self.nil
2 :: in(!u0)@self.read(!x1)@v0.out(v1)@self.out(v1)@v0.nil
2 :: <@0>
",
        net: tenant_net(),
        picks: &TENANT_PICKS,
        listing: None,
        names: None,
    }
}

const TENANT_PICKS: [(u8, &str); 12] = [
    (0x20, "the tenant's in: takes `<@0>`, u0 is @0"),
    (0x20, "the tenant's read at address 0: no tuple there yet"),
    (0x10, "our in at address 1: no tuple there yet"),
    (0x00, "our out: puts `<40>` at address 0"),
    (
        0x20,
        "the tenant's read at address 0: x1 is 40, `<40>` stays",
    ),
    (0x20, "the tenant's out: puts `<40>` at its own node"),
    (0x20, "the tenant's out at address 0: it lacks o there"),
    (0x00, "our out: puts `<40>` at address 1"),
    (0x10, "our in at address 1: takes `<40>`, x0 is 40"),
    (0x20, "the tenant's out at address 0: it lacks o there"),
    (0x00, "stop: our process at address 0 ends"),
    (0x10, "stop: our process at address 1 ends"),
];

fn tenant_net() -> Net {
    let opening = [TemplateField::Reading(40)];
    let (held, found) = (Target::Variable(0), [TemplateField::Variable(1)]);
    let code = [
        out(OWN, &opening, 1),
        out(written(1), &opening, 2),
        Instruction::STOP,
        take(OWN, &[TemplateField::FormalReading(0)], 4),
        Instruction::STOP,
        take(OWN, &[TemplateField::FormalAddress(0)], 6),
        read(held, &[TemplateField::FormalReading(1)], 7),
        out(OWN, &found, 8),
        out(held, &found, 9),
    ];
    let mut net = net(3, &code);
    start(&mut net, 1, 3);
    start(&mut net, 2, 5);
    grant(&mut net, 0, 0, PUT);
    grant(&mut net, 0, 1, PUT);
    grant(&mut net, 1, 1, TAKE);
    grant(&mut net, 2, 0, READ);
    grant(&mut net, 2, 2, Rights { take: true, ..PUT });
    fill(&mut net, 2, &[one_address(0)]);
    net
}

pub fn named_stations() -> Example {
    Example {
        name: "named_stations",
        title: "Named stations",
        about: "\
An opening goes from the upper gate by the pump house to the spillway, which reads it. In the
register each `node` line ends with the name of its station, where it has one; nothing else
of the register is different.
",
        text: "\
0 has 1:o
1 has 1:i 2:o
2 has 2:r
3 has
0 :: out(40)@1.nil
1 :: in(!x0)@self.out(v0)@2.nil
2 :: read(!x0)@self.nil
",
        net: named_stations_net(),
        picks: &[
            (0x20, "read: no tuple at address 2 yet"),
            (0x00, "out: puts `<40>` at address 1"),
            (0x10, "in: takes `<40>`, x0 is 40"),
            (0x10, "out: puts `<40>` at address 2"),
            (0x20, "read: x0 is 40, `<40>` stays"),
            (0x00, "stop: the slot is free"),
            (0x10, "stop: the slot is free"),
            (0x20, "stop: the slot is free"),
        ],
        listing: None,
        names: Some(NameEntries {
            site: &[(0, "upper-gate"), (2, "spillway"), (2, "old-weir")],
            office: &[(0, "gate-17"), (1, "pump-house")],
        }),
    }
}

fn named_stations_net() -> Net {
    let (any, held) = (
        [TemplateField::FormalReading(0)],
        [TemplateField::Variable(0)],
    );
    let code = [
        out(written(1), &[TemplateField::Reading(40)], 1),
        Instruction::STOP,
        take(OWN, &any, 3),
        out(written(2), &held, 4),
        Instruction::STOP,
        read(OWN, &any, 6),
    ];
    let mut net = net(4, &code);
    start(&mut net, 1, 2);
    start(&mut net, 2, 5);
    grant(&mut net, 0, 1, PUT);
    grant(&mut net, 1, 1, TAKE);
    grant(&mut net, 1, 2, PUT);
    grant(&mut net, 2, 2, READ);
    net
}
