//! The nets and picks that are timed. Their processes go on for ever.

use cavindorum_tests::by_hand::*;
use cavindorum_tests::image::{read_image, write_image};
use cavindorum_tests::net::*;
use cavindorum_tests::random::Random;
use cavindorum_tests::register::MOST_PICKS;
use cavindorum_tests::step::step;

/// An image and picks, as many as a register takes.
pub struct Work {
    pub name: &'static str,
    pub image: Vec<u8>,
    pub picks: Vec<u8>,
}

/// What is timed: each in format 1, three of them in format 2 as well, and
/// outs to a set, which format 2 alone knows.
pub fn all() -> [Work; 8] {
    [
        communication(),
        in_2("communication, format 2", communication()),
        communication_by_sets(),
        refused(),
        in_2("refused, format 2", refused()),
        evals(),
        in_2("evals, format 2", evals()),
        long_evals(),
    ]
}

// The same picks from the same net in format 2, where every origin has the
// same row: no address is opened, so that the answers are the same.
fn in_2(name: &'static str, work: Work) -> Work {
    let net = read_image(&work.image).expect("what is timed is accepted");
    let image = write_image(&in_format_2(net));
    Work {
        name,
        image,
        ..work
    }
}

const ADDRESS_COUNT: usize = 4;
const READING: TemplateField = TemplateField::FormalReading(0);
const ADDRESS: TemplateField = TemplateField::FormalAddress(1);

// A process at a place, starting at an address.
fn starting(place: usize, at: usize) -> Process {
    Process::starting(Place(place as u16), Locality(at as u8))
}

fn work(name: &'static str, net: &Net, picks: Vec<u8>) -> Work {
    let image = write_image(net);
    Work { name, image, picks }
}

// A pick of any slot at the addresses in the image.
fn any_slot(random: &mut Random) -> u8 {
    (random.below(ADDRESS_COUNT) << 4 | random.below(SLOTS) << 2) as u8
}

// Picks that are each answered with 0 or 1. Others change nothing, so
// that another is tried in their stead.
fn performing(start: &Net) -> Vec<u8> {
    let mut random = Random::new(401);
    let mut net = start.clone();
    let mut next = || loop {
        let pick = any_slot(&mut random);
        if step(&mut net, pick) <= 1 {
            return pick;
        }
    };
    (0..MOST_PICKS).map(|_| next()).collect()
}

/// Four processes at each of four addresses put a tuple at the next
/// address, read it there and take it again, beside six tuples that do not
/// fit. Every pick performs.
pub fn communication() -> Work {
    let mut net = stops(ADDRESS_COUNT as u8, 3 * ADDRESS_COUNT as u16);
    for at in 0..ADDRESS_COUNT {
        let next = (at + 1) % ADDRESS_COUNT;
        let (target, place) = (written(next as u8), 3 * at as u16);
        let put = [TemplateField::Reading(at as i32), TemplateField::Own];
        let held = [TemplateField::Variable(0), TemplateField::Variable(1)];
        let code = [
            out(target, &put, place + 1),
            read(target, &[READING, ADDRESS], place + 2),
            take(target, &held, place),
        ];
        net.code[3 * at..3 * at + 3].copy_from_slice(&code);
        net.nodes[at].processes = [starting(3 * at, at); SLOTS];
        let rights = Rights {
            send: false,
            ..Rights::ALL
        };
        grant(&mut net, at, next, rights);
        fill(&mut net, at, &[readings(&[1, 2, 3]); 6]);
    }
    work("communication", &net, performing(&net))
}

/// In format 2 four processes at each of four addresses put a tuple to the
/// next two addresses at once, read it at the first and take it again at both,
/// beside six tuples that do not fit. Every pick performs.
pub fn communication_by_sets() -> Work {
    let mut net = in_format_2(stops(ADDRESS_COUNT as u8, 4 * ADDRESS_COUNT as u16));
    for at in 0..ADDRESS_COUNT {
        let members = [1, 2].map(|further| ((at + further) % ADDRESS_COUNT) as u8);
        let [first, second] = members.map(written);
        let place = 4 * at as u16;
        let put = [TemplateField::Reading(at as i32), TemplateField::Own];
        let code = [
            out_to_set(&members, &put, place + 1),
            read(first, &[READING, ADDRESS], place + 2),
            take(first, &put, place + 3),
            take(second, &put, place),
        ];
        net.code[4 * at..4 * at + 4].copy_from_slice(&code);
        net.nodes[at].processes = [starting(4 * at, at); SLOTS];
        let rights = Rights {
            send: false,
            ..Rights::ALL
        };
        members
            .iter()
            .for_each(|member| grant(&mut net, at, (*member).into(), rights));
        fill(&mut net, at, &[readings(&[1, 2, 3]); 6]);
    }
    work("communication, sets", &net, performing(&net))
}

/// Full nodes, where an in finds nothing that fits (2), an out no room (3),
/// a read no right (4) and another an unset variable (6), and slots are
/// free (7). Picks of unused addresses (8) and malformed ones (9) are among
/// them.
pub fn refused() -> Work {
    let (unset, held) = (Target::Variable(7), Target::Variable(1));
    let code = [
        take(OWN, &[TemplateField::Reading(0)], 0),
        out(OWN, &[TemplateField::Reading(0)], 1),
        read(OWN, &[ADDRESS], 3),
        read(held, &[READING], 3),
        read(unset, &[READING], 4),
    ];
    let mut net = net(ADDRESS_COUNT as u8, &code);
    for at in 0..ADDRESS_COUNT {
        let rights = Rights {
            send: false,
            ..Rights::ALL
        };
        grant(&mut net, at, at, rights);
        let mut tuples = [readings(&[1]); TUPLES];
        tuples[15] = one_address(((at + 1) % ADDRESS_COUNT) as u8);
        fill(&mut net, at, &tuples);
        net.nodes[at].processes = [0, 1, 2, 4].map(|place| starting(place, at));
    }
    net.nodes[3].processes[3] = Process::FREE;
    let mut random = Random::new(402);
    let mut pick = || match random.below(10) {
        0 => random.byte(),
        _ => any_slot(&mut random),
    };
    let picks = (0..MOST_PICKS).map(|_| pick()).collect();
    work("refused", &net, picks)
}

/// At each address one process sends code to the next, over and over, and
/// what is sent stops: half the picks are evals, half stops.
pub fn evals() -> Work {
    let mut net = stops(ADDRESS_COUNT as u8, ADDRESS_COUNT as u16 + 1);
    for at in 0..ADDRESS_COUNT {
        let next = (at + 1) % ADDRESS_COUNT;
        net.code[at] = eval(written(next as u8), ADDRESS_COUNT as u16, at as u16);
        net.nodes[at].processes[0] = starting(at, at);
        grant(&mut net, at, next, SEND);
    }
    work("evals", &net, performing(&net))
}

/// The same with 507 instructions judged at each eval, and no free slot:
/// each pick is an eval that is judged and then answered with 3.
pub fn long_evals() -> Work {
    let mut net = stops(ADDRESS_COUNT as u8, 512);
    let first = ADDRESS_COUNT as u16;
    for at in first..511 {
        net.code[at as usize] = out(OWN, &[TemplateField::Own], at + 1);
    }
    for at in 0..ADDRESS_COUNT {
        let next = (at + 1) % ADDRESS_COUNT;
        net.code[at] = eval(written(next as u8), first, at as u16);
        net.nodes[at].processes = [starting(at, at); SLOTS];
        grant(&mut net, at, next, SEND);
        grant(&mut net, at, at, PUT);
    }
    let mut random = Random::new(403);
    let picks = (0..MOST_PICKS).map(|_| any_slot(&mut random)).collect();
    work("evals of long code", &net, picks)
}
