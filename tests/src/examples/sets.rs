//! The example of an out to a set.

use super::nets::start;
use super::Example;
use crate::by_hand::*;
use crate::net::*;

pub fn flood_warning() -> Example {
    Example {
        name: "flood_warning",
        title: "A flood warning to three gates",
        about: "\
A net of format 2, which knows outs to a set. Address 0 is the flood office and 1, 2 and 3
are gates. The office puts the warning `<90>` to all three gates at once: either each of them
receives it or none does.

The store of gate 2 is full of old readings at first, so the warning is refused and no gate
has it, gate 1 not either, which has room and comes before gate 2. Gate 2 takes one old
reading, and now the same warning is received by all. Gate 1 takes it. In the register the
warning is `from 0` at gates 2 and 3, and the total counts it once for each of them.
",
        text: "\
0 from 0 has 1:o 2:o 3:o
0 from 1 has
0 from 2 has
0 from 3 has
1 from 0 has
1 from 1 has 1:i
1 from 2 has
1 from 3 has
2 from 0 has
2 from 1 has
2 from 2 has 2:i
2 from 3 has
3 from 0 has
3 from 1 has
3 from 2 has
3 from 3 has 3:i
0 :: out(90)@{1,2,3}.nil
1 :: in(90)@self.nil
2 :: in(!x0)@self.read(90)@self.nil
2 :: <1>
2 :: <2>
2 :: <3>
2 :: <4>
2 :: <5>
2 :: <6>
2 :: <7>
2 :: <8>
2 :: <9>
2 :: <10>
2 :: <11>
2 :: <12>
2 :: <13>
2 :: <14>
2 :: <15>
2 :: <16>
3 :: in(90)@self.nil
",
        net: flood_warning_net(),
        picks: &PICKS,
        listing: None,
        names: None,
    }
}

const PICKS: [(u8, &str); 12] = [
    (
        0x00,
        "out to gates 1, 2 and 3: gate 2 has no room, so no gate receives",
    ),
    (0x10, "in at gate 1: the warning is not there"),
    (0x30, "in at gate 3: the warning is not there"),
    (0x20, "in at gate 2: takes the oldest reading, `<1>`"),
    (0x20, "read at gate 2: the warning is not there"),
    (
        0x00,
        "out to gates 1, 2 and 3: each has `<90>` as its newest",
    ),
    (0x10, "in at gate 1: takes `<90>`"),
    (0x20, "read at gate 2: `<90>` stays"),
    (0x00, "stop: the slot is free"),
    (0x10, "stop: the slot is free"),
    (0x20, "stop: the slot is free"),
    (0x00, "nothing: the slot is free"),
];

fn flood_warning_net() -> Net {
    let warning = [TemplateField::Reading(90)];
    let code = [
        out_to_set(&[1, 2, 3], &warning, 1),
        Instruction::STOP,
        take(OWN, &warning, 3),
        Instruction::STOP,
        take(OWN, &[TemplateField::FormalReading(0)], 5),
        read(OWN, &warning, 6),
        Instruction::STOP,
        take(OWN, &warning, 8),
    ];
    let mut net = in_format_2(net(4, &code));
    for (gate, place) in [(1, 2), (2, 4), (3, 7)] {
        grant_from(&mut net, 0, 0, gate, PUT);
        grant_from(&mut net, gate, gate, gate, TAKE);
        start(&mut net, gate, place);
    }
    let old: Vec<Tuple> = (1..=16).map(|number| readings(&[number])).collect();
    fill(&mut net, 2, &old);
    net
}

#[cfg(test)]
mod tests {
    use super::*;
    use crate::step::pick;

    /// Once refused, with no gate changed, and once received by all.
    #[test]
    fn the_answers() {
        let example = flood_warning();
        let mut net = example.net.clone();
        let picks = example.pick_bytes();
        assert_eq!(pick(&mut net, picks[0]), 3);
        assert_eq!(net, example.net);
        let answers: Vec<u8> = picks[1..6]
            .iter()
            .map(|byte| pick(&mut net, *byte))
            .collect();
        assert_eq!(answers, [2, 2, 0, 2, 0]);
        for (gate, held) in [(1, 1), (2, 16), (3, 1)] {
            assert_eq!(net.nodes[gate].tuple_count, held);
            let newest = net.nodes[gate].tuples[held as usize - 1];
            assert_eq!(newest, from(0, readings(&[90])));
        }
        let answers: Vec<u8> = picks[6..]
            .iter()
            .map(|byte| pick(&mut net, *byte))
            .collect();
        assert_eq!(answers, [0, 0, 1, 1, 1, 7]);
        assert!(example
            .register()
            .ends_with("node 3 1 1\ntuple 3 90 from 0\ntotal 17\n"));
    }
}
