//! Texts by hand, the longest ones, and that a net's text gives the net back.

use super::*;
use crate::by_hand::*;
use crate::generate::{by_origin_net, change_record, random_net, set_image_net, valid_net_of};
use crate::image::{image_of, write_image};
use crate::net::*;
use crate::notation::longest::longest_net;
use crate::notation::read_text;
use crate::random::Random;
use crate::step::pick;

fn shown(net: &Net) -> String {
    String::from_utf8(text_of(net).expect("it is fresh")).expect("it is ASCII")
}

#[test]
fn the_paper_s_net() {
    let text = "0 has 0:o\nA0 = out(5)@self.A1\nA1 = nil\n0 :: A0\n";
    assert_eq!(shown(&paper_net()), text);
    let text = text.replace("has", "from 0 has");
    assert_eq!(shown(&in_format_2(paper_net())), text);
}

/// Every action, target and field, some twice; processes and tuples at both
/// addresses.
fn every_form() -> Net {
    let put = [
        TemplateField::Reading(i32::MIN),
        TemplateField::Address(Locality(1)),
        TemplateField::Own,
        TemplateField::Variable(7),
    ];
    let formals = [
        TemplateField::FormalReading(0),
        TemplateField::FormalAddress(1),
    ];
    let code = [
        out(written(1), &put, 1),
        take(OWN, &formals, 2),
        read(Target::Variable(1), &[TemplateField::Reading(-1)], 0),
        eval(written(1), 5, 4),
        new(6, 5),
        fork(6, 0),
    ];
    let mut net = net(2, &code);
    grant(&mut net, 0, 0, TAKE);
    grant(&mut net, 0, 1, PUT);
    grant_create(&mut net, 1);
    grant(&mut net, 1, 1, Rights { take: true, ..PUT });
    net.nodes[0].processes[1] = Process::starting(Place(6), Locality(0));
    net.nodes[1].processes[0] = Process::starting(Place(4), Locality(1));
    let pair = Tuple::of(&[reading(5), address(1)]);
    fill(&mut net, 0, &[pair, one_address(0)]);
    fill(&mut net, 1, &[readings(&[-1, 0, i32::MAX, i32::MIN])]);
    net
}

const LINES: &str = "\
A0 = out(-2147483648,@1,self,v7)@1.A1
A1 = in(!x0,!u1)@self.A2
A2 = read(-1)@v1.A0
A3 = eval(A5)@1.A4
A4 = newloc(u6).A5
A5 = (A6 | A0)
A6 = nil
0 :: A0
0 :: A6
0 :: <5,@1>
0 :: <@0>
1 :: A4
1 :: <-1,0,2147483647,-2147483648>
";

#[test]
fn every_form_of_format_1() {
    let rows = "0 has 0:i 1:o\n1 has n 1:io\n";
    assert_eq!(shown(&every_form()), rows.to_string() + LINES);
}

/// Each row of a node by itself, and sets of one, both and none.
#[test]
fn every_form_of_format_2() {
    let mut net = in_format_2(every_form());
    net.nodes[0].rows[1] = Row::ZERO;
    net.nodes[0].rows[1].create = true;
    net.nodes[1].rows[0].create = false;
    net.nodes[1].rows[0].rights[0] = Rights::ALL;
    for (at, members) in [(7, &[1][..]), (8, &[0, 1]), (9, &[])] {
        net.code[at] = out_to_set(members, &[TemplateField::Own], at as u16 - 7);
    }
    net.code_length = 10;
    let rows = "\
        0 from 0 has 0:i 1:o\n0 from 1 has n\n\
        1 from 0 has 0:iroe 1:io\n1 from 1 has n 1:io\n";
    let sets = "A7 = out(self)@{1}.A0\nA8 = out(self)@{0,1}.A1\nA9 = out(self)@{}.A2\n";
    let (code, rest) = LINES.split_at(LINES.find("0 ::").expect("it is there"));
    assert_eq!(shown(&net), [rows, code, sets, rest].concat());
}

#[test]
fn rows_without_rights() {
    assert_eq!(shown(&stops(2, 1)), "0 has\n1 has\nA0 = nil\n");
    let rows = "0 from 0 has\n0 from 1 has\n1 from 0 has\n1 from 1 has\n";
    assert_eq!(
        shown(&in_format_2(stops(2, 1))),
        format!("{rows}A0 = nil\n")
    );
}

/// Its text gives a net back, code places included: random ones of each
/// format, the empty ones and the longest.
#[test]
fn a_net_s_text_gives_the_net() {
    let mut random = Random::new(76);
    let mut read_back = [0; 2];
    while read_back.iter().any(|count| *count < 10_000) {
        let format = random.choose(&FORMATS);
        let net = match random.below(8) {
            0 if format == ROW_BY_ORIGIN => by_origin_net(&mut random),
            1 if format == ROW_BY_ORIGIN => set_image_net(&mut random),
            _ => valid_net_of(&mut random, format),
        };
        match text_of(&net) {
            Ok(text) => {
                let shown = String::from_utf8_lossy(&text[..text.len().min(2_000)]);
                assert!(read_text(&text).as_ref() == Ok(&net), "{shown}");
                assert!(unpacked(&write_image(&net)) == text);
                read_back[format as usize - 1] += 1;
            }
            Err(number) => {
                let refused = read_image(&write_image(&net)).map_err(|fault| fault.number);
                assert_eq!((number, refused), (36, Err(30)));
            }
        }
    }
}

/// Each net that an accepted image gives has a text, and no other has one.
#[test]
fn nets_with_an_image_have_a_text() {
    let mut random = Random::new(77);
    let mut seen = [0; 2];
    for _ in 0..4_000 {
        let mut net = random_net(&mut random);
        if random.percent(30) {
            let format = random.choose(&FORMATS);
            net = valid_net_of(&mut random, format);
            change_record(&mut random, &mut net);
        }
        let text = text_of(&net);
        assert_eq!(text.as_ref().err(), image_of(&net).as_ref().err());
        seen[text.is_ok() as usize] += 1;
    }
    assert!(seen.iter().all(|count| *count > 500), "{seen:?}");
}

#[test]
fn other_nets_are_36() {
    assert_eq!(text_of(&Net::empty()), Err(36));
    let mut net = in_format_2(paper_net());
    assert_eq!(pick(&mut net, 0), 0);
    // The process has moved on, which an image gives as well.
    let moved = "0 from 0 has 0:o\nA0 = out(5)@self.A1\nA1 = nil\n0 :: A1\n0 :: <5>\n";
    assert_eq!(shown(&net), moved);
    net.nodes[0].processes[0].variables[0] = Value::Reading(0);
    assert_eq!(text_of(&net), Err(36));
    let mut single = paper_net();
    single.code[0] = out_to_set(&[0], &[TemplateField::Own], 1);
    assert_eq!(text_of(&single), Err(36));
}

#[test]
fn what_is_printed_of_images() {
    assert_eq!(unpacked(&ONE_STOP), b"0 has\nA0 = nil\n");
    assert_eq!(unpacked(&[]), b"refused 28 at 0\n");
    assert_eq!(unpacked(&[0x30]), b"refused 21 at 0\n");
}

/// No text of a net is longer than these.
#[test]
fn the_longest_texts() {
    for (format, length) in [(SINGLE_ROW, 53_104), (ROW_BY_ORIGIN, 102_730)] {
        let net = longest_net(format);
        let text = text_of(&net).expect("it is fresh");
        assert_eq!(text.len(), length);
        assert!(read_text(&text) == Ok(net));
    }
    for net in [longest(), longest_without_sets(), longest_of_format_2()] {
        let longest = text_of(&longest_net(net.format)).expect("it is fresh");
        assert!(text_of(&net).is_ok_and(|text| text.len() < longest.len()));
    }
}
