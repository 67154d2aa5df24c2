//! The register (document 01, "The register"; document 02, slips 1, 2, 8 and
//! 14).

use crate::image::read_image;
use crate::names::Names;
use crate::net::*;
use crate::notation::read_text;
use crate::step::{pick_address, pick_slot, step};
use std::fmt::{Display, Write};

/// The register works through no more picks than these.
pub const MOST_PICKS: usize = 65_536;

/// The register of an image and its picks, without names.
pub fn register(image: &[u8], picks: &[u8]) -> String {
    register_named(image, picks, &Names::default())
}

/// The register of a text and its picks, without names.
pub fn register_text(text: &[u8], picks: &[u8]) -> String {
    register_text_named(text, picks, &Names::default())
}

/// The register of an image and its picks.
pub fn register_named(image: &[u8], picks: &[u8], names: &Names) -> String {
    register_of(read_image(image), picks, names)
}

/// The register of a text and its picks.
pub fn register_text_named(text: &[u8], picks: &[u8], names: &Names) -> String {
    register_of(read_text(text), picks, names)
}

// The register of a net, or of what it is refused with: a number for a text,
// a number and a bit for an image.
fn register_of(read: Result<Net, impl Display>, picks: &[u8], names: &Names) -> String {
    let mut net = match read {
        Ok(net) => net,
        Err(fault) => return format!("refused {fault}\n"),
    };
    let mut text = format!("net {} {}\n", net.address_count, net.code_length);
    let made = &picks[..picks.len().min(MOST_PICKS)];
    for (index, pick) in made.iter().enumerate() {
        // An accepted net is sound and steps keep it so.
        let answer = step(&mut net, *pick);
        write_pick(&mut text, index + 1, *pick, answer);
    }
    for address in 0..net.address_count {
        let (node, name) = (&net.nodes[address as usize], names.name(address));
        write_node(&mut text, address, node, name);
    }
    write_total(&mut text, &net);
    text
}

/// The answers to the picks, as a register shows them.
pub fn answers_in(register: &str) -> Vec<u8> {
    let lines = register.lines().filter(|line| line.starts_with("pick "));
    let answers = lines.filter_map(|line| line.rsplit(' ').next());
    answers
        .map(|answer| answer.parse().expect("an answer is a number"))
        .collect()
}

fn write_pick(text: &mut String, number: usize, pick: u8, answer: u8) {
    let address = pick_address(pick).0;
    let slot = pick_slot(pick);
    line(
        text,
        format_args!("pick {number} {address} {slot} {answer}"),
    );
}

fn write_node(text: &mut String, address: u8, node: &Node, name: &[u8]) {
    let (count, busy, name) = (node.tuple_count, node.busy_slots(), name_text(name));
    line(text, format_args!("node {address} {count} {busy}{name}"));
    for tuple in &node.tuples[..node.tuple_count as usize] {
        let (fields, from) = (fields_text(tuple), tuple.from.0);
        line(text, format_args!("tuple {address}{fields} from {from}"));
    }
}

// The name with a space before it, nothing where there is none.
fn name_text(name: &[u8]) -> String {
    let name = std::str::from_utf8(name).expect("a name is of bytes from 33 to 126");
    match name {
        "" => String::new(),
        _ => format!(" {name}"),
    }
}

// The fields, each with a space before it.
fn fields_text(tuple: &Tuple) -> String {
    let held = tuple.fields[..tuple.count as usize].iter();
    held.map(|field| match *field {
        Field::Reading(reading) => format!(" {reading}"),
        Field::Address(address) => format!(" @{}", address.0),
    })
    .collect()
}

// The tuples at all addresses in use, at most 256.
fn write_total(text: &mut String, net: &Net) {
    let nodes = net.nodes[..net.address_count as usize].iter();
    let total: u32 = nodes.map(|node| u32::from(node.tuple_count)).sum();
    line(text, format_args!("total {total}"));
}

fn line(text: &mut String, content: std::fmt::Arguments) {
    writeln!(text, "{content}").expect("a string takes every line");
}

#[cfg(test)]
mod tests {
    use super::*;
    use crate::by_hand::*;
    use crate::image::write_image;

    #[test]
    fn the_paper_s_run() {
        let expected =
            "net 1 2\npick 1 0 0 0\npick 2 0 0 1\npick 3 0 0 7\nnode 0 1 0\ntuple 0 5 from 0\ntotal 1\n";
        assert_eq!(register(&PAPER_IMAGE, &[0, 0, 0]), expected);
    }

    #[test]
    fn no_picks() {
        let expected = "net 1 2\nnode 0 0 1\ntotal 0\n";
        assert_eq!(register(&PAPER_IMAGE, &[]), expected);
    }

    #[test]
    fn a_refused_image_prints_its_number_and_bit_only() {
        assert_eq!(register(&[], &[0, 0]), "refused 28 at 0\n");
        let mut barred = PAPER_IMAGE;
        barred[2] = 0x40;
        assert_eq!(register(&barred, &[0]), "refused 30 at 27\n");
    }

    /// The paper's line for the first starting place of a one-address image,
    /// here the register's with place 2 of 2 instructions.
    #[test]
    fn the_paper_s_refusal() {
        let mut image = PAPER_IMAGE;
        image[4] = 0x20;
        assert_eq!(register(&image, &[0]), "refused 24 at 27\n");
    }

    #[test]
    fn a_text_has_the_register_of_its_image() {
        let text = b"0 has 0:o\n0 :: out(5)@self.nil\n";
        assert_eq!(
            register_text(text, &[0, 0, 0]),
            register(&PAPER_IMAGE, &[0, 0, 0])
        );
    }

    #[test]
    fn a_refused_text_prints_its_number_only() {
        assert_eq!(register_text(b"", &[0]), "refused 31\n");
        let barred = b"0 has\n0 :: out(5)@self.nil\n";
        assert_eq!(register_text(barred, &[0]), "refused 30\n");
    }

    #[test]
    fn address_and_slot_are_printed_at_every_answer() {
        let text = register(&PAPER_IMAGE, &[0xF5, 0xF4, 0x0C]);
        assert_eq!(answers_in(&text), [9, 8, 7]);
        let expected = "net 1 2\npick 1 15 1 9\npick 2 15 1 8\npick 3 0 3 7\nnode 0 0 1\ntotal 0\n";
        assert_eq!(text, expected);
    }

    #[test]
    fn fields_of_both_sorts() {
        let mut net = stops(2, 1);
        let fields = [reading(-1), address(1), reading(i32::MIN), address(0)];
        fill(&mut net, 1, &[Tuple::of(&fields), Tuple::of(&fields[..1])]);
        let expected = "net 2 1\nnode 0 0 0\nnode 1 2 0\n\
            tuple 1 -1 @1 -2147483648 @0 from 1\ntuple 1 -1 from 1\ntotal 2\n";
        assert_eq!(register(&write_image(&net), &[]), expected);
    }

    /// A tuple of the image, one put by another node and one by code that
    /// this other node sent.
    #[test]
    fn a_tuple_line_ends_with_where_it_was_put() {
        let put = |target, next| out(target, &[TemplateField::Own], next);
        let mut net = net(
            3,
            &[
                put(written(1), 1),
                eval(written(2), 2, 3),
                put(written(1), 3),
            ],
        );
        grant(&mut net, 0, 1, PUT);
        grant(&mut net, 0, 2, SEND);
        grant(&mut net, 2, 1, PUT);
        fill(&mut net, 1, &[readings(&[4])]);
        let text = register(&write_image(&net), &[0, 0, 0x20]);
        assert_eq!(answers_in(&text), [0, 0, 0]);
        let lines = "node 1 3 0\ntuple 1 4 from 1\ntuple 1 @0 from 0\ntuple 1 @2 from 2\n";
        assert!(text.contains(lines), "{text}");
    }

    #[test]
    fn the_highest_address_in_a_tuple_line() {
        let mut net = net(16, &[out(written(0), &[TemplateField::Own], 1)]);
        net.nodes.swap(0, 15);
        grant(&mut net, 15, 0, PUT);
        let text = register(&write_image(&net), &[0xF0]);
        assert!(
            text.contains("node 0 1 0\ntuple 0 @15 from 15\nnode 1 0 0\n"),
            "{text}"
        );
    }

    #[test]
    fn node_lines_end_with_their_names() {
        let mut net = stops(4, 1);
        fill(&mut net, 1, &[readings(&[4])]);
        let (site, office) = (b"\x13two\x31D", b"\x15other\x01A\xF1F");
        let names = Names::of(site, office).expect("they have no fault");
        let expected = "net 4 1\nnode 0 0 0 A\nnode 1 1 0 two\ntuple 1 4 from 1\n\
            node 2 0 0\nnode 3 0 0 D\ntotal 1\n";
        assert_eq!(register_named(&write_image(&net), &[], &names), expected);
    }

    /// Of an image and of a text.
    #[test]
    fn a_refused_net_has_no_names() {
        let names = Names::of(b"\x01A", &[]).expect("it has no fault");
        assert_eq!(register_named(&[], &[], &names), "refused 28 at 0\n");
        assert_eq!(register_text_named(&[], &[], &names), "refused 31\n");
        let text = b"0 has\n0 :: nil\n";
        let expected = "net 1 1\nnode 0 0 1 A\ntotal 0\n";
        assert_eq!(register_text_named(text, &[], &names), expected);
    }

    #[test]
    fn the_net_line_has_the_image_s_count() {
        let mut net = net(1, &[new(0, 0)]);
        grant_create(&mut net, 0);
        let expected = "net 1 2\npick 1 0 0 0\nnode 0 0 1\nnode 1 0 0\ntotal 0\n";
        assert_eq!(register(&write_image(&net), &[0]), expected);
    }

    #[test]
    fn picks_past_the_limit_are_left_off() {
        let picks = vec![0xFF; MOST_PICKS + 5];
        let text = register(&PAPER_IMAGE, &picks);
        assert_eq!(text, register(&PAPER_IMAGE, &picks[..MOST_PICKS]));
        assert!(text.ends_with("pick 65536 15 3 9\nnode 0 0 1\ntotal 0\n"));
    }

    #[test]
    fn the_total_follows_outs_and_ins() {
        let any = [TemplateField::FormalReading(0)];
        let code = [
            out(OWN, &[TemplateField::Reading(5)], 1),
            read(OWN, &any, 2),
            take(OWN, &any, 3),
            take(OWN, &any, 4),
            take(OWN, &any, 5),
        ];
        let mut net = net(1, &code);
        grant(&mut net, 0, 0, Rights::ALL);
        fill(&mut net, 0, &[readings(&[3])]);
        let image = write_image(&net);
        assert_eq!(answers_in(&register(&image, &[0; 5])), [0, 0, 0, 0, 2]);
        for (made, total) in [1, 2, 2, 1, 0, 0].into_iter().enumerate() {
            assert_total(&register(&image, &vec![0; made]), total);
        }
    }

    /// One for each member, and none for a refused out or for the empty set.
    #[test]
    fn the_total_counts_each_member() {
        let field = [TemplateField::Reading(5)];
        let code = [
            out_to_set(&[], &field, 1),
            out_to_set(&[0, 1, 2], &field, 2),
            out_to_set(&[1, 2], &field, 3),
            take(OWN, &field, 4),
            out_to_set(&[1], &field, 5),
        ];
        let mut net = in_format_2(net(3, &code));
        (0..3).for_each(|over| grant(&mut net, 0, over, Rights::ALL));
        fill(&mut net, 1, &[readings(&[3])]);
        fill(&mut net, 2, &[readings(&[4]); 15]);
        let image = write_image(&net);
        assert_eq!(answers_in(&register(&image, &[0; 3])), [0, 0, 3]);
        for (made, total) in [16, 16, 19, 19, 19].into_iter().enumerate() {
            assert_total(&register(&image, &vec![0; made]), total);
        }
        fill(&mut net, 2, &[readings(&[4]); 14]);
        let image = write_image(&net);
        for (made, total) in [15, 15, 18, 20, 19, 20].into_iter().enumerate() {
            assert_total(&register(&image, &vec![0; made]), total);
        }
        let text = register(&image, &[0; 5]);
        let lines = "node 0 0 1\nnode 1 4 0\ntuple 1 3 from 1\ntuple 1 5 from 0\n";
        assert!(text.contains(lines), "{text}");
    }

    #[test]
    fn the_greatest_total() {
        assert_total(&register(&write_image(&longest()), &[]), 256);
    }

    // The total, in the last line and as the number of tuple lines.
    fn assert_total(register: &str, total: usize) {
        let tuples = register.lines().filter(|line| line.starts_with("tuple "));
        assert_eq!(tuples.count(), total);
        assert!(register.ends_with(&format!("\ntotal {total}\n")));
    }
}
