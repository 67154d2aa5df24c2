//! Which nets an accepted image gives, so that they can be written as one
//! (document 02, slip 13 for the number; slip 8 for the marks;
//! slip 10 for the origins; slip 11 for the sets, of which it knows as soundness
//! does).

use super::starts_keep_within;
use crate::net::*;
use crate::sound::sound;

/// Whether an accepted image, of either format, gives this net: it is sound,
/// its processes stand in the lowest slots with no variable set and keep
/// within their nodes' rows for themselves, and each has its own node as
/// origin, as each tuple has it as mark.
pub fn fresh(net: &Net) -> bool {
    sound(net) && starts_keep_within(net) && nodes_fresh(net)
}

fn nodes_fresh(net: &Net) -> bool {
    let addresses = (0..ADDRESSES as u8).map(Locality);
    let mut nodes = addresses.zip(net.nodes.iter());
    nodes.all(|(address, node)| processes_fresh(address, node) && tuples_own(address, node))
}

fn processes_fresh(address: Locality, node: &Node) -> bool {
    let (started, others) = node.processes.split_at(node.busy_slots());
    let starting = |process: &Process| *process == Process::starting(process.at, address);
    started.iter().all(starting) && others.iter().all(|process| *process == Process::FREE)
}

fn tuples_own(address: Locality, node: &Node) -> bool {
    let held = &node.tuples[..node.tuple_count as usize];
    held.iter().all(|tuple| tuple.from == address)
}

#[cfg(test)]
mod tests {
    use super::super::{image_of, read_image, write_image, NOT_FRESH};
    use super::*;
    use crate::by_hand::*;
    use crate::generate::{change_record, net_after_picks, random_net, valid_net};
    use crate::random::Random;
    use crate::step::pick;

    const REFUSED: Result<Vec<u8>, u8> = Err(NOT_FRESH);

    /// Two addresses with a tuple each, and processes that put one.
    fn small() -> Net {
        let mut net = net(2, &[out(written(1), &[TemplateField::Own], 1)]);
        grant(&mut net, 0, 1, PUT);
        net.nodes[0].processes[1] = Process::starting(Place(1), Locality(0));
        fill(&mut net, 0, &[readings(&[5])]);
        fill(&mut net, 1, &[readings(&[5])]);
        net
    }

    #[test]
    fn a_fresh_net_has_an_image() {
        for net in [small(), in_format_2(small()), longest_of_format_2()] {
            let image = image_of(&net).expect("it is fresh");
            assert_eq!(read_image(&image), Ok(net));
        }
        assert_eq!(image_of(&paper_net()), Ok(PAPER_IMAGE.to_vec()));
        assert!(fresh(&longest()));
    }

    /// Once nothing runs, an image of either format gives the rows that a new
    /// leaves.
    #[test]
    fn a_net_after_a_new_and_a_stop_has_an_image() {
        for format in FORMATS {
            let mut net = net(2, &[new(0, 1)]);
            grant_create(&mut net, 0);
            if format == ROW_BY_ORIGIN {
                net = in_format_2(net);
            }
            assert_eq!(pick(&mut net, 0), 0);
            assert_eq!(image_of(&net), REFUSED);
            assert_eq!(pick(&mut net, 0), 1);
            let image = image_of(&net).expect("it is fresh");
            assert_eq!(read_image(&image), Ok(net));
        }
    }

    /// Though both nets are sound, and their images are accepted.
    #[test]
    fn a_net_with_a_foreign_mark_is_36() {
        for (at, foreign) in [(0, 1), (1, 0)] {
            let mut net = small();
            net.nodes[at].tuples[0].from = Locality(foreign);
            assert!(sound(&net));
            assert_eq!(read_image(&write_image(&net)), Ok(small()));
            assert_eq!(image_of(&net), REFUSED);
        }
    }

    /// What an out leaves at another node no image gives; at its own one does.
    #[test]
    fn a_net_after_an_out_to_another_node_is_36() {
        for (target, own) in [(0, true), (1, false)] {
            let mut net = net(2, &[out(written(target), &[TemplateField::Own], 1)]);
            grant(&mut net, 0, target.into(), PUT);
            assert_eq!(pick(&mut net, 0), 0);
            assert_eq!(image_of(&net).is_ok(), own);
        }
    }

    /// Though the net is sound, and its image is accepted.
    #[test]
    fn a_net_with_a_foreign_origin_is_36() {
        for slot in [0, 1] {
            let mut net = small();
            net.nodes[0].processes[slot].origin = Locality(1);
            assert!(sound(&net));
            assert_eq!(read_image(&write_image(&net)), Ok(small()));
            assert_eq!(image_of(&net), REFUSED);
        }
    }

    /// Code sent to another node no image gives; to its own node one does.
    #[test]
    fn a_net_after_an_eval_to_another_node_is_36() {
        for (target, own) in [(0, true), (1, false)] {
            let mut net = net(2, &[eval(written(target), 1, 1)]);
            grant(&mut net, 0, target.into(), SEND);
            assert_eq!(pick(&mut net, 0), 0);
            assert_eq!(image_of(&net).is_ok(), own);
        }
    }

    /// A node's row for itself has to hold what its processes need.
    #[test]
    fn the_rows_of_format_2_count_one_by_one() {
        for (origin, fresh) in [(0, false), (1, true)] {
            let mut net = in_format_2(small());
            net.nodes[0].rows[origin] = Row::ZERO;
            assert_eq!(image_of(&net).is_ok(), fresh);
        }
        let mut net = in_format_2(small());
        net.nodes[0].rows[2].create = true;
        assert_eq!(image_of(&net), REFUSED);
    }

    /// A net with sets has an image in format 2, and what they put leaves
    /// foreign marks but at the host itself.
    #[test]
    fn a_net_with_sets() {
        for (members, own) in [(&[][..], true), (&[0], true), (&[0, 1], false)] {
            let code = [out_to_set(members, &[TemplateField::Own], 1)];
            let mut net = in_format_2(net(2, &code));
            (0..2).for_each(|over| grant_from(&mut net, 0, 0, over, PUT));
            let image = image_of(&net).expect("it is fresh");
            assert_eq!(read_image(&image).as_ref(), Ok(&net));
            let mut single = net.clone();
            single.format = SINGLE_ROW;
            single.each_row(0, |row| *row = Row::ALL);
            assert_eq!(image_of(&single), REFUSED);
            assert_eq!(pick(&mut net, 0), 0);
            assert_eq!(image_of(&net).is_ok(), own);
        }
    }

    #[test]
    fn other_nets_are_36() {
        let changes: [fn(&mut Net); 11] = [
            |net| net.format = 0,
            |net| net.format = 2,
            |net| net.format = 3,
            |net| net.nodes[0].rows[15] = Row::ZERO,
            |net| net.nodes[1].rows[0].create = true,
            |net| *net = Net::empty(),
            |net| net.nodes[0].processes[0].variables[0] = Value::Reading(0),
            |net| net.nodes[0].processes[0] = Process::FREE,
            |net| net.each_row(0, |row| *row = Row::ZERO),
            |net| net.nodes[0].tuples[1].from = Locality(1),
            |net| net.nodes[0].processes[1].at = Place(2),
        ];
        for change in changes {
            let mut net = small();
            change(&mut net);
            assert_eq!(image_of(&net), REFUSED);
        }
    }

    // A net that an image may give, and at times one that none does.
    fn any_net(random: &mut Random) -> Net {
        match random.below(4) {
            0 => random_net(random),
            1 => net_after_picks(random),
            2 => valid_net(random),
            _ => {
                let mut net = valid_net(random);
                change_record(random, &mut net);
                net
            }
        }
    }

    /// A sound net is fresh exactly when its image is accepted and gives it
    /// back.
    #[test]
    fn fresh_nets_are_those_of_accepted_images() {
        let mut random = Random::new(15);
        let mut seen = [0; 2];
        for _ in 0..8_000 {
            let net = any_net(&mut random);
            let same = sound(&net) && read_image(&write_image(&net)).as_ref() == Ok(&net);
            assert_eq!(image_of(&net).is_ok(), same);
            seen[same as usize] += 1;
        }
        assert!(seen.iter().all(|count| *count > 2_000), "{seen:?}");
    }
}
