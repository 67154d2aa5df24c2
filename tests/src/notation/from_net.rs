//! A net as a tree: one definition for each instruction, in the order of
//! the code, so that its text gives the net back.

use super::source::*;
use crate::net::{self, Instruction, Locality, Net, Place, Row, ROW_BY_ORIGIN};

/// The tree of a net that an image can write: rows, code, and for each address
/// its processes and its tuples.
pub fn from_net(net: &Net) -> Source {
    let nodes = &net.nodes[..net.address_count as usize];
    let code = &net.code[..net.code_length as usize];
    let defined = code.iter().enumerate();
    let mut lines: Vec<Line> = defined
        .map(|(name, instruction)| Line::Definition(name as u16, process(instruction)))
        .collect();
    for (address, node) in nodes.iter().enumerate() {
        let at = Locality(address as u8);
        let busy = node.processes.iter().filter(|process| process.busy);
        lines.extend(busy.map(|process| Line::Start(at, named(process.at))));
        let held = &node.tuples[..node.tuple_count as usize];
        lines.extend(held.iter().map(|tuple| Line::Held(at, *tuple)));
    }
    let rows = rows_of(net);
    Source { rows, lines }
}

/// The rows of such a net: in format 2 those of each node for every origin in
/// use, ascending, otherwise one for each node.
pub fn rows_of(net: &Net) -> Vec<RowLine> {
    let nodes = (0..net.address_count).zip(net.nodes.iter());
    let rows = nodes.flat_map(|(at, node)| match net.format {
        ROW_BY_ORIGIN => by_origin(at, &node.rows[..net.address_count as usize]),
        _ => vec![RowLine {
            at,
            origin: None,
            row: node.rows[at as usize],
        }],
    });
    rows.collect()
}

fn by_origin(at: u8, rows: &[Row]) -> Vec<RowLine> {
    let origins = (0..).map(Some).zip(rows);
    let lines = origins.map(|(origin, row)| RowLine {
        at,
        origin,
        row: *row,
    });
    lines.collect()
}

// The name of the instruction at a place.
fn named(place: Place) -> Process {
    Process::name(place.0)
}

fn process(instruction: &Instruction) -> Process {
    let fields = instruction.fields[..instruction.count as usize].to_vec();
    let templated = |verb, aim| Action::Template(verb, fields, aim);
    let (action, next) = match instruction.action {
        net::Action::Stop => return Process::stop(),
        net::Action::Fork { first, second } => return Process::fork(named(first), named(second)),
        net::Action::Out { target, next } => (templated(Verb::Out, Aim::At(target)), next),
        net::Action::In { target, next } => (templated(Verb::In, Aim::At(target)), next),
        net::Action::Read { target, next } => (templated(Verb::Read, Aim::At(target)), next),
        net::Action::Eval { target, sent, next } => {
            (Action::Eval(named(sent), Aim::At(target)), next)
        }
        net::Action::New { variable, next } => (Action::New(variable), next),
        net::Action::OutToSet { members, next } => {
            let members = members.members().map(|member| member.0);
            (templated(Verb::Out, Aim::Set(members.collect())), next)
        }
    };
    Process {
        actions: vec![action],
        end: End::Name(next.0),
    }
}
