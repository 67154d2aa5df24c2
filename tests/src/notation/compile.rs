//! The net of a tree, without its text: instructions have their places by
//! the sizes of what stands before them. The reader is compared with it.

use super::source::*;
use crate::net::{self, Instruction, Locality, Net, Place, Set, Target, ADDRESSES};

/// The net of a tree without faults 22, 23, 26, 27, 31, 32 and 33. Rows are not
/// judged.
pub fn compile(source: &Source) -> Net {
    let (addresses, length) = (source.address_count() as u8, source.size() as u16);
    let mut compiler = Compiler {
        source,
        bases: bases(source),
        net: Net::of(source.format(), addresses, length),
    };
    for RowLine { at, origin, row } in &source.rows {
        let rows = &mut compiler.net.nodes[*at as usize].rows;
        match origin {
            Some(origin) => rows[*origin as usize] = *row,
            None => *rows = [*row; ADDRESSES],
        }
    }
    for (index, line) in source.lines.iter().enumerate() {
        compiler.line(index, line);
    }
    compiler.net
}

// The number of instructions before each line.
fn bases(source: &Source) -> Vec<usize> {
    let sizes = source.lines.iter().map(Line::size);
    let before = sizes.scan(0, |before, size| {
        *before += size;
        Some(*before - size)
    });
    before.collect()
}

struct Compiler<'a> {
    source: &'a Source,
    bases: Vec<usize>,
    net: Net,
}

impl Compiler<'_> {
    fn line(&mut self, index: usize, line: &Line) {
        let base = self.bases[index];
        match line {
            Line::Definition(_, body) => {
                self.lay(body, base);
            }
            Line::Start(at, process) => {
                let place = self.lay(process, base);
                let node = &mut self.net.nodes[at.0 as usize];
                let slot = node.free_slot().expect("at most four processes");
                node.processes[slot] = net::Process::starting(place, *at);
            }
            Line::Held(at, tuple) => {
                let node = &mut self.net.nodes[at.0 as usize];
                node.tuples[node.tuple_count as usize] = tuple.marked(*at);
                node.tuple_count += 1;
            }
        }
    }

    // Lays a process down from a number on, its end first, and gives the
    // place at which it begins.
    fn lay(&mut self, process: &Process, base: usize) -> Place {
        let actions: usize = process.actions.iter().map(Action::size).sum();
        let mut at = base + actions;
        let mut next = self.lay_end(&process.end, at);
        for action in process.actions.iter().rev() {
            at -= action.size();
            self.net.code[at] = self.instruction(action, at, next);
            next = Place(at as u16);
        }
        next
    }

    fn lay_end(&mut self, end: &End, at: usize) -> Place {
        match end {
            End::Stop => self.net.code[at] = Instruction::STOP,
            End::Name(name) => return self.first(*name),
            End::Fork(one, other) => {
                let first = self.lay(one, at + 1);
                let second = self.lay(other, at + 1 + one.size());
                let fork = net::Action::Fork { first, second };
                self.net.code[at] = Instruction::plain(fork);
            }
        }
        Place(at as u16)
    }

    fn instruction(&mut self, action: &Action, at: usize, next: Place) -> Instruction {
        match action {
            Action::Template(Verb::Out, fields, Aim::Set(members)) => {
                let members = Set::of(members.iter().copied().map(Locality));
                Instruction::with(net::Action::OutToSet { members, next }, fields)
            }
            Action::Template(verb, fields, aim) => {
                let target = target(aim);
                let action = match verb {
                    Verb::Out => net::Action::Out { target, next },
                    Verb::In => net::Action::In { target, next },
                    Verb::Read => net::Action::Read { target, next },
                };
                Instruction::with(action, fields)
            }
            Action::Eval(process, aim) => {
                let (target, sent) = (target(aim), self.lay(process, at + 1));
                Instruction::plain(net::Action::Eval { target, sent, next })
            }
            Action::New(variable) => {
                let variable = *variable;
                Instruction::plain(net::Action::New { variable, next })
            }
        }
    }

    // The first instruction of the body of a name.
    fn first(&self, name: u16) -> Place {
        let mut lines = self.source.lines.iter().zip(&self.bases);
        let found = lines.find_map(|(line, base)| match line {
            Line::Definition(defined, body) if *defined == name => Some((body, *base)),
            _ => None,
        });
        let (body, base) = found.expect("the name is defined");
        match body.end {
            End::Name(other) if body.actions.is_empty() => self.first(other),
            _ => Place(base as u16),
        }
    }
}

fn target(aim: &Aim) -> Target {
    match aim {
        Aim::At(target) => *target,
        Aim::Set(_) => panic!("outs alone are aimed at sets"),
    }
}
