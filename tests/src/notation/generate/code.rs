//! Random processes of a given number of instructions.

use super::super::source::*;
use super::super::DEPTH;
use crate::generate::{reading, set};
use crate::net::{Field, Locality, Target, TemplateField, Tuple};
use crate::net::{FIELDS, ROW_BY_ORIGIN, VARIABLES};
use crate::random::Random;

/// Writes processes that use these names.
pub struct Planner<'a> {
    pub random: &'a mut Random,
    format: u8,
    count: u8,
    pub names: Vec<u16>,
}

impl Planner<'_> {
    pub fn new(random: &mut Random, format: u8, count: u8, names: Vec<u16>) -> Planner<'_> {
        Planner {
            random,
            format,
            count,
            names,
        }
    }

    /// Definitions of these sizes, one for each name. A bare name is one of
    /// those defined after it, so that none stand in a circle.
    pub fn definitions(&mut self, sizes: &[usize]) -> Vec<Line> {
        let mut lines = Vec::new();
        for (index, size) in sizes.iter().enumerate() {
            let body = match size {
                0 => {
                    let later = self.random.between(index + 1, sizes.len() - 1);
                    Process::name(self.names[later])
                }
                size => self.process(*size, DEPTH),
            };
            lines.push(Line::Definition(self.names[index], body));
        }
        lines
    }

    // The fewest instructions of a process: with names there may be none.
    fn least(&self) -> usize {
        usize::from(self.names.is_empty())
    }

    /// A process of just so many instructions, with so many brackets and
    /// evals open in it at most.
    pub fn process(&mut self, size: usize, room: usize) -> Process {
        let mut actions = Vec::new();
        let mut left = size;
        loop {
            if let Some(end) = self.end(left, room) {
                return Process { actions, end };
            }
            let action = self.action(left, room);
            left -= action.size();
            actions.push(action);
        }
    }

    // An end with all the instructions that are left, if it comes to that.
    fn end(&mut self, left: usize, room: usize) -> Option<End> {
        let least = self.least();
        let here = self.random.below(10);
        match left {
            0 => Some(End::Name(self.name())),
            1 if least == 1 || here < 6 => Some(End::Stop),
            _ if room > 0 && left > 2 * least && here == 9 => {
                let first = self.random.between(least, left - 1 - least);
                let one = self.process(first, room - 1);
                let other = self.process(left - 1 - first, room - 1);
                Some(End::Fork(Box::new(one), Box::new(other)))
            }
            _ => None,
        }
    }

    // An action that leaves enough for the rest of its process.
    fn action(&mut self, left: usize, room: usize) -> Action {
        let least = self.least();
        match self.random.below(10) {
            0..=1 if room > 0 && left > 2 * least => {
                let size = self.random.between(least, left - 1 - least);
                let size = size.min(self.random.choose(&[1, 3, 1000])).max(least);
                let sent = self.process(size, room - 1);
                Action::Eval(sent, Aim::At(self.target()))
            }
            2 => Action::New(self.variable()),
            _ => self.templated(),
        }
    }

    fn templated(&mut self) -> Action {
        let verb = self.random.choose(&[Verb::Out, Verb::In, Verb::Read]);
        let fields = self.template(verb);
        Action::Template(verb, fields, self.aim(verb))
    }

    // In format 2 outs often have a set.
    fn aim(&mut self, verb: Verb) -> Aim {
        let sets = self.format == ROW_BY_ORIGIN && verb == Verb::Out;
        if sets && self.random.percent(40) {
            let members = set(self.random, self.count).members();
            Aim::Set(members.map(|member| member.0).collect())
        } else {
            Aim::At(self.target())
        }
    }

    /// A process with so many brackets and evals open in it at once.
    pub fn deep(&mut self, depth: usize) -> Process {
        if depth == 0 {
            return self.process(1, 0);
        }
        let mut actions = Vec::new();
        if self.random.percent(20) {
            actions.push(self.templated());
        }
        let inner = Box::new(self.deep(depth - 1));
        let outer = Box::new(self.process(1, 0));
        let end = match self.random.below(3) {
            0 => End::Fork(inner, outer),
            1 => End::Fork(outer, inner),
            _ => {
                actions.push(Action::Eval(*inner, Aim::At(self.target())));
                outer.end
            }
        };
        Process { actions, end }
    }

    // The smaller parts.

    fn name(&mut self) -> u16 {
        self.random.choose(&self.names)
    }

    // Mostly one of few, so that formals set what is used.
    fn variable(&mut self) -> u8 {
        let few = self.random.choose(&[2, 2, 3, VARIABLES]);
        self.random.below(few) as u8
    }

    fn address(&mut self) -> Locality {
        Locality(self.random.below(self.count as usize) as u8)
    }

    fn target(&mut self) -> Target {
        match self.random.below(5) {
            0 | 1 => Target::Own,
            2 | 3 => Target::Written(self.address()),
            _ => Target::Variable(self.variable()),
        }
    }

    fn template(&mut self, verb: Verb) -> Vec<TemplateField> {
        let mut fields = Vec::new();
        let mut formal: Vec<u8> = Vec::new();
        for _ in 0..self.random.choose(&[1, 1, 1, 2, 2, 3, 4]) {
            let variable = self.variable();
            let may_be_formal = verb != Verb::Out && !formal.contains(&variable);
            if may_be_formal && self.random.percent(70) {
                formal.push(variable);
                fields.push(match self.random.below(2) {
                    0 => TemplateField::FormalReading(variable),
                    _ => TemplateField::FormalAddress(variable),
                });
            } else {
                fields.push(self.actual());
            }
        }
        fields
    }

    fn actual(&mut self) -> TemplateField {
        match self.random.below(10) {
            0..=4 => TemplateField::Reading(reading(self.random)),
            5 | 6 => TemplateField::Address(self.address()),
            7 => TemplateField::Own,
            _ => TemplateField::Variable(self.variable()),
        }
    }

    /// A tuple, its addresses below the count.
    pub fn tuple(&mut self) -> Tuple {
        let mut fields = Vec::new();
        for _ in 0..self.random.choose(&[1, 1, 1, 2, 2, 3, FIELDS]) {
            fields.push(match self.random.below(3) {
                0 => Field::Address(self.address()),
                _ => Field::Reading(reading(self.random)),
            });
        }
        Tuple::of(&fields)
    }
}
