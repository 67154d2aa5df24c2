//! Random code. To let runs get somewhere, places mostly follow one
//! another, templates mostly have one of a few shapes, and variables are
//! mostly used after instructions that set them.

use super::{address, field_count, place, reading, set};
use crate::net::*;
use crate::random::Random;

/// The sort of a value.
#[derive(Clone, Copy, PartialEq, Eq, Debug)]
pub enum Kind {
    Reading,
    Address,
}

/// The sorts of a tuple's fields.
#[derive(Clone, Debug)]
pub struct Shape(Vec<Kind>);

/// What the code and tuples of one net have in common.
#[derive(Clone, Debug)]
pub struct Style {
    format: u8,
    pub count: u8,
    pub length: u16,
    shapes: Vec<Shape>,
}

fn kind(random: &mut Random) -> Kind {
    if random.percent(60) {
        Kind::Reading
    } else {
        Kind::Address
    }
}

fn shape(random: &mut Random) -> Shape {
    let fields = field_count(random);
    Shape((0..fields).map(|_| kind(random)).collect())
}

impl Style {
    /// For a net with this format and these counts.
    pub fn new(random: &mut Random, net: &Net) -> Style {
        let mut shapes = vec![Shape(vec![Kind::Address]), Shape(vec![Kind::Reading])];
        shapes.extend((0..random.below(3)).map(|_| shape(random)));
        Style {
            format: net.format,
            count: net.address_count,
            length: net.code_length,
            shapes,
        }
    }

    // Mostly one of the net's shapes.
    fn shape(&self, random: &mut Random) -> Shape {
        if random.percent(90) {
            self.shapes[random.below(self.shapes.len())].clone()
        } else {
            shape(random)
        }
    }

    /// A tuple, its addresses below the count.
    pub fn tuple(&self, random: &mut Random) -> Tuple {
        let mut fields = Vec::new();
        for kind in self.shape(random).0 {
            fields.push(match kind {
                Kind::Reading => Field::Reading(reading(random)),
                Kind::Address => Field::Address(address(random, self.count)),
            });
        }
        Tuple::of(&fields)
    }
}

/// Writes instructions one after another.
pub struct CodeWriter<'a> {
    random: &'a mut Random,
    style: &'a Style,
    /// The sorts of the variables set by earlier instructions.
    known: [Option<Kind>; VARIABLES],
}

impl CodeWriter<'_> {
    pub fn new<'a>(random: &'a mut Random, style: &'a Style) -> CodeWriter<'a> {
        CodeWriter {
            random,
            style,
            known: [None; VARIABLES],
        }
    }

    /// An instruction that meets rules 26 and 27, its numbers in range.
    pub fn instruction(&mut self, at: u16) -> Instruction {
        match self.random.below(26) {
            0 | 1 => Instruction::STOP,
            2..=9 => self.put(at),
            10..=18 => self.in_or_read(at),
            19..=21 => self.eval(at),
            22 | 23 => self.new_address(at),
            _ => self.fork(at),
        }
    }

    /// An out, in format 2 often one to a set, without formals.
    pub fn put(&mut self, at: u16) -> Instruction {
        if self.style.format == ROW_BY_ORIGIN && self.random.percent(40) {
            return self.out_to_set(at);
        }
        let target = self.target();
        let fields = self.actuals();
        let next = self.follow(at);
        Instruction::with(Action::Out { target, next }, &fields)
    }

    fn out_to_set(&mut self, at: u16) -> Instruction {
        let members = set(self.random, self.style.count);
        let fields = self.actuals();
        let next = self.follow(at);
        Instruction::with(Action::OutToSet { members, next }, &fields)
    }

    // The fields of an out.
    fn actuals(&mut self) -> Vec<TemplateField> {
        let shape = self.style.shape(self.random);
        shape.0.iter().map(|kind| self.actual(*kind)).collect()
    }

    /// An in or a read, no variable formal twice.
    pub fn in_or_read(&mut self, at: u16) -> Instruction {
        let target = self.target();
        let fields = self.template();
        let next = self.follow(at);
        let action = if self.random.percent(50) {
            Action::In { target, next }
        } else {
            Action::Read { target, next }
        };
        Instruction::with(action, &fields)
    }

    fn template(&mut self) -> Vec<TemplateField> {
        let shape = self.style.shape(self.random);
        let mut formals = [None; VARIABLES];
        let mut fields = Vec::new();
        for kind in shape.0 {
            fields.push(if self.random.percent(75) {
                self.formal(kind, &mut formals)
            } else {
                self.actual(kind)
            });
        }
        for (known, formal) in self.known.iter_mut().zip(formals) {
            *known = formal.or(*known);
        }
        fields
    }

    // A formal of a variable not formal in this template so far.
    fn formal(&mut self, kind: Kind, formals: &mut [Option<Kind>; VARIABLES]) -> TemplateField {
        let few = self.random.choose(&[4, 4, 4, 4, VARIABLES]);
        let mut chosen = self.random.below(few);
        while formals[chosen].is_some() {
            chosen = (chosen + 1) % VARIABLES;
        }
        formals[chosen] = Some(kind);
        match kind {
            Kind::Reading => TemplateField::FormalReading(chosen as u8),
            Kind::Address => TemplateField::FormalAddress(chosen as u8),
        }
    }

    fn actual(&mut self, kind: Kind) -> TemplateField {
        let held = self.variable(kind);
        match (held, kind, self.random.below(4)) {
            (Some(variable), _, 0 | 1) => TemplateField::Variable(variable),
            (_, Kind::Address, 2) => TemplateField::Own,
            (_, Kind::Address, _) => TemplateField::Address(address(self.random, self.style.count)),
            (_, Kind::Reading, _) => TemplateField::Reading(reading(self.random)),
        }
    }

    fn target(&mut self) -> Target {
        let held = self.variable(Kind::Address);
        match (held, self.random.below(10)) {
            (Some(variable), 0..=3) => Target::Variable(variable),
            (_, 0..=6) => Target::Own,
            _ => Target::Written(address(self.random, self.style.count)),
        }
    }

    // A variable mostly known to hold this sort; at times any.
    fn variable(&mut self, kind: Kind) -> Option<u8> {
        if self.random.percent(2) {
            return Some(self.random.below(VARIABLES) as u8);
        }
        let held: Vec<u8> = (0..VARIABLES as u8)
            .filter(|variable| self.known[*variable as usize] == Some(kind))
            .collect();
        match held.len() {
            0 => None,
            _ => Some(self.random.choose(&held)),
        }
    }

    // Mostly the place after this one, or one before it.
    fn follow(&mut self, at: u16) -> Place {
        match self.random.below(20) {
            0..=14 if at + 1 < self.style.length => Place(at + 1),
            0..=18 => place(self.random, at + 1),
            _ => place(self.random, self.style.length),
        }
    }

    fn eval(&mut self, at: u16) -> Instruction {
        let anywhere = place(self.random, self.style.length);
        let near = self.follow(at);
        Instruction::plain(Action::Eval {
            target: self.target(),
            sent: self.random.choose(&[anywhere, near]),
            next: self.follow(at),
        })
    }

    fn new_address(&mut self, at: u16) -> Instruction {
        let variable = self.random.below(VARIABLES);
        self.known[variable] = Some(Kind::Address);
        Instruction::plain(Action::New {
            variable: variable as u8,
            next: self.follow(at),
        })
    }

    fn fork(&mut self, at: u16) -> Instruction {
        Instruction::plain(Action::Fork {
            first: self.follow(at),
            second: self.follow(at),
        })
    }
}
