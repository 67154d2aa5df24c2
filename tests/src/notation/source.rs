//! A text as a tree: what is written, before it is written. Nothing in it
//! is judged; a tree may hold faults.

use crate::net::{Locality, Row, Target, TemplateField, Tuple, ROW_BY_ORIGIN, SINGLE_ROW};

/// The rows of a text and its later lines, in their order.
#[derive(Clone, Debug)]
pub struct Source {
    pub rows: Vec<RowLine>,
    pub lines: Vec<Line>,
}

/// A row, and what stands before its `has`.
#[derive(Clone, Copy, Debug)]
pub struct RowLine {
    pub at: u8,
    /// The origin, which is written in format 2 alone.
    pub origin: Option<u8>,
    pub row: Row,
}

/// A line after the rows.
#[derive(Clone, Debug)]
pub enum Line {
    Definition(u16, Process),
    Start(Locality, Process),
    /// A tuple, of which no mark is written.
    Held(Locality, Tuple),
}

/// A process: its actions one after another, and its end.
#[derive(Clone, Debug)]
pub struct Process {
    pub actions: Vec<Action>,
    pub end: End,
}

/// What a process ends with.
#[derive(Clone, Debug)]
pub enum End {
    Stop,
    Name(u16),
    Fork(Box<Process>, Box<Process>),
}

/// An action with what it holds.
#[derive(Clone, Debug)]
pub enum Action {
    Template(Verb, Vec<TemplateField>, Aim),
    Eval(Process, Aim),
    New(u8),
}

/// Where an action is aimed.
#[derive(Clone, Debug)]
pub enum Aim {
    At(Target),
    /// A set, its members as they are written.
    Set(Vec<u8>),
}

/// The actions that have a template.
#[derive(Clone, Copy, PartialEq, Eq, Debug)]
pub enum Verb {
    Out,
    In,
    Read,
}

impl Process {
    /// A name by itself.
    pub fn name(name: u16) -> Process {
        Process {
            actions: Vec::new(),
            end: End::Name(name),
        }
    }

    /// `nil` by itself.
    pub fn stop() -> Process {
        Process {
            actions: Vec::new(),
            end: End::Stop,
        }
    }

    /// Both of these, beside one another.
    pub fn fork(first: Process, second: Process) -> Process {
        Process {
            actions: Vec::new(),
            end: End::Fork(Box::new(first), Box::new(second)),
        }
    }

    /// The number of its instructions. A name makes none.
    pub fn size(&self) -> usize {
        let actions: usize = self.actions.iter().map(Action::size).sum();
        let end = match &self.end {
            End::Stop => 1,
            End::Name(_) => 0,
            End::Fork(first, second) => 1 + first.size() + second.size(),
        };
        actions + end
    }

    /// Shows each action to a visitor, in the order of the text.
    pub fn actions(&mut self, visit: &mut impl FnMut(&mut Action)) {
        for action in &mut self.actions {
            visit(action);
            if let Action::Eval(sent, _) = action {
                sent.actions(visit);
            }
        }
        if let End::Fork(first, second) = &mut self.end {
            first.actions(visit);
            second.actions(visit);
        }
    }
}

impl Action {
    /// The number of its instructions, those of a sent process among them.
    pub fn size(&self) -> usize {
        match self {
            Action::Eval(sent, _) => 1 + sent.size(),
            _ => 1,
        }
    }
}

impl Line {
    /// The process of a line that has one.
    pub fn process(&self) -> Option<&Process> {
        match self {
            Line::Definition(_, process) | Line::Start(_, process) => Some(process),
            Line::Held(..) => None,
        }
    }

    pub fn process_mut(&mut self) -> Option<&mut Process> {
        match self {
            Line::Definition(_, process) | Line::Start(_, process) => Some(process),
            Line::Held(..) => None,
        }
    }

    /// The number of its instructions.
    pub fn size(&self) -> usize {
        self.process().map_or(0, Process::size)
    }
}

impl Source {
    /// The format, which the first row shows.
    pub fn format(&self) -> u8 {
        match self.rows.first() {
            Some(row) if row.origin.is_some() => ROW_BY_ORIGIN,
            _ => SINGLE_ROW,
        }
    }

    /// The number of addresses, where the rows have no fault.
    pub fn address_count(&self) -> usize {
        match self.format() {
            ROW_BY_ORIGIN => self.rows.iter().filter(|row| row.at == 0).count(),
            _ => self.rows.len(),
        }
    }

    /// The number of its instructions.
    pub fn size(&self) -> usize {
        self.lines.iter().map(Line::size).sum()
    }

    /// The names that it defines, in the order of their lines.
    pub fn defined(&self) -> Vec<u16> {
        let defined = self.lines.iter().filter_map(|line| match line {
            Line::Definition(name, _) => Some(*name),
            _ => None,
        });
        defined.collect()
    }

    /// Shows each action to a visitor, in the order of the text.
    pub fn actions(&mut self, visit: &mut impl FnMut(&mut Action)) {
        for process in self.lines.iter_mut().filter_map(Line::process_mut) {
            process.actions(visit);
        }
    }

    /// The same with each template.
    pub fn templates(&mut self, visit: &mut impl FnMut(Verb, &mut Vec<TemplateField>)) {
        self.actions(&mut |action| {
            if let Action::Template(verb, fields, _) = action {
                visit(*verb, fields);
            }
        });
    }

    /// The same with what each action is aimed at.
    pub fn aims(&mut self, visit: &mut impl FnMut(&mut Aim)) {
        self.actions(&mut |action| match action {
            Action::Template(_, _, aim) | Action::Eval(_, aim) => visit(aim),
            Action::New(_) => {}
        });
    }
}
