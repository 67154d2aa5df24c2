//! What is written down while a text is read: instructions that lead to
//! one another or to names, which are resolved when the text has ended.

use super::names::{Firsts, Names};
use super::rows::Rows;
use crate::image::COUNT_OUT_OF_RANGE;
use crate::net::*;

/// Where a process begins.
#[derive(Clone, Copy, PartialEq, Eq, Debug)]
pub enum Entry {
    /// At the instruction of this number.
    At(usize),
    /// Where the body of this name begins.
    Named(u16),
}

/// An instruction without the place that follows its action.
pub enum Kind {
    Stop,
    Out(Target, Vec<TemplateField>),
    OutToSet(Set, Vec<TemplateField>),
    In(Target, Vec<TemplateField>),
    Read(Target, Vec<TemplateField>),
    /// The target, and where the sent process begins.
    Eval(Target, Entry),
    New(u8),
    Fork(Entry, Entry),
}

/// An instruction; where nothing follows its action, the next counts not.
struct Drafted {
    kind: Kind,
    next: Entry,
}

/// All that is read of a text so far.
pub struct Draft {
    pub format: u8,
    pub address_count: u8,
    pub names: Names,
    /// Rows and tuples; the processes are in `starts`.
    nodes: Vec<Node>,
    starts: Vec<Vec<Entry>>,
    code: Vec<Drafted>,
}

impl Draft {
    /// The nodes of these rows, and nothing else.
    pub fn new(rows: Rows) -> Draft {
        let Rows { format, nodes } = rows;
        let node = |rows| Node { rows, ..Node::ZERO };
        Draft {
            format,
            address_count: nodes.len() as u8,
            names: Names::new(),
            starts: vec![Vec::new(); nodes.len()],
            nodes: nodes.into_iter().map(node).collect(),
            code: Vec::new(),
        }
    }

    // Processes and tuples, in the order of their lines.

    /// Whether there is a process to fill each slot of an address.
    pub fn slots_full(&self, at: Locality) -> bool {
        self.starts[at.0 as usize].len() == SLOTS
    }

    pub fn start(&mut self, at: Locality, entry: Entry) {
        self.starts[at.0 as usize].push(entry);
    }

    /// Whether an address has all the tuples it can hold.
    pub fn tuples_full(&self, at: Locality) -> bool {
        self.nodes[at.0 as usize].tuple_count as usize == TUPLES
    }

    /// Adds a tuple with the mark of its own node.
    pub fn add_tuple(&mut self, at: Locality, fields: &[Field]) {
        let node = &mut self.nodes[at.0 as usize];
        node.tuples[node.tuple_count as usize] = Tuple::of(fields).marked(at);
        node.tuple_count += 1;
    }

    // Instructions, numbered in the order in which they are put.

    /// The next instruction, and its number.
    pub fn put(&mut self, kind: Kind) -> usize {
        let next = Entry::At(0);
        self.code.push(Drafted { kind, next });
        self.code.len() - 1
    }

    /// The number of the next instruction, which is filled in later.
    pub fn reserve(&mut self) -> usize {
        self.put(Kind::Stop)
    }

    pub fn fill(&mut self, number: usize, kind: Kind) {
        self.code[number].kind = kind;
    }

    /// Says what follows an action.
    pub fn lead_on(&mut self, number: usize, next: Entry) {
        self.code[number].next = next;
    }

    // The end of the text.

    /// The net once the text has ended: names are judged first, then the
    /// number of instructions. Rows are not judged.
    pub fn net(&self) -> Result<Net, u8> {
        let firsts = self.names.firsts()?;
        if self.code.is_empty() || self.code.len() > INSTRUCTIONS {
            return Err(COUNT_OUT_OF_RANGE);
        }
        let mut net = Net::of(self.format, self.address_count, self.code.len() as u16);
        net.nodes[..self.nodes.len()].clone_from_slice(&self.nodes);
        for (address, starts) in self.starts.iter().enumerate() {
            let processes = &mut net.nodes[address].processes;
            for (process, entry) in processes.iter_mut().zip(starts) {
                let own = Locality(address as u8);
                *process = Process::starting(firsts.place(*entry), own);
            }
        }
        for (instruction, drafted) in net.code.iter_mut().zip(&self.code) {
            *instruction = drafted.instruction(&firsts);
        }
        Ok(net)
    }
}

impl Drafted {
    fn instruction(&self, firsts: &Firsts) -> Instruction {
        let place = |entry: &Entry| firsts.place(*entry);
        let next = place(&self.next);
        match &self.kind {
            Kind::Stop => Instruction::STOP,
            Kind::Out(target, fields) => {
                let target = *target;
                Instruction::with(Action::Out { target, next }, fields)
            }
            Kind::OutToSet(members, fields) => {
                let members = *members;
                Instruction::with(Action::OutToSet { members, next }, fields)
            }
            Kind::In(target, fields) => {
                let target = *target;
                Instruction::with(Action::In { target, next }, fields)
            }
            Kind::Read(target, fields) => {
                let target = *target;
                Instruction::with(Action::Read { target, next }, fields)
            }
            Kind::Eval(target, sent) => {
                let (target, sent) = (*target, place(sent));
                Instruction::plain(Action::Eval { target, sent, next })
            }
            Kind::New(variable) => {
                let variable = *variable;
                Instruction::plain(Action::New { variable, next })
            }
            Kind::Fork(first, second) => {
                let (first, second) = (place(first), place(second));
                Instruction::plain(Action::Fork { first, second })
            }
        }
    }
}
