//! Writing an image field by field (document 01, "The image"; document 02,
//! slips 10 and 11).

use crate::bits::{BitWriter, FieldAt, Sort};
use crate::net::*;

/// The image of a net, and where each of its fields lies.
pub fn write(net: &Net) -> (Vec<u8>, Vec<FieldAt>) {
    let mut writer = ImageWriter {
        bits: BitWriter::default(),
    };
    let nodes = &net.nodes[..net.address_count as usize];
    writer.counts(net);
    writer.rows(net.format, nodes);
    nodes.iter().for_each(|node| writer.processes(node));
    nodes.iter().for_each(|node| writer.tuples(node));
    let code = &net.code[..net.code_length as usize];
    code.iter()
        .for_each(|instruction| writer.instruction(instruction));
    writer.bits.finish()
}

struct ImageWriter {
    bits: BitWriter,
}

impl ImageWriter {
    fn address(&mut self, address: Locality) {
        self.bits.put(Sort::Address, 4, address.0 as u32);
    }

    fn place(&mut self, place: Place) {
        self.bits.put(Sort::Place, 9, place.0 as u32);
    }

    fn variable(&mut self, variable: u8) {
        self.bits.put(Sort::Variable, 3, variable as u32);
    }

    fn reading(&mut self, reading: i32) {
        self.bits.put(Sort::Reading, 32, reading as u32);
    }

    fn field_count(&mut self, count: u8) {
        self.bits
            .put(Sort::FieldCount, 2, (count as u32).wrapping_sub(1));
    }

    // Part 1.
    fn counts(&mut self, net: &Net) {
        self.bits.put(Sort::Format, 4, net.format as u32);
        self.bits
            .put(Sort::AddressCount, 5, net.address_count as u32);
        self.bits.put(Sort::CodeLength, 10, net.code_length as u32);
    }

    // Part 2. In format 2 the rows of a node for each origin in use,
    // otherwise the one for itself.
    fn rows(&mut self, format: u8, nodes: &[Node]) {
        for (address, node) in nodes.iter().enumerate() {
            let origins = match format {
                ROW_BY_ORIGIN => 0..nodes.len(),
                _ => address..address + 1,
            };
            for row in &node.rows[origins] {
                self.row(row, nodes.len());
            }
        }
    }

    fn row(&mut self, row: &Row, addresses: usize) {
        self.bits.put(Sort::Create, 1, row.create as u32);
        for rights in &row.rights[..addresses] {
            self.rights(rights);
        }
    }

    fn rights(&mut self, rights: &Rights) {
        let in_order = [rights.take, rights.read, rights.put, rights.send];
        let number = in_order
            .iter()
            .fold(0, |number, right| number << 1 | u32::from(*right));
        self.bits.put(Sort::Rights, 4, number);
    }

    // Part 3. Only the places are written, of the busy slots in order.
    fn processes(&mut self, node: &Node) {
        self.bits
            .put(Sort::ProcessCount, 3, node.busy_slots() as u32);
        for process in node.processes.iter().filter(|process| process.busy) {
            self.place(process.at);
        }
    }

    // Part 4.
    fn tuples(&mut self, node: &Node) {
        self.bits.put(Sort::TupleCount, 5, node.tuple_count as u32);
        for tuple in &node.tuples[..node.tuple_count as usize] {
            self.field_count(tuple.count);
            for field in &tuple.fields[..tuple.count as usize] {
                self.tuple_field(field);
            }
        }
    }

    fn tuple_field(&mut self, field: &Field) {
        match *field {
            Field::Reading(reading) => {
                self.bits.put(Sort::TupleFieldKind, 1, 0);
                self.reading(reading);
            }
            Field::Address(address) => {
                self.bits.put(Sort::TupleFieldKind, 1, 1);
                self.address(address);
            }
        }
    }

    // Part 5.
    fn instruction(&mut self, instruction: &Instruction) {
        match instruction.action {
            Action::Stop => self.action(0),
            Action::Out { target, next } => self.with_template(1, target, instruction, next),
            Action::In { target, next } => self.with_template(2, target, instruction, next),
            Action::Read { target, next } => self.with_template(3, target, instruction, next),
            Action::Eval { target, sent, next } => self.eval(target, sent, next),
            Action::New { variable, next } => self.new_address(variable, next),
            Action::Fork { first, second } => self.fork(first, second),
            Action::OutToSet { members, next } => self.out_to_set(members, instruction, next),
        }
    }

    fn action(&mut self, action: u32) {
        self.bits.put(Sort::Action, 3, action);
    }

    fn with_template(&mut self, action: u32, target: Target, template: &Instruction, next: Place) {
        self.action(action);
        self.target(target);
        self.template(template);
        self.place(next);
    }

    fn out_to_set(&mut self, members: Set, template: &Instruction, next: Place) {
        self.action(7);
        self.bits.put(Sort::Members, 16, members.0.into());
        self.template(template);
        self.place(next);
    }

    fn template(&mut self, template: &Instruction) {
        self.field_count(template.count);
        for field in &template.fields[..template.count as usize] {
            self.template_field(field);
        }
    }

    fn eval(&mut self, target: Target, sent: Place, next: Place) {
        self.action(4);
        self.target(target);
        self.place(sent);
        self.place(next);
    }

    fn new_address(&mut self, variable: u8, next: Place) {
        self.action(5);
        self.variable(variable);
        self.place(next);
    }

    fn fork(&mut self, first: Place, second: Place) {
        self.action(6);
        self.place(first);
        self.place(second);
    }

    fn target(&mut self, target: Target) {
        match target {
            Target::Written(address) => {
                self.bits.put(Sort::TargetKind, 2, 0);
                self.address(address);
            }
            Target::Own => self.bits.put(Sort::TargetKind, 2, 1),
            Target::Variable(variable) => {
                self.bits.put(Sort::TargetKind, 2, 2);
                self.variable(variable);
            }
        }
    }

    fn template_field(&mut self, field: &TemplateField) {
        match *field {
            TemplateField::Reading(reading) => {
                self.field_kind(0);
                self.reading(reading);
            }
            TemplateField::Address(address) => {
                self.field_kind(1);
                self.address(address);
            }
            TemplateField::Own => self.field_kind(2),
            TemplateField::Variable(variable) => self.with_variable(3, variable),
            TemplateField::FormalReading(variable) => self.with_variable(4, variable),
            TemplateField::FormalAddress(variable) => self.with_variable(5, variable),
        }
    }

    fn field_kind(&mut self, kind: u32) {
        self.bits.put(Sort::FieldKind, 3, kind);
    }

    fn with_variable(&mut self, kind: u32, variable: u8) {
        self.field_kind(kind);
        self.variable(variable);
    }
}
