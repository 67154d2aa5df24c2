//! Soundness of a net (document 01, "One pick"), and what code reaches
//! and whether it keeps within a row ("Reaching and rights"; document 02,
//! slip 6: taking covers reading; slips 8 and 10: marks and origins are
//! addresses of the net; slip 10: the rows in each format; slip 11: outs to a
//! set, in format 2 alone).

use crate::net::*;

/// Marks of the instructions reached from a place, one for each
/// instruction. Places at or past the length are not followed.
pub fn reached(code: &[Instruction], length: u16, place: Place) -> Vec<bool> {
    marks(code, length, place).to_vec()
}

/// Whether the code from a place keeps within a row of an address;
/// `self` in the code means that address.
pub fn keeps_within(
    code: &[Instruction],
    length: u16,
    place: Place,
    address: Locality,
    row: &Row,
) -> bool {
    let marks = marks(code, length, place);
    let mut both = marks.iter().zip(code);
    both.all(|(reached, instruction)| !reached || allowed(&instruction.action, address, row))
}

fn marks(code: &[Instruction], length: u16, place: Place) -> [bool; INSTRUCTIONS] {
    let mut worklist = Worklist {
        length: (length as usize).min(code.len()).min(INSTRUCTIONS),
        marked: [false; INSTRUCTIONS],
        waiting: [Place(0); INSTRUCTIONS],
        waiting_count: 0,
    };
    worklist.mark(place);
    while let Some(place) = worklist.next() {
        for next in successors(&code[place.0 as usize].action)
            .into_iter()
            .flatten()
        {
            worklist.mark(next);
        }
    }
    worklist.marked
}

/// The marked places, and those of them still to be followed.
struct Worklist {
    length: usize,
    marked: [bool; INSTRUCTIONS],
    waiting: [Place; INSTRUCTIONS],
    waiting_count: usize,
}

impl Worklist {
    fn mark(&mut self, place: Place) {
        let index = place.0 as usize;
        if index < self.length && !self.marked[index] {
            self.marked[index] = true;
            self.waiting[self.waiting_count] = place;
            self.waiting_count += 1;
        }
    }

    fn next(&mut self) -> Option<Place> {
        self.waiting_count = self.waiting_count.checked_sub(1)?;
        Some(self.waiting[self.waiting_count])
    }
}

// The places that follow; the sent place of an eval is not one of them.
fn successors(action: &Action) -> [Option<Place>; 2] {
    match *action {
        Action::Stop => [None, None],
        Action::Out { next, .. } => [Some(next), None],
        Action::In { next, .. } => [Some(next), None],
        Action::Read { next, .. } => [Some(next), None],
        Action::Eval { next, .. } => [Some(next), None],
        Action::New { next, .. } => [Some(next), None],
        Action::Fork { first, second } => [Some(first), Some(second)],
        Action::OutToSet { next, .. } => [Some(next), None],
    }
}

// Whether a row of an address allows one action, as far as it is known
// before it runs.
fn allowed(action: &Action, address: Locality, row: &Row) -> bool {
    match *action {
        Action::Stop | Action::Fork { .. } => true,
        Action::New { .. } => row.create,
        Action::Out { target, .. } => known(target, address).is_none_or(|at| row.over(at).put),
        Action::In { target, .. } => known(target, address).is_none_or(|at| row.over(at).take),
        Action::Read { target, .. } => {
            known(target, address).is_none_or(|at| row.over(at).grants_read())
        }
        Action::Eval { target, .. } => known(target, address).is_none_or(|at| row.over(at).send),
        Action::OutToSet { members, .. } => members.members().all(|member| row.over(member).put),
    }
}

// The address a target means for code at an address; none for a variable.
fn known(target: Target, address: Locality) -> Option<Locality> {
    match target {
        Target::Written(written) => Some(written),
        Target::Own => Some(address),
        Target::Variable(_) => None,
    }
}

/// Whether a net is sound. The empty net is not: its format is none, and its
/// counts are out of range.
pub fn sound(net: &Net) -> bool {
    counts_in_range(net) && nodes_sound(net) && code_sound(net)
}

fn counts_in_range(net: &Net) -> bool {
    let addresses = 1..=ADDRESSES as u8;
    let lengths = 1..=INSTRUCTIONS as u16;
    addresses.contains(&net.address_count) && lengths.contains(&net.code_length)
}

// Each node in use is sound, each other one zero.
fn nodes_sound(net: &Net) -> bool {
    let (used, unused) = net.nodes.split_at(net.address_count as usize);
    used.iter().all(|node| node_sound(net, node)) && unused.iter().all(|node| *node == Node::ZERO)
}

fn node_sound(net: &Net, node: &Node) -> bool {
    let processes = node.processes.iter();
    rows_sound(net, &node.rows)
        && processes
            .into_iter()
            .all(|process| process_sound(net, process))
        && tuples_sound(net, node)
}

// In format 1 the rows are equal, in format 2 those for unused origins hold
// nothing; there is no other format.
fn rows_sound(net: &Net, rows: &[Row; ADDRESSES]) -> bool {
    match net.format {
        SINGLE_ROW => row_sound(net, &rows[0]) && rows.iter().all(|row| *row == rows[0]),
        ROW_BY_ORIGIN => {
            let (used, unused) = rows.split_at(net.address_count as usize);
            used.iter().all(|row| row_sound(net, row)) && unused.iter().all(|row| *row == Row::ZERO)
        }
        _ => false,
    }
}

// No right over an unused address.
fn row_sound(net: &Net, row: &Row) -> bool {
    let unused = &row.rights[net.address_count as usize..];
    unused.iter().all(|rights| *rights == Rights::NONE)
}

fn process_sound(net: &Net, process: &Process) -> bool {
    if !process.busy {
        return *process == Process::FREE;
    }
    let mut variables = process.variables.iter();
    place_sound(net, process.at)
        && address_sound(net, process.origin)
        && variables.all(|value| value_sound(net, value))
}

fn value_sound(net: &Net, value: &Value) -> bool {
    match *value {
        Value::Unset | Value::Reading(_) => true,
        Value::Address(address) => address_sound(net, address),
    }
}

fn address_sound(net: &Net, address: Locality) -> bool {
    address.0 < net.address_count
}

fn place_sound(net: &Net, place: Place) -> bool {
    place.0 < net.code_length
}

fn variable_sound(variable: u8) -> bool {
    (variable as usize) < VARIABLES
}

fn tuples_sound(net: &Net, node: &Node) -> bool {
    if node.tuple_count as usize > TUPLES {
        return false;
    }
    let (held, past) = node.tuples.split_at(node.tuple_count as usize);
    held.iter().all(|tuple| tuple_sound(net, tuple))
        && past.iter().all(|tuple| *tuple == Tuple::ZERO)
}

fn tuple_sound(net: &Net, tuple: &Tuple) -> bool {
    if !field_count_sound(tuple.count) || !address_sound(net, tuple.from) {
        return false;
    }
    let (held, past) = tuple.fields.split_at(tuple.count as usize);
    held.iter().all(|field| field_sound(net, field))
        && past.iter().all(|field| *field == Field::Reading(0))
}

fn field_count_sound(count: u8) -> bool {
    (1..=FIELDS as u8).contains(&count)
}

fn field_sound(net: &Net, field: &Field) -> bool {
    match *field {
        Field::Reading(_) => true,
        Field::Address(address) => address_sound(net, address),
    }
}

// Each instruction within the length is sound, each other one zero.
fn code_sound(net: &Net) -> bool {
    let (held, past) = net.code.split_at(net.code_length as usize);
    held.iter()
        .all(|instruction| instruction_sound(net, instruction))
        && past
            .iter()
            .all(|instruction| *instruction == Instruction::STOP)
}

fn instruction_sound(net: &Net, instruction: &Instruction) -> bool {
    match instruction.action {
        Action::Stop => template_absent(instruction),
        Action::Out { target, next } => {
            target_sound(net, target)
                && place_sound(net, next)
                && template_sound(net, instruction)
                && no_formal(instruction)
        }
        Action::In { target, next } | Action::Read { target, next } => {
            target_sound(net, target)
                && place_sound(net, next)
                && template_sound(net, instruction)
                && no_formal_twice(instruction)
        }
        Action::Eval { target, sent, next } => {
            target_sound(net, target)
                && place_sound(net, sent)
                && place_sound(net, next)
                && template_absent(instruction)
        }
        Action::New { variable, next } => {
            variable_sound(variable) && place_sound(net, next) && template_absent(instruction)
        }
        Action::Fork { first, second } => {
            place_sound(net, first) && place_sound(net, second) && template_absent(instruction)
        }
        Action::OutToSet { members, next } => {
            net.format == ROW_BY_ORIGIN
                && members.members().all(|member| address_sound(net, member))
                && place_sound(net, next)
                && template_sound(net, instruction)
                && no_formal(instruction)
        }
    }
}

fn target_sound(net: &Net, target: Target) -> bool {
    match target {
        Target::Written(address) => address_sound(net, address),
        Target::Own => true,
        Target::Variable(variable) => variable_sound(variable),
    }
}

// An action without a template has field count 0 and zero fields.
fn template_absent(instruction: &Instruction) -> bool {
    instruction.count == 0 && instruction.fields == Instruction::STOP.fields
}

fn template_sound(net: &Net, instruction: &Instruction) -> bool {
    if !field_count_sound(instruction.count) {
        return false;
    }
    let (held, past) = instruction.fields.split_at(instruction.count as usize);
    held.iter().all(|field| template_field_sound(net, field))
        && past.iter().all(|field| *field == TemplateField::Reading(0))
}

fn template_field_sound(net: &Net, field: &TemplateField) -> bool {
    match *field {
        TemplateField::Reading(_) | TemplateField::Own => true,
        TemplateField::Address(address) => address_sound(net, address),
        TemplateField::Variable(variable) => variable_sound(variable),
        TemplateField::FormalReading(variable) => variable_sound(variable),
        TemplateField::FormalAddress(variable) => variable_sound(variable),
    }
}

fn formal(field: &TemplateField) -> Option<u8> {
    match *field {
        TemplateField::FormalReading(variable) => Some(variable),
        TemplateField::FormalAddress(variable) => Some(variable),
        _ => None,
    }
}

// Rule 26.
fn no_formal(instruction: &Instruction) -> bool {
    instruction
        .fields
        .iter()
        .all(|field| formal(field).is_none())
}

// Rule 27. Fields past the count are known to be zero, so no formals.
fn no_formal_twice(instruction: &Instruction) -> bool {
    let fields = &instruction.fields;
    (0..FIELDS).all(|second| {
        let variable = formal(&fields[second]);
        variable.is_none()
            || fields[..second]
                .iter()
                .all(|first| formal(first) != variable)
    })
}

#[cfg(test)]
mod tests;
