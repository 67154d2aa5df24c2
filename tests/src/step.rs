//! One pick (document 01, "One pick"; document 02, slip 6: taking covers
//! reading; slip 10: the origin of sent and of forked code, by which the row
//! is chosen, and the rows after a new; slip 11: outs to a set).

use crate::matching::{bind, evaluate, evaluate_tuple, oldest_fitting};
use crate::net::*;
use crate::sound::{keeps_within, sound};

pub const PERFORMED: u8 = 0;
pub const STOPPED: u8 = 1;
pub const NO_TUPLE_FITS: u8 = 2;
pub const NO_ROOM: u8 = 3;
pub const RIGHT_LACKING: u8 = 4;
pub const SENT_CODE_BARRED: u8 = 5;
pub const VARIABLE_UNFIT: u8 = 6;
pub const SLOT_FREE: u8 = 7;
pub const ADDRESS_UNUSED: u8 = 8;
pub const LAST_BITS_SET: u8 = 9;
pub const NOT_SOUND: u8 = 10;

/// The address a pick is of: its first 4 bits.
pub fn pick_address(pick: u8) -> Locality {
    Locality(pick >> 4)
}

/// The slot a pick is of: the 2 bits after the address.
pub fn pick_slot(pick: u8) -> u8 {
    pick >> 2 & 3
}

/// One pick on any net: the answer, and the net changed as it says.
pub fn pick(net: &mut Net, pick: u8) -> u8 {
    if sound(net) {
        step(net, pick)
    } else {
        NOT_SOUND
    }
}

/// One pick on a net known to be sound.
pub fn step(net: &mut Net, pick: u8) -> u8 {
    if pick & 3 != 0 {
        return LAST_BITS_SET;
    }
    let host = pick_address(pick);
    if host.0 >= net.address_count {
        return ADDRESS_UNUSED;
    }
    let slot = pick_slot(pick) as usize;
    if !net.nodes[host.0 as usize].processes[slot].busy {
        return SLOT_FREE;
    }
    match (Run { net, host, slot }).perform() {
        Ok(()) => PERFORMED,
        Err(answer) => answer,
    }
}

/// A busy slot at an address in use of a sound net.
struct Run<'a> {
    net: &'a mut Net,
    host: Locality,
    slot: usize,
}

impl Run<'_> {
    // Performs the step, or answers with its number above 0.
    fn perform(&mut self) -> Result<(), u8> {
        match self.instruction().action {
            Action::Stop => self.stop(),
            Action::Out { target, next } => self.out(target, next),
            Action::In { target, next } => self.take(target, next),
            Action::Read { target, next } => self.read(target, next),
            Action::Eval { target, sent, next } => self.eval(target, sent, next),
            Action::New { variable, next } => self.new_address(variable, next),
            Action::Fork { first, second } => self.fork(first, second),
            Action::OutToSet { members, next } => self.out_to_set(members, next),
        }
    }

    fn process(&self) -> &Process {
        &self.node(self.host).processes[self.slot]
    }

    fn process_mut(&mut self) -> &mut Process {
        let host = self.host.0 as usize;
        &mut self.net.nodes[host].processes[self.slot]
    }

    fn instruction(&self) -> &Instruction {
        &self.net.code[self.process().at.0 as usize]
    }

    fn node(&self, address: Locality) -> &Node {
        &self.net.nodes[address.0 as usize]
    }

    fn node_mut(&mut self, address: Locality) -> &mut Node {
        &mut self.net.nodes[address.0 as usize]
    }

    // The hosting node's row for the origin of the process.
    fn row(&self) -> &Row {
        self.node(self.host).row_for(self.process().origin)
    }

    // The rights over a target in that row.
    fn rights(&self, target: Locality) -> Rights {
        self.row().over(target)
    }

    // The address a target means; 6 when its variable holds none.
    fn resolve(&self, target: Target) -> Result<Locality, u8> {
        match target {
            Target::Written(address) => Ok(address),
            Target::Own => Ok(self.host),
            Target::Variable(variable) => match self.process().variables[variable as usize] {
                Value::Address(address) => Ok(address),
                Value::Unset | Value::Reading(_) => Err(VARIABLE_UNFIT),
            },
        }
    }

    fn stop(&mut self) -> Result<(), u8> {
        *self.process_mut() = Process::FREE;
        Err(STOPPED)
    }

    fn out(&mut self, target: Target, next: Place) -> Result<(), u8> {
        let target = self.resolve(target)?;
        let tuple = self.tuple()?;
        require(self.rights(target).put)?;
        add_newest(self.node_mut(target), tuple)?;
        self.process_mut().at = next;
        Ok(())
    }

    // The tuple that is put, with the host's mark; 6 when a variable in it is
    // unset.
    fn tuple(&self) -> Result<Tuple, u8> {
        let variables = &self.process().variables;
        let tuple = evaluate_tuple(self.instruction(), self.host, variables);
        tuple.ok_or(VARIABLE_UNFIT)
    }

    // All members receive the tuple or none does: the right at each of them is
    // tested before the room at any, and the room at each before the first
    // receives. An empty set passes both tests.
    fn out_to_set(&mut self, set: Set, next: Place) -> Result<(), u8> {
        let tuple = self.tuple()?;
        require(set.members().all(|member| self.rights(member).put))?;
        if set.members().any(|member| self.node(member).full()) {
            return Err(NO_ROOM);
        }
        for member in set.members() {
            add_newest(self.node_mut(member), tuple)?;
        }
        self.process_mut().at = next;
        Ok(())
    }

    fn take(&mut self, target: Target, next: Place) -> Result<(), u8> {
        let (target, index) = self.fit(target, next, |rights| rights.take)?;
        remove(self.node_mut(target), index);
        Ok(())
    }

    fn read(&mut self, target: Target, next: Place) -> Result<(), u8> {
        self.fit(target, next, Rights::grants_read)?;
        Ok(())
    }

    // In and read alike: sets the formals from the oldest tuple that
    // fits, goes to the next place and says where that tuple stands.
    fn fit(
        &mut self,
        target: Target,
        next: Place,
        right: fn(Rights) -> bool,
    ) -> Result<(Locality, usize), u8> {
        let target = self.resolve(target)?;
        let variables = &self.process().variables;
        let template = evaluate(self.instruction(), self.host, variables);
        let template = template.ok_or(VARIABLE_UNFIT)?;
        require(right(self.rights(target)))?;
        let found = oldest_fitting(&template, self.node(target));
        let index = found.ok_or(NO_TUPLE_FITS)?;
        let tuple = self.node(target).tuples[index];
        let process = self.process_mut();
        bind(&template, &tuple, &mut process.variables);
        process.at = next;
        Ok((target, index))
    }

    // The sent code is judged by the target's row for the host, self meaning
    // the target; its origin is the host, wherever the sending code came
    // from.
    fn eval(&mut self, target: Target, sent: Place, next: Place) -> Result<(), u8> {
        let target = self.resolve(target)?;
        require(self.rights(target).send)?;
        let row = self.node(target).row_for(self.host);
        if !keeps_within(&self.net.code[..], self.net.code_length, sent, target, row) {
            return Err(SENT_CODE_BARRED);
        }
        self.start_copy(target, sent, self.host)?;
        self.process_mut().at = next;
        Ok(())
    }

    // Both branches keep the origin.
    fn fork(&mut self, first: Place, second: Place) -> Result<(), u8> {
        self.start_copy(self.host, second, self.process().origin)?;
        self.process_mut().at = first;
        Ok(())
    }

    // Starts a process of this origin with a copy of the variables in the
    // lowest free slot.
    fn start_copy(&mut self, target: Locality, at: Place, origin: Locality) -> Result<(), u8> {
        let copy = Process {
            busy: true,
            at,
            origin,
            variables: self.process().variables,
        };
        let slot = self.node(target).free_slot().ok_or(NO_ROOM)?;
        self.node_mut(target).processes[slot] = copy;
        Ok(())
    }

    fn new_address(&mut self, variable: u8, next: Place) -> Result<(), u8> {
        require(self.row().create)?;
        if self.net.address_count as usize == ADDRESSES {
            return Err(NO_ROOM);
        }
        let created = Locality(self.net.address_count);
        self.net.address_count += 1;
        self.share_rows(created);
        let process = self.process_mut();
        process.variables[variable as usize] = Value::Address(created);
        process.at = next;
        Ok(())
    }

    // The rows of the new address and of its creator, the host.
    fn share_rows(&mut self, created: Locality) {
        match self.net.format {
            ROW_BY_ORIGIN => self.share_by_origin(created),
            _ => self.share_alike(created),
        }
    }

    // Format 1. In every row: the new node's is the creator's as it stood;
    // then each of the two gains all four rights over the new address.
    fn share_alike(&mut self, created: Locality) {
        let mut rows = self.node(self.host).rows;
        rows.iter_mut().for_each(|row| gain(row, created));
        self.node_mut(created).rows = rows;
        self.node_mut(self.host).rows = rows;
    }

    // Format 2. The new node has the creator's rows as they stood and, for
    // origin itself, a copy of the creator's row for the creator. It gains
    // the four rights over itself in its rows for itself and for the creator,
    // and the creator in its row for the origin of the creating process. The
    // row for the new origin is empty everywhere else, as it was unused.
    fn share_by_origin(&mut self, created: Locality) {
        let (host, origin) = (self.host, self.process().origin);
        let mut rows = self.node(host).rows;
        rows[created.0 as usize] = rows[host.0 as usize];
        gain(&mut rows[created.0 as usize], created);
        gain(&mut rows[host.0 as usize], created);
        self.node_mut(created).rows = rows;
        gain(&mut self.node_mut(host).rows[origin.0 as usize], created);
    }
}

// A row gains all four rights over an address.
fn gain(row: &mut Row, over: Locality) {
    row.rights[over.0 as usize] = Rights::ALL;
}

// A right that is lacking is answered with 4.
fn require(right: bool) -> Result<(), u8> {
    if right {
        Ok(())
    } else {
        Err(RIGHT_LACKING)
    }
}

fn add_newest(node: &mut Node, tuple: Tuple) -> Result<(), u8> {
    if node.full() {
        return Err(NO_ROOM);
    }
    node.tuples[node.tuple_count as usize] = tuple;
    node.tuple_count += 1;
    Ok(())
}

// Younger tuples close the gap; the last record becomes zero.
fn remove(node: &mut Node, index: usize) {
    let count = node.tuple_count as usize;
    node.tuples.copy_within(index + 1..count, index);
    node.tuples[count - 1] = Tuple::ZERO;
    node.tuple_count -= 1;
}

#[cfg(test)]
mod tests;
