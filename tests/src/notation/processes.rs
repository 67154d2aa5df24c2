//! Processes: `nil`, a name, a fork, or an action, a dot and a process.

use super::cursor::Cursor;
use super::draft::{Draft, Entry, Kind};
use super::templates::{set, target, template};
use super::{NAMES, OUTSIDE, TOO_DEEP};
use crate::net::ROW_BY_ORIGIN;

/// Reads a process into the draft and says where it begins. So many
/// brackets and evals may stand open inside it.
pub fn process(cursor: &mut Cursor, draft: &mut Draft, room: usize) -> Result<Entry, u8> {
    let mut part = read_part(cursor, draft, room)?;
    let begin = part.entry();
    while let Part::Action(action) = part {
        cursor.expect(".")?;
        part = read_part(cursor, draft, room)?;
        draft.lead_on(action, part.entry());
    }
    Ok(begin)
}

/// A name, where it is defined and where it is used.
pub fn name(cursor: &mut Cursor) -> Result<u16, u8> {
    cursor.expect("A")?;
    Ok(cursor.number(NAMES as u32 - 1)? as u16)
}

/// What stands between the dots of a process.
enum Part {
    /// An action's instruction; a dot and more follow.
    Action(usize),
    /// `nil`, a name or a fork, with which a process ends.
    End(Entry),
}

impl Part {
    fn entry(&self) -> Entry {
        match *self {
            Part::Action(action) => Entry::At(action),
            Part::End(entry) => entry,
        }
    }
}

fn read_part(cursor: &mut Cursor, draft: &mut Draft, room: usize) -> Result<Part, u8> {
    if cursor.goes_on("A") {
        let name = name(cursor)?;
        draft.names.use_name(name);
        Ok(Part::End(Entry::Named(name)))
    } else if cursor.goes_on("(") {
        Ok(Part::End(Entry::At(fork(cursor, draft, room)?)))
    } else if cursor.take("nil") {
        Ok(Part::End(Entry::At(draft.put(Kind::Stop))))
    } else if cursor.goes_on("eval(") {
        Ok(Part::Action(eval(cursor, draft, room)?))
    } else {
        let kind = action(cursor, draft)?;
        Ok(Part::Action(draft.put(kind)))
    }
}

// The fork's number is taken at its bracket, before those of both branches.
fn fork(cursor: &mut Cursor, draft: &mut Draft, room: usize) -> Result<usize, u8> {
    let inside = room.checked_sub(1).ok_or(TOO_DEEP)?;
    let fork = draft.reserve();
    cursor.expect("(")?;
    let first = process(cursor, draft, inside)?;
    cursor.expect(" | ")?;
    let second = process(cursor, draft, inside)?;
    cursor.expect(")")?;
    draft.fill(fork, Kind::Fork(first, second));
    Ok(fork)
}

// The eval's number is taken before those of the process that it sends.
fn eval(cursor: &mut Cursor, draft: &mut Draft, room: usize) -> Result<usize, u8> {
    let inside = room.checked_sub(1).ok_or(TOO_DEEP)?;
    let eval = draft.reserve();
    cursor.expect("eval(")?;
    let sent = process(cursor, draft, inside)?;
    cursor.expect(")")?;
    let target = target(cursor, draft.address_count)?;
    draft.fill(eval, Kind::Eval(target, sent));
    Ok(eval)
}

// An action that holds no process.
fn action(cursor: &mut Cursor, draft: &Draft) -> Result<Kind, u8> {
    let count = draft.address_count;
    if cursor.take("out(") {
        out(cursor, draft)
    } else if cursor.take("in(") {
        let fields = template(cursor, count, false)?;
        Ok(Kind::In(target(cursor, count)?, fields))
    } else if cursor.take("read(") {
        let fields = template(cursor, count, false)?;
        Ok(Kind::Read(target(cursor, count)?, fields))
    } else if cursor.take("newloc(u") {
        let variable = cursor.variable()?;
        cursor.expect(")")?;
        Ok(Kind::New(variable))
    } else {
        Err(OUTSIDE)
    }
}

// An out after its bracket. In format 2 its target may be a set.
fn out(cursor: &mut Cursor, draft: &Draft) -> Result<Kind, u8> {
    let count = draft.address_count;
    let fields = template(cursor, count, true)?;
    if draft.format == ROW_BY_ORIGIN && cursor.take("@{") {
        Ok(Kind::OutToSet(set(cursor, count)?, fields))
    } else {
        Ok(Kind::Out(target(cursor, count)?, fields))
    }
}
