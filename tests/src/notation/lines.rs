//! The lines after the rows, in any order: definitions, processes, tuples.

use super::cursor::Cursor;
use super::draft::Draft;
use super::processes::{name, process};
use super::templates::tuple;
use super::DEPTH;
use crate::image::COUNT_OUT_OF_RANGE;
use crate::net::Locality;

/// Reads the lines to the end of the text.
pub fn lines(cursor: &mut Cursor, draft: &mut Draft) -> Result<(), u8> {
    while cursor.next().is_some() {
        line(cursor, draft)?;
        cursor.expect("\n")?;
    }
    Ok(())
}

fn line(cursor: &mut Cursor, draft: &mut Draft) -> Result<(), u8> {
    if cursor.goes_on("A") {
        return definition(cursor, draft);
    }
    let at = cursor.address(draft.address_count)?;
    cursor.expect(" :: ")?;
    if cursor.goes_on("<") {
        held(cursor, draft, at)
    } else {
        start(cursor, draft, at)
    }
}

fn definition(cursor: &mut Cursor, draft: &mut Draft) -> Result<(), u8> {
    let name = name(cursor)?;
    cursor.expect(" = ")?;
    let body = process(cursor, draft, DEPTH)?;
    draft.names.define(name, body);
    Ok(())
}

// A seventeenth tuple is at fault before anything that stands there.
fn held(cursor: &mut Cursor, draft: &mut Draft, at: Locality) -> Result<(), u8> {
    if draft.tuples_full(at) {
        return Err(COUNT_OUT_OF_RANGE);
    }
    cursor.expect("<")?;
    let fields = tuple(cursor, draft.address_count)?;
    draft.add_tuple(at, &fields);
    Ok(())
}

// A fifth process is at fault before anything that stands there.
fn start(cursor: &mut Cursor, draft: &mut Draft, at: Locality) -> Result<(), u8> {
    if draft.slots_full(at) {
        return Err(COUNT_OUT_OF_RANGE);
    }
    let entry = process(cursor, draft, DEPTH)?;
    draft.start(at, entry);
    Ok(())
}
