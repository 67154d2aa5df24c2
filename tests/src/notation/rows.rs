//! The rows, with which a text begins. The first line says of which format
//! they are.

mod by_origin;

use super::cursor::Cursor;
use super::OUTSIDE;
use crate::image::{ADDRESS_OUT_OF_RANGE, COUNT_OUT_OF_RANGE};
use crate::net::{Rights, Row, ADDRESSES, ROW_BY_ORIGIN, SINGLE_ROW};

/// What the rows of a text say: its format, and for each address the rows of
/// its node.
pub struct Rows {
    pub format: u8,
    pub nodes: Vec<[Row; ADDRESSES]>,
}

/// The rows of a text. A right over an address that the net has not is judged
/// after the last of them.
pub fn rows(cursor: &mut Cursor) -> Result<Rows, u8> {
    let rows = if cursor.goes_on_after_digits(" has") {
        let (format, nodes) = (SINGLE_ROW, single(cursor)?);
        Rows { format, nodes }
    } else if by_origin::goes_on(cursor) {
        let (format, nodes) = (ROW_BY_ORIGIN, by_origin::rows(cursor)?);
        Rows { format, nodes }
    } else {
        return Err(OUTSIDE);
    };
    let count = rows.nodes.len();
    let beyond = |row: &Row| row.rights[count..].iter().any(|at| *at != Rights::NONE);
    if rows.nodes.iter().flatten().any(beyond) {
        return Err(ADDRESS_OUT_OF_RANGE);
    }
    Ok(rows)
}

// Format 1: one row for each address, which holds for every origin. They are
// the lines that open with digits and ` has`, up to the first that does not.
fn single(cursor: &mut Cursor) -> Result<Vec<[Row; ADDRESSES]>, u8> {
    let mut nodes = Vec::new();
    while cursor.goes_on_after_digits(" has") {
        if nodes.len() == ADDRESSES {
            return Err(COUNT_OUT_OF_RANGE);
        }
        numbered(cursor, nodes.len())?;
        nodes.push([held(cursor)?; ADDRESSES]);
    }
    Ok(nodes)
}

// Passes over the number of a node or an origin, which has to be this one.
fn numbered(cursor: &mut Cursor, expected: usize) -> Result<(), u8> {
    if cursor.number(ADDRESSES as u32 - 1)? as usize == expected {
        Ok(())
    } else {
        Err(OUTSIDE)
    }
}

// A row from its ` has` on, to the end of its line.
fn held(cursor: &mut Cursor) -> Result<Row, u8> {
    cursor.expect(" has")?;
    let mut row = Row::ZERO;
    row.create = cursor.take(" n");
    let mut least = 0;
    while cursor.take(" ") {
        let over = cursor.number(ADDRESSES as u32 - 1)? as usize;
        if over < least {
            return Err(OUTSIDE);
        }
        cursor.expect(":")?;
        row.rights[over] = rights(cursor)?;
        least = over + 1;
    }
    cursor.expect("\n")?;
    Ok(row)
}

// The letters of one address, in their order and at least one.
fn rights(cursor: &mut Cursor) -> Result<Rights, u8> {
    let rights = Rights {
        take: cursor.take("i"),
        read: cursor.take("r"),
        put: cursor.take("o"),
        send: cursor.take("e"),
    };
    if rights == Rights::NONE {
        Err(OUTSIDE)
    } else {
        Ok(rights)
    }
}
