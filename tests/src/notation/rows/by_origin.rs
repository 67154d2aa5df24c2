//! The rows of format 2, `0 from 1 has ..`: of each node one for each origin,
//! ascending, node after node.

use super::{held, numbered};
use crate::image::COUNT_OUT_OF_RANGE;
use crate::net::{Row, ADDRESSES};
use crate::notation::cursor::Cursor;
use crate::notation::OUTSIDE;

/// Whether the text goes on with such a row: a line that opens with digits and
/// ` from`.
pub fn goes_on(cursor: &Cursor) -> bool {
    cursor.goes_on_after_digits(" from")
}

/// The rows of each node. Node 0's are as many as there are addresses, and
/// every other node has as many. One that is wanting or over is 31, but a
/// seventeenth origin of a node, and a row after the sixteenth node's last,
/// is 22 before anything that stands there.
pub fn rows(cursor: &mut Cursor) -> Result<Vec<[Row; ADDRESSES]>, u8> {
    let (count, first) = rows_of_node_0(cursor)?;
    let mut nodes = vec![first];
    for node in 1..count {
        nodes.push(rows_of_node(cursor, node, count)?);
    }
    match count {
        _ if !goes_on(cursor) => Ok(nodes),
        ADDRESSES => Err(COUNT_OUT_OF_RANGE),
        _ => Err(OUTSIDE),
    }
}

// They run until a row names another node; their number and the rows.
fn rows_of_node_0(cursor: &mut Cursor) -> Result<(usize, [Row; ADDRESSES]), u8> {
    let mut rows = [Row::ZERO; ADDRESSES];
    rows[0] = row(cursor, 0, 0)?;
    let mut count = 1;
    while goes_on(cursor) && named(cursor)? == 0 {
        if count == ADDRESSES {
            return Err(COUNT_OUT_OF_RANGE);
        }
        rows[count] = row(cursor, 0, count)?;
        count += 1;
    }
    Ok((count, rows))
}

fn rows_of_node(cursor: &mut Cursor, node: usize, count: usize) -> Result<[Row; ADDRESSES], u8> {
    let mut rows = [Row::ZERO; ADDRESSES];
    for (origin, one) in rows[..count].iter_mut().enumerate() {
        *one = row(cursor, node, origin)?;
    }
    let last = node == ADDRESSES - 1;
    if count == ADDRESSES && !last && goes_on(cursor) && named(cursor)? == node {
        return Err(COUNT_OUT_OF_RANGE);
    }
    Ok(rows)
}

// The node that the row here names.
fn named(cursor: &Cursor) -> Result<usize, u8> {
    let mut ahead = *cursor;
    Ok(ahead.number(ADDRESSES as u32 - 1)? as usize)
}

// The row of this node for this origin, which has to be here.
fn row(cursor: &mut Cursor, node: usize, origin: usize) -> Result<Row, u8> {
    numbered(cursor, node)?;
    cursor.expect(" from ")?;
    numbered(cursor, origin)?;
    held(cursor)
}
