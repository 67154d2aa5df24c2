//! Texts by hand with the number each is refused with, 0 where it is
//! accepted: the order of faults point by point, and the limits.

mod fields;
mod format_2;
mod limits;
mod lines;
mod rows;
mod whole;

/// A text and its number.
pub type Edge = (Vec<u8>, u8);

/// All edges.
pub fn edges() -> Vec<Edge> {
    let parts = [
        rows::edges(),
        lines::edges(),
        fields::edges(),
        limits::edges(),
        whole::edges(),
        format_2::edges(),
    ];
    parts.concat()
}

pub use format_2::{deepest_of_format_2, full_rows, rows_by_origin, widest_of_format_2};
pub use limits::{brackets, chain, deepest, evals, widest};

// Texts with their number.
fn texts(list: &[(&str, u8)]) -> Vec<Edge> {
    let edge = |(text, number): &(&str, u8)| (text.as_bytes().to_vec(), *number);
    list.iter().map(edge).collect()
}

// Lines after one row with every right, each with the text's number.
fn after_a_row(list: &[(&str, u8)]) -> Vec<Edge> {
    let row = "0 has n 0:iroe\n";
    let edge = |(lines, number): &(&str, u8)| (format!("{row}{lines}").into_bytes(), *number);
    list.iter().map(edge).collect()
}

/// So many rows without rights.
pub fn rows(count: usize) -> String {
    (0..count)
        .map(|address| format!("{address} has\n"))
        .collect()
}
