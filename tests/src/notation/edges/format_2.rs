//! Format 2: rows by origin and sets, point by point of issue 25.

mod form;
mod reaching;
mod sets;
mod wanted;

use super::Edge;

pub fn edges() -> Vec<Edge> {
    [
        form::edges(),
        wanted::edges(),
        sets::edges(),
        reaching::edges(),
        vec![(deepest_of_format_2(), 0), (widest_of_format_2(), 0)],
    ]
    .concat()
}

/// The rows of so many nodes, each for every origin, without rights.
pub fn rows_by_origin(count: usize) -> String {
    table(count).concat()
}

// The same line by line.
fn table(count: usize) -> Vec<String> {
    let all = (0..count).flat_map(|node| (0..count).map(move |origin| (node, origin)));
    all.map(|(node, origin)| format!("{node} from {origin} has\n"))
        .collect()
}

/// The same, each with every right.
pub fn full_rows(count: usize) -> String {
    let rights: String = (0..count).map(|over| format!(" {over}:iroe")).collect();
    let full = format!("has n{rights}");
    rows_by_origin(count).replace("has", &full)
}

// Lines after these rows, each with the text's number.
fn after_rows(rows: &str, list: &[(&str, u8)]) -> Vec<Edge> {
    let edge = |(lines, number): &(&str, u8)| (format!("{rows}{lines}").into_bytes(), *number);
    list.iter().map(edge).collect()
}

/// The deepest text of format 2: 32 open at once, and in the midst of them an
/// out to a set.
pub fn deepest_of_format_2() -> Vec<u8> {
    let shapes = [super::brackets(32), super::evals(32)];
    let lines =
        shapes.map(|shape| format!("0 :: {}\n", shape.replacen("nil", "out(5)@{0}.nil", 1)));
    (full_rows(1) + &lines.concat()).into_bytes()
}

/// The widest text of format 2 that is no longer than the program
/// `inspect_text` takes: 256 rows with every right, 512 instructions, 448 of
/// them outs to all addresses, 64 processes, 256 tuples.
pub fn widest_of_format_2() -> Vec<u8> {
    let members: Vec<String> = (0..16).map(|member| member.to_string()).collect();
    let out = format!("out(5)@{{{}}}.", members.join(","));
    let mut text = full_rows(16);
    for address in 0..16 {
        text += &format!("{address} :: {}nil\n", out.repeat(7)).repeat(4);
        text += &format!("{address} :: <5>\n").repeat(16);
    }
    text.into_bytes()
}
