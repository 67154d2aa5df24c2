//! The limits of the net and of the notation, reached and passed by one:
//! processes, tuples and fields, depth (point 4), instructions.

use super::{after_a_row, rows, Edge};

pub fn edges() -> Vec<Edge> {
    [
        processes(),
        tuples(),
        after_a_row(&FIELDS),
        depth(),
        instructions(),
        vec![(deepest(), 0), (widest(), 0)],
    ]
    .concat()
}

// Lines that each of these lines follows, after one row with every right.
fn after(lines: &str, list: &[(&str, u8)]) -> Vec<Edge> {
    let edge = |(more, number): &(&str, u8)| {
        let all = format!("{lines}{more}");
        after_a_row(&[(&all, *number)]).remove(0)
    };
    list.iter().map(edge).collect()
}

// A fifth process is 22 before anything that stands in its place.
fn processes() -> Vec<Edge> {
    let four = "0 :: nil\n".repeat(4);
    let more = [
        ("", 0),
        ("0 :: nil\n", 22),
        ("0 :: A0\n", 22),
        ("0 :: x\n", 22),
        ("0 :: out(!", 22),
        ("0 :: \n", 22),
        ("0 :: ", 22),
        ("0 ::", 31),
        ("1 :: nil\n", 23),
        ("0 :: <5>\n", 0),
        ("A0 = nil\n", 0),
    ];
    let mut edges = after(&four, &more);
    let of_two = "0 :: nil\n1 :: nil\n".repeat(4);
    edges.push(((rows(2) + &of_two).into_bytes(), 0));
    edges.push(((rows(2) + &of_two + "1 :: nil\n").into_bytes(), 22));
    edges
}

// So is a seventeenth tuple.
fn tuples() -> Vec<Edge> {
    let sixteen = "0 :: <5>\n".repeat(16);
    let more = [
        ("A0 = nil\n", 0),
        ("0 :: <5>\nA0 = nil\n", 22),
        ("0 :: <", 22),
        ("0 :: <x", 22),
        ("0 :: <1,2,3,4,5>\n", 22),
        ("0 :: ", 31),
        ("0 :: nil\n", 0),
    ];
    after(&sixteen, &more)
}

// And so is a fifth field.
const FIELDS: [(&str, u8); 16] = [
    ("0 :: <1,2,3,4>\nA0 = nil\n", 0),
    ("0 :: <1,2,3,4,5>\nA0 = nil\n", 22),
    ("0 :: <1,2,3,4,x>\nA0 = nil\n", 22),
    ("0 :: <1,2,3,4,>\nA0 = nil\n", 22),
    ("0 :: <1,2,3,4,", 22),
    ("0 :: <1,2,3,4", 31),
    ("0 :: out(1,2,3,4)@0.nil\n", 0),
    ("0 :: out(1,2,3,4,5)@0.nil\n", 22),
    ("0 :: out(1,2,3,4,!x0)@0.nil\n", 22),
    ("0 :: out(1,2,3,!x0,5)@0.nil\n", 26),
    ("0 :: in(!x0,!x1,!x2,!x3)@0.nil\n", 0),
    ("0 :: in(!x0,!x1,!x2,!x3,!x0)@0.nil\n", 22),
    ("0 :: in(!x0,!x1,!x2,!x2,5)@0.nil\n", 27),
    ("0 :: read(1,2,3,4,5)@0.nil\n", 22),
    ("0 :: read(1,2,3,4,@16)@0.nil\n", 22),
    ("0 :: read(1,2,3,@16,5)@0.nil\n", 31),
];

/// A process of so many forks, each in the first branch of the one before.
pub fn brackets(depth: usize) -> String {
    format!("{}nil{}", "(".repeat(depth), " | nil)".repeat(depth))
}

/// A process of so many evals, each in the process that the one before
/// sends.
pub fn evals(depth: usize) -> String {
    format!("{}nil{}", "eval(".repeat(depth), ")@0.nil".repeat(depth))
}

// Both in turn, the inner ones in second branches and after an action.
fn mixed(depth: usize) -> String {
    let (mut open, mut close) = (String::new(), String::new());
    for level in 0..depth {
        let (before, after) = match level % 3 {
            0 => ("(nil | ", ")"),
            1 => ("eval(", ")@self.nil"),
            _ => ("out(1)@0.(", " | nil)"),
        };
        open += before;
        close.insert_str(0, after);
    }
    format!("{open}nil{close}")
}

fn depth() -> Vec<Edge> {
    let shapes: [fn(usize) -> String; 3] = [brackets, evals, mixed];
    let at_depth = |(depth, number)| {
        shapes.map(|shape| {
            let process = shape(depth);
            after_a_row(&[
                (&format!("0 :: {process}\n"), number),
                (&format!("A0 = {process}\n"), number),
            ])
        })
    };
    let depths = [(1, 0), (31, 0), (32, 0), (33, 32), (34, 32), (1000, 32)];
    let mut edges = depths.map(at_depth).concat().concat();
    edges.extend(around_the_deepest());
    edges
}

// What stands where 32 are open.
fn around_the_deepest() -> Vec<Edge> {
    let open = format!("0 :: {}", "(".repeat(32));
    let more = [
        ("(", 32),
        ("(!", 32),
        ("eval(", 32),
        ("eval(!", 32),
        ("eval", 31),
        ("eval)", 31),
        ("out(!", 26),
        ("out(5)@0.(", 32),
        ("out(5)@0.eval(", 32),
        ("nil | (", 32),
        ("nil | nil) | (", 31),
        ("nil | nil) | ((", 32),
        ("x", 31),
    ];
    let mut edges = after(&open, &more);
    // Those that are closed count no more.
    let one_by_one = format!("0 :: {}nil\n", "eval((nil | nil))@0.".repeat(100));
    let many = "A0 = ".to_string() + &brackets(32) + "\nA1 = " + &brackets(32) + "\n";
    edges.extend(after_a_row(&[(&one_by_one, 0), (&many, 0)]));
    edges
}

/// A process of so many instructions, the last of them a stop.
pub fn chain(instructions: usize) -> String {
    "out(1)@0.".repeat(instructions - 1) + "nil"
}

fn instructions() -> Vec<Edge> {
    let of = |count| format!("A0 = {}\n", chain(count));
    let stops = |count| {
        let line = |name| format!("A{name} = nil\n");
        (0..count).map(line).collect::<String>()
    };
    let started = "0 :: A0\n";
    let long = [
        (of(1), 0),
        (of(511), 0),
        (of(512), 0),
        (of(513), 22),
        (of(5000), 22),
        (of(512) + started, 0),
        (of(512) + "A1 = A0\n", 0),
        (of(512) + "0 :: <5>\n", 0),
        (of(511) + "A1 = nil\n", 0),
        (of(512) + "A1 = nil\n", 22),
        (of(480) + "A1 = " + &brackets(15) + "\n", 0),
        (of(480) + "A1 = " + &brackets(16) + "\n", 22),
        (stops(512), 0),
        (stops(512) + started, 0),
        (stops(512) + "0 :: nil\n", 22),
        (of(513) + "x", 31),
        (of(513) + "0 :: out(!x0)@0.nil\n", 26),
    ];
    let borrowed = long.each_ref().map(|(lines, number)| (&lines[..], *number));
    after_a_row(&borrowed)
}

/// The deepest text: 32 open at once, in many ways.
pub fn deepest() -> Vec<u8> {
    let shapes = [brackets(32), evals(32), mixed(32)];
    let lines = format!(
        "0 :: {}\n0 :: {}\n0 :: {}\n",
        shapes[0], shapes[1], shapes[2]
    );
    after_a_row(&[(&lines, 0)]).remove(0).0
}

/// The widest text: 16 rows with every right, 512 instructions, 64
/// processes, 256 tuples of four fields.
pub fn widest() -> Vec<u8> {
    let rights: String = (0..16).map(|over| format!(" {over}:iroe")).collect();
    let mut text: String = (0..16)
        .map(|address| format!("{address} has n{rights}\n"))
        .collect();
    let template = "-2147483648,-2147483648,-2147483648,-2147483648";
    for address in 0..16 {
        for _ in 0..4 {
            let out = format!("out({template})@{address}.");
            text += &format!("{address} :: {}nil\n", out.repeat(7));
        }
        for _ in 0..16 {
            text += &format!("{address} :: <{template}>\n");
        }
    }
    text.into_bytes()
}
