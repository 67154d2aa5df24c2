//! A tree as a text. Numbers out of range are printed as they are.

use super::source::*;
use crate::net::{Field, Rights, Target, TemplateField, Tuple};

/// The text of a tree.
pub fn text(source: &Source) -> Vec<u8> {
    let mut text = String::new();
    for row in &source.rows {
        put_row(&mut text, row);
    }
    for line in &source.lines {
        put_line(&mut text, line);
    }
    text.into_bytes()
}

fn put_row(text: &mut String, RowLine { at, origin, row }: &RowLine) {
    *text += &at.to_string();
    if let Some(origin) = origin {
        *text += &format!(" from {origin}");
    }
    *text += " has";
    if row.create {
        *text += " n";
    }
    for (over, rights) in row.rights.iter().enumerate() {
        if *rights != Rights::NONE {
            *text += &format!(" {over}:{}", letters(rights));
        }
    }
    text.push('\n');
}

fn letters(rights: &Rights) -> String {
    let all = [
        (rights.take, 'i'),
        (rights.read, 'r'),
        (rights.put, 'o'),
        (rights.send, 'e'),
    ];
    let held = all.iter().filter(|(held, _)| *held);
    held.map(|(_, letter)| letter).collect()
}

fn put_line(text: &mut String, line: &Line) {
    match line {
        Line::Definition(name, body) => {
            *text += &format!("A{name} = ");
            put_process(text, body);
        }
        Line::Start(at, process) => {
            *text += &format!("{} :: ", at.0);
            put_process(text, process);
        }
        Line::Held(at, tuple) => *text += &format!("{} :: {}", at.0, tuple_text(tuple)),
    }
    text.push('\n');
}

fn put_process(text: &mut String, process: &Process) {
    for action in &process.actions {
        put_action(text, action);
        text.push('.');
    }
    match &process.end {
        End::Stop => *text += "nil",
        End::Name(name) => *text += &format!("A{name}"),
        End::Fork(first, second) => {
            text.push('(');
            put_process(text, first);
            *text += " | ";
            put_process(text, second);
            text.push(')');
        }
    }
}

fn put_action(text: &mut String, action: &Action) {
    match action {
        Action::Template(verb, fields, aim) => {
            let fields: Vec<String> = fields.iter().map(field_text).collect();
            *text += &format!("{}({})@", verb_text(*verb), fields.join(","));
            *text += &aim_text(aim);
        }
        Action::Eval(sent, aim) => {
            *text += "eval(";
            put_process(text, sent);
            *text += ")@";
            *text += &aim_text(aim);
        }
        Action::New(variable) => *text += &format!("newloc(u{variable})"),
    }
}

fn verb_text(verb: Verb) -> &'static str {
    match verb {
        Verb::Out => "out",
        Verb::In => "in",
        Verb::Read => "read",
    }
}

fn aim_text(aim: &Aim) -> String {
    match aim {
        Aim::At(target) => target_text(target),
        Aim::Set(members) => {
            let members: Vec<String> = members.iter().map(u8::to_string).collect();
            format!("{{{}}}", members.join(","))
        }
    }
}

fn target_text(target: &Target) -> String {
    match target {
        Target::Written(address) => address.0.to_string(),
        Target::Own => "self".to_string(),
        Target::Variable(variable) => format!("v{variable}"),
    }
}

fn field_text(field: &TemplateField) -> String {
    match field {
        TemplateField::Reading(reading) => reading.to_string(),
        TemplateField::Address(address) => format!("@{}", address.0),
        TemplateField::Own => "self".to_string(),
        TemplateField::Variable(variable) => format!("v{variable}"),
        TemplateField::FormalReading(variable) => format!("!x{variable}"),
        TemplateField::FormalAddress(variable) => format!("!u{variable}"),
    }
}

fn tuple_text(tuple: &Tuple) -> String {
    let held = tuple.fields[..tuple.count as usize].iter();
    let fields: Vec<String> = held
        .map(|field| match field {
            Field::Reading(reading) => reading.to_string(),
            Field::Address(address) => format!("@{}", address.0),
        })
        .collect();
    format!("<{}>", fields.join(","))
}
