//! Fields, tuples, templates, targets and sets.

use super::cursor::Cursor;
use super::OUTSIDE;
use crate::image::{COUNT_OUT_OF_RANGE, FORMAL_IN_OUT, FORMAL_TWICE};
use crate::net::{Field, Locality, Set, Target, TemplateField, FIELDS};

/// A tuple's fields, after its `<` and with its `>`: readings and addresses.
pub fn tuple(cursor: &mut Cursor, count: u8) -> Result<Vec<Field>, u8> {
    let fields = list(cursor, |cursor, _| match cursor.next() {
        Some(b'-' | b'0'..=b'9') => Ok(Field::Reading(cursor.reading()?)),
        _ => {
            cursor.expect("@")?;
            Ok(Field::Address(cursor.address(count)?))
        }
    })?;
    cursor.expect(">")?;
    Ok(fields)
}

/// A template, after its bracket and with its closing one. An out has no
/// formals.
pub fn template(cursor: &mut Cursor, count: u8, out: bool) -> Result<Vec<TemplateField>, u8> {
    let fields = list(cursor, |cursor, before| match cursor.next() {
        Some(b'!') if out => Err(FORMAL_IN_OUT),
        Some(b'!') => formal(cursor, before),
        _ => actual(cursor, count),
    })?;
    cursor.expect(")")?;
    Ok(fields)
}

/// A target, with its `@`.
pub fn target(cursor: &mut Cursor, count: u8) -> Result<Target, u8> {
    cursor.expect("@")?;
    if cursor.take("self") {
        Ok(Target::Own)
    } else if cursor.take("v") {
        Ok(Target::Variable(cursor.variable()?))
    } else {
        Ok(Target::Written(cursor.address(count)?))
    }
}

/// A set of addresses, after its brace and with its closing one: none, or some
/// that ascend.
pub fn set(cursor: &mut Cursor, count: u8) -> Result<Set, u8> {
    if cursor.take("}") {
        return Ok(Set::EMPTY);
    }
    let mut members: Vec<Locality> = Vec::new();
    loop {
        let member = cursor.address(count)?;
        if members.last().is_some_and(|before| member.0 <= before.0) {
            return Err(OUTSIDE);
        }
        members.push(member);
        if !cursor.take(",") {
            break;
        }
    }
    cursor.expect("}")?;
    Ok(Set::of(members))
}

// One to four fields with commas between them; each is read knowing those
// before it. A fifth is at fault before anything that stands there.
fn list<T>(
    cursor: &mut Cursor,
    read: impl Fn(&mut Cursor, &[T]) -> Result<T, u8>,
) -> Result<Vec<T>, u8> {
    let mut fields = Vec::with_capacity(FIELDS);
    loop {
        if fields.len() == FIELDS {
            return Err(COUNT_OUT_OF_RANGE);
        }
        let field = read(cursor, &fields)?;
        fields.push(field);
        if !cursor.take(",") {
            return Ok(fields);
        }
    }
}

// A field that has its value before the step.
fn actual(cursor: &mut Cursor, count: u8) -> Result<TemplateField, u8> {
    if cursor.take("@") {
        Ok(TemplateField::Address(cursor.address(count)?))
    } else if cursor.take("self") {
        Ok(TemplateField::Own)
    } else if cursor.take("v") {
        Ok(TemplateField::Variable(cursor.variable()?))
    } else {
        Ok(TemplateField::Reading(cursor.reading()?))
    }
}

// A formal, its variable not formal before in this template.
fn formal(cursor: &mut Cursor, before: &[TemplateField]) -> Result<TemplateField, u8> {
    let formal = if cursor.take("!x") {
        TemplateField::FormalReading(cursor.variable()?)
    } else if cursor.take("!u") {
        TemplateField::FormalAddress(cursor.variable()?)
    } else {
        return Err(OUTSIDE);
    };
    if before.iter().any(|field| set_by(field) == set_by(&formal)) {
        Err(FORMAL_TWICE)
    } else {
        Ok(formal)
    }
}

// The variable that a field sets; none if it is no formal.
fn set_by(field: &TemplateField) -> Option<u8> {
    match *field {
        TemplateField::FormalReading(variable) => Some(variable),
        TemplateField::FormalAddress(variable) => Some(variable),
        _ => None,
    }
}
