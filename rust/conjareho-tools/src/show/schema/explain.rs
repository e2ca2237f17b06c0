//! `--explain`: the attributes of a kind, for people.

use crate::user::prelude::*;

use crate::forms_values::{Form, KindRows, Number, Part, Tables};
use crate::show::schema::json::put_example;
use crate::show::schema::notes::{Note, note_of};
use crate::show::schema::texts::{DEEPEST, Done, Member, first_member, put, put_around, put_form, put_times};
use crate::show::units::{Name, Unit, put_number};

// The state of an explanation: the table, the notes on its members, and the levels left.
#[derive(Clone, Copy)]
struct At<'a, T> {
    table: T,
    notes: &'a [Note],
    depth: u8,
}

// Appends a line for each number and its name.
fn put_named(out: &mut Vec<u8>, level: u8, unit: Unit, names: &[Name<'_>]) -> Done {
    if let Some((first, others)) = names.split_first() {
        put_times(out, "  ", level as usize)?;
        put(out, first.name)?;
        put(out, " = ")?;
        put_number(out, unit, first.number)?;
        put_around(out, " (", first.kernel, ")")?;
        put(out, "\n")?;
        put_named(out, level, unit, others)?;
    }
    Ok(())
}

// The number of values of a signed form; 0 for other forms.
fn signed_of(form: Form) -> u64 {
    match form {
        Form::Named(Number::I8, _) => 0x100,
        Form::Named(Number::I16, _) => 0x1_0000,
        Form::Named(Number::I32, _) => 0x1_0000_0000,
        _ => 0,
    }
}

fn put_signed(out: &mut Vec<u8>, all: u64, n: u64) -> Done {
    if all / 2 <= n && n < all {
        put(out, "-")?;
        return put_number(out, Unit::Plain, all - n);
    }
    put_number(out, Unit::Plain, n)
}

// Appends the number of a name, or the form and the unit.
fn put_value(out: &mut Vec<u8>, all: u64, of: Member, unit: &str) -> Done {
    match of.number {
        Some(number) => {
            put(out, " = ")?;
            put_signed(out, all, number)
        }
        None => {
            put(out, ": ")?;
            put_form(out, of.form)?;
            put_around(out, ", ", unit, "")
        }
    }
}

// Appends a line for a member: its name, its value, and the kernel's name.
fn put_line(out: &mut Vec<u8>, level: u8, all: u64, of: Member, note: Note) -> Done {
    put_times(out, "  ", level as usize)?;
    put(out, of.name)?;
    put_value(out, all, of, note.unit)?;
    put_around(out, " (", note.kernel, ")")?;
    put(out, "\n")
}

// The place that a form refers to. Kinds nested in attributes have explanations of their own.
fn place_in(form: Form) -> Option<usize> {
    match form {
        Form::Named(_, place) | Form::Times(_, place) => Some(place),
        Form::Record(place) | Form::Array(place) | Form::List(place) => Some(place),
        Form::InForce(place) | Form::Indexed(place) | Form::Choice(place) => Some(place),
        _ => None,
    }
}

// The form of a part that is only a form.
fn alone(part: Part<'static>) -> Option<Form> {
    if let Part::One(form) = part {
        return Some(form);
    }
    None
}

// True for a choice of nothing, which has no line.
fn is_empty_choice<T: Tables>(table: T, form: Form) -> bool {
    match form {
        Form::Choice(place) => first_member(table.part(place)).is_none(),
        _ => false,
    }
}

// Appends the contents of a form.
fn explain_form<T: Tables>(out: &mut Vec<u8>, at: &At<'_, T>, form: Form) -> Done {
    let depth = match at.depth.checked_sub(1) {
        Some(depth) => depth,
        None => return Ok(()),
    };
    let place = match place_in(form) {
        Some(place) => place,
        None => return Ok(()),
    };
    let inner = At { table: at.table, notes: at.notes, depth };
    match alone(at.table.part(place)) {
        Some(form) => explain_form(out, &inner, form),
        None => explain_members(out, &inner, signed_of(form), place),
    }
}

// Appends the members of a part that have a line, each with its contents.
fn explain_members<T: Tables>(out: &mut Vec<u8>, at: &At<'_, T>, all: u64, place: usize) -> Done {
    let level = DEEPEST - at.depth;
    let mut left = at.table.part(place);
    while let Some((member, others)) = first_member(left) {
        if !is_empty_choice(at.table, member.form) {
            let note = note_of(at.notes, place, member.name);
            put_line(out, level, all, member, note)?;
            put_named(out, level + 1, note.numbers, note.names)?;
            explain_form(out, at, member.form)?;
        }
        left = others;
    }
    Ok(())
}

// ---- kinds

/// The kinds of a list at a place.
#[must_use]
pub fn kinds_of<T: Tables>(table: T, place: usize) -> &'static [KindRows<'static>] {
    if let Part::Kinds(_, _, kinds) = table.part(place) {
        return kinds;
    }
    &[]
}

// The place of the rows of a kind.
fn rows_of_kind(kinds: &[KindRows<'_>], kind: &str) -> Option<usize> {
    match kinds.split_first() {
        Some((it, _)) if it.kind == kind => Some(it.rows),
        Some((_, others)) => rows_of_kind(others, kind),
        None => None,
    }
}

/// Appends the attributes of a kind and an example, from the list of kinds at a place: a line for each attribute, field
/// and choice with its name in JSON, its form, its unit and the kernel's name, and a line for each name of a number.
/// Nothing for an unknown kind.
///
/// # Errors
///
/// A [`AllocError`].
pub fn put_kind<T: Tables>(
    table: T,
    notes: &[Note],
    place: usize,
    kind: &str,
    out: &mut Vec<u8>,
) -> Result<(), AllocError> {
    if let Some(rows) = rows_of_kind(kinds_of(table, place), kind) {
        let at = At { table, notes, depth: DEEPEST };
        put(out, kind)?;
        put(out, "\n")?;
        explain_form(out, &at, Form::List(rows))?;
        put_example(out, table, kind, rows)?;
    }
    Ok(())
}

/// True if the list of kinds at a place has this kind.
#[must_use]
pub fn knows_kind<T: Tables>(table: T, place: usize, kind: &str) -> bool {
    rows_of_kind(kinds_of(table, place), kind).is_some()
}
