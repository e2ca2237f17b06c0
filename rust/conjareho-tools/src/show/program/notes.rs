//! What the columns tell of each member of the table, for explanations.

use crate::user::prelude::*;

use crate::forms_kinds::{PLACES, TcTables};
use crate::forms_values::{Form, Part, Tables};
use crate::show::attributes::{Column, Columns, Display};
use crate::show::columns::{KindColumns, Root, kernel_name};
use crate::show::schema::{Note, unit_in_words};
use crate::show::units::{Name, Unit};

// The columns of every part are the same whatever a message is about.
const COLUMNS: KindColumns<'static> = KindColumns { root: Root::Qdisc, interfaces: &[], links: None, all: true };

/// A note for each member of each part.
pub(crate) fn notes_of_kinds() -> Result<Vec<Note>, AllocError> {
    let mut notes = Vec::new();
    for place in 0..PLACES {
        push_notes(&mut notes, place)?;
    }
    Ok(notes)
}

/// The places that have parts.
pub(crate) fn places_of_kinds() -> Result<Vec<usize>, AllocError> {
    let mut places = Vec::new();
    for place in 0..PLACES {
        if !matches!(TcTables.part(place), Part::One(Form::Hex)) {
            places.try_push(place)?;
        }
    }
    Ok(places)
}

fn push_notes(notes: &mut Vec<Note>, place: usize) -> Result<(), AllocError> {
    if let Part::Names(names) = TcTables.part(place) {
        for name in names {
            notes.try_push(note_of_name(place, name.name, name.number))?;
        }
        return Ok(());
    }
    for column in COLUMNS.columns(place) {
        notes.try_push(note_of_column(place, *column))?;
    }
    Ok(())
}

fn note_of_name(place: usize, member: &'static str, number: u64) -> Note {
    Note { place, member, kernel: kernel_of(COLUMNS.names(place), number), unit: "", names: &[], numbers: Unit::Plain }
}

// The kernel's name of a number.
fn kernel_of(names: &[Name<'static>], number: u64) -> &'static str {
    for name in names {
        if name.number == number {
            return name.kernel;
        }
    }
    ""
}

fn note_of_column(place: usize, column: Column<'static>) -> Note {
    let (unit, names, numbers) = match column.display {
        Display::Number(unit) => (unit_in_words(unit), 0, Unit::Plain),
        Display::Named(unit, names) => (unit_in_words(unit), names, unit_of_numbers(unit)),
        Display::Flags(names) => ("", names, Unit::Hex),
        Display::Interface => ("interface", 0, Unit::Plain),
        _ => ("", 0, Unit::Plain),
    };
    Note { place, member: column.key, kernel: kernel_name(place, column), unit, names: names_at(names), numbers }
}

// The names at a place; none at 0.
fn names_at(place: usize) -> &'static [Name<'static>] {
    if place == 0 {
        return &[];
    }
    COLUMNS.names(place)
}

// A number with a name is written in hex or decimal, whatever it counts.
fn unit_of_numbers(unit: Unit) -> Unit {
    match unit {
        Unit::Hex | Unit::LongHex => Unit::Hex,
        _ => Unit::Plain,
    }
}
