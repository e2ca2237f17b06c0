//! The kinds in the tables.

use crate::user::prelude::*;

use crate::forms_kinds::{ACTION_LIST, ACTION_MESSAGE, TC_LIST, TC_MESSAGE, TcTables};
use crate::show::program::notes::{notes_of_kinds, places_of_kinds};
use crate::show::schema::{Note, kinds_of, knows_kind, put_kind, put_schema};
use core::fmt;

// The places of the lists with kinds: of qdiscs and filters, and of actions.
pub(crate) const LISTS: [usize; 2] = [TC_LIST, ACTION_LIST];

/// True if the tables have the kind.
pub(crate) fn is_known(kind: &str) -> bool {
    knows_kind(TcTables, TC_LIST, kind) || knows_kind(TcTables, ACTION_LIST, kind)
}

/// Writes the names of all kinds, one a line.
pub fn write_all_kinds<W: fmt::Write>(out: &mut W) -> fmt::Result {
    for place in &LISTS {
        for one in kinds_of(TcTables, *place) {
            out.write_str(one.kind)?;
            out.write_char('\n')?;
        }
    }
    Ok(())
}

/// Appends the attributes of a kind: names, forms and units. Appends nothing for an unknown kind.
///
/// # Errors
///
/// A [`AllocError`].
pub fn explain(kind: &str, out: &mut Vec<u8>) -> Result<(), AllocError> {
    let notes = notes_of_kinds()?;
    put_kinds(notes.as_slice(), kind, out)
}

fn put_kinds(notes: &[Note], kind: &str, out: &mut Vec<u8>) -> Result<(), AllocError> {
    for place in &LISTS {
        put_kind(TcTables, notes, *place, kind, out)?;
    }
    Ok(())
}

/// Appends the JSON Schema of a line.
pub(crate) fn put_schema_of_line(out: &mut Vec<u8>) -> Result<(), AllocError> {
    let places = places_of_kinds()?;
    put_schema(TcTables, places.as_slice(), TC_MESSAGE, ACTION_MESSAGE, out)
}
