//! The path of an attribute.

use crate::user::prelude::*;

use crate::forms_attributes::attributes_shown::{Frame, kind_in};
use crate::forms_attributes::rows::{rows_under, shown_row};
use crate::forms_json::{Form, Part, Row, Tables};
use crate::forms_kinds::TcTables;
use crate::itoa::Buffer;

/// The path of an attribute.
pub struct Path {
    /// The names of the attributes that contain it, from the outside in, and its own, with slashes between: `Options/FqCodel/Limit`. An action, or an
    /// attribute without a name, has its number in its list, from 0 on.
    pub names: String,
    /// Its JSON pointer: `/attributes/1/Options/0/FqCodel/Limit`.
    pub pointer: String,
}

// Appends a slash and a text.
fn put_slash(out: &mut String, part: &str) -> Result<(), AllocError> {
    out.try_push_str("/")?;
    out.try_push_str(part)?;
    Ok(())
}

// The same, but without the slash at the beginning.
fn put_slashed(out: &mut String, part: &str) -> Result<(), AllocError> {
    if out.is_empty() {
        out.try_push_str(part)?;
        return Ok(());
    }
    put_slash(out, part)
}

impl Path {
    pub(crate) fn number(&mut self, n: u64) -> Result<(), AllocError> {
        put_slash(&mut self.pointer, Buffer::new().format(n))
    }

    pub(crate) fn call(&mut self, name: &str) -> Result<(), AllocError> {
        put_slashed(&mut self.names, name)?;
        put_slash(&mut self.pointer, name)
    }

    fn enter_layer(&mut self, layer: &str) -> Result<(), AllocError> {
        if layer.is_empty() {
            return Ok(());
        }
        self.call(layer)
    }

    pub(crate) fn count(&mut self, n: u64) -> Result<(), AllocError> {
        let mut buffer = Buffer::new();
        self.call(buffer.format(n))
    }
}

// Goes on with an attribute by its row, after n others. Returns the form of its value.
fn put_by_row(path: &mut Path, n: u64, layer: &str, row: Option<Row<'static>>) -> Result<Form, AllocError> {
    match row {
        Some(row) => {
            path.number(n)?;
            path.enter_layer(layer)?;
            path.call(row.name)?;
            Ok(row.form)
        }
        None => {
            path.count(n)?;
            Ok(Form::Hex)
        }
    }
}

// The same in a list with kinds.
fn put_by_kind(path: &mut Path, n: u64, row: Option<Row<'static>>, kind: Option<&str>) -> Result<Form, AllocError> {
    match kind {
        Some(_) => {
            path.number(n)?;
            path.call("Kind")?;
            Ok(Form::Hex)
        }
        None => put_by_row(path, n, "", row),
    }
}

// The name of the layer of a list.
fn layer_at(place: usize) -> &'static str {
    match TcTables.part(place) {
        Part::Rows(layer, _) => layer,
        _ => "",
    }
}

// The form at a place.
fn form_at(place: usize) -> Form {
    match TcTables.part(place) {
        Part::One(form) => form,
        Part::Names(_) => Form::Hex,
        Part::Fields(_) => Form::Record(place),
        Part::Rows(_, _) | Part::Kinds(_, _, _) => Form::List(place),
        Part::Choices(_) => Form::Choice(place),
    }
}

// The row of an attribute.
fn row_at(place: usize, kind: &str, word: u16) -> Option<Row<'static>> {
    shown_row(&rows_under(TcTables, place, kind), word)
}

/// Goes on with an attribute of this list under a kind, after n others. Returns the form of its value.
pub(crate) fn put_place(
    path: &mut Path,
    kind: &str,
    n: u64,
    frame: &Frame<'_>,
    list: Form,
) -> Result<Form, AllocError> {
    match list {
        Form::List(place) => {
            let row = row_at(place, kind, frame.word);
            put_by_row(path, n, layer_at(place), row)
        }
        Form::InForce(place) | Form::Own(place) => {
            let row = row_at(place, kind, frame.word);
            put_by_kind(path, n, row, kind_in(true, frame))
        }
        Form::Indexed(place) => {
            path.count(n)?;
            Ok(form_at(place))
        }
        _ => Ok(Form::Hex),
    }
}
