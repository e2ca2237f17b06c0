//! Each attribute, field and choice of the tables of all kinds has a column.

use crate::user::prelude::*;

use crate::forms_kinds::TcTables;
use crate::forms_values::{Choice, Field, Part, Row, Tables};
use crate::show::attributes::{Column, Columns};
use crate::show::columns::{KindColumns, Root};

const PLACES: usize = 6000;

// The number of columns with this name in JSON.
fn count(columns: &[Column<'static>], key: &str) -> usize {
    columns.iter().filter(|column| column.key == key).count()
}

fn have_fields(columns: &[Column<'static>], fields: &[Field<'static>]) -> bool {
    fields.iter().all(|field| count(columns, field.name) == 1)
}

// An attribute that depends on the kind may be twice among those of every kind.
fn have_rows(columns: &[Column<'static>], layer: &str, rows: &[Row<'static>]) -> bool {
    rows.iter().all(|row| count(columns, row.name) == 1) && (layer.is_empty() || count(columns, layer) == 1)
}

fn have_choices(columns: &[Column<'static>], choices: &[Choice<'static>]) -> bool {
    choices.iter().all(|choice| count(columns, choice.name) == 1)
}

// The rows at a place.
fn rows_at(place: usize) -> &'static [Row<'static>] {
    if let Part::Rows(_, rows) = TcTables.part(place) {
        return rows;
    }
    &[]
}

fn have_part(columns: &[Column<'static>], part: Part<'static>) -> bool {
    match part {
        Part::Fields(fields) => have_fields(columns, fields),
        Part::Rows(layer, rows) => have_rows(columns, layer, rows),
        Part::Choices(choices) => have_choices(columns, choices),
        Part::Kinds(common, others, _) => {
            have_rows(columns, "", rows_at(common)) && have_rows(columns, "", rows_at(others))
        }
        Part::One(_) | Part::Names(_) => true,
    }
}

#[test]
fn each_part_has_its_columns() {
    let columns = KindColumns { root: Root::Qdisc, interfaces: &[], links: None, all: false };
    let mut parts = 0usize;
    for place in 0..PLACES {
        let part = TcTables.part(place);
        assert!(have_part(columns.columns(place), part), "{place}");
        if let Part::Fields(_) | Part::Rows(_, _) = part {
            parts = parts.saturating_add(1);
        }
    }
    assert!(parts > 200);
}
