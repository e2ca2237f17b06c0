//! What may be wrong with a part of any table.

use crate::look::{RESERVED, rows_at, rows_under, shown_row, type_of};
use conjareho::forms::{Form, Part, Row, Tables};
use std::collections::HashSet;
use std::fmt::Debug;
use std::hash::Hash;

/// What stands twice.
fn twice<T: Eq + Hash + Debug + Clone>(what: &str, items: impl Iterator<Item = T>) -> Vec<String> {
    let mut seen = HashSet::new();
    items.filter(|item| !seen.insert(item.clone())).map(|item| format!("{what} {item:?} twice")).collect()
}

fn reserved<'a>(what: &str, names: impl Iterator<Item = &'a str>) -> Vec<String> {
    names.filter(|name| RESERVED.contains(name)).map(|name| format!("{what} {name:?} is reserved")).collect()
}

/// Types and names are distinct, none has a name that is reserved, and each type is shown by its row.
fn of_rows(rows: &[Row<'static>]) -> Vec<String> {
    let hidden = rows.iter().filter(|row| shown_row(rows, row.word).is_none());
    [
        twice("the type", rows.iter().map(|row| type_of(row.word))),
        twice("the name", rows.iter().map(|row| row.name)),
        reserved("the name", rows.iter().map(|row| row.name)),
        hidden.map(|row| format!("{} shows nothing", row.name)).collect(),
    ]
    .concat()
}

/// The rows under each kind, and under one that no list has.
fn under_kinds(table: impl Tables, place: usize, part: Part<'static>) -> Vec<String> {
    let kinds = match part {
        Part::Kinds(_, _, kinds) => kinds,
        _ => &[],
    };
    let rows = |kind: &str| of_rows(&rows_under(table, place, kind));
    let told = |kind: &str| rows(kind).into_iter().map(|it| format!("under {kind:?}: {it}")).collect::<Vec<_>>();
    let each = kinds.iter().map(|it| it.kind).chain([""]).flat_map(told);
    each.chain(twice("the kind", kinds.iter().map(|it| it.kind))).collect()
}

/// The names of a record's fields, of choices and of numbers.
fn of_names(part: Part<'static>) -> Vec<String> {
    match part {
        Part::Fields(fields) => {
            let taken = fields.iter().filter(|it| ["raw", "rest"].contains(&it.name));
            let taken = taken.map(|it| format!("the field {:?} is reserved", it.name));
            taken.chain(twice("the field", fields.iter().map(|it| it.name))).collect()
        }
        Part::Choices(choices) => {
            let names = || choices.iter().map(|it| it.name);
            [twice("the choice", names()), reserved("the choice", names())].concat()
        }
        Part::Names(names) => {
            let numbers = twice("the number", names.iter().map(|it| it.number));
            [numbers, twice("the name", names.iter().map(|it| it.name))].concat()
        }
        Part::One(_) | Part::Rows(..) | Part::Kinds(..) => Vec::new(),
    }
}

fn forms_in(part: Part<'static>) -> Vec<Form> {
    match part {
        Part::One(form) => vec![form],
        Part::Names(_) | Part::Kinds(..) => Vec::new(),
        Part::Fields(fields) => fields.iter().map(|it| it.form).collect(),
        Part::Rows(_, rows) => rows.iter().map(|it| it.form).collect(),
        Part::Choices(choices) => choices.iter().map(|it| it.form).collect(),
    }
}

/// The places of the rows of a list whose rows depend on the kind.
fn places_of_rows(part: Part<'static>) -> Vec<usize> {
    match part {
        Part::Kinds(common, others, kinds) => {
            [common, others].into_iter().chain(kinds.iter().map(|it| it.rows)).collect()
        }
        _ => Vec::new(),
    }
}

/// An element: a record, or a form other than bytes, which are where no part is.
fn is_element(part: Part<'static>) -> bool {
    match part {
        Part::One(form) => !matches!(form, Form::Hex),
        part => matches!(part, Part::Fields(_)),
    }
}

/// The place that a form names, if it hasn't a part of the sort that the form needs.
fn without_part(table: impl Tables, form: Form) -> Option<usize> {
    let (place, is_there) = match form {
        Form::Named(_, at) => (at, matches!(table.part(at), Part::Names(_))),
        Form::Record(at) => (at, matches!(table.part(at), Part::Fields(_))),
        Form::Array(at) | Form::Times(_, at) | Form::Indexed(at) => (at, is_element(table.part(at))),
        Form::List(at) => (at, matches!(table.part(at), Part::Rows(..) | Part::Kinds(..))),
        Form::InForce(at) | Form::Own(at) => (at, matches!(table.part(at), Part::Kinds(..))),
        Form::Choice(at) => (at, matches!(table.part(at), Part::Choices(_))),
        _ => (0, true),
    };
    (!is_there).then_some(place)
}

/// The place of rows of a list with kinds that have the type by which a kind is set.
fn sets_kind(table: impl Tables, form: Form) -> Option<usize> {
    let (Form::InForce(place) | Form::Own(place)) = form else { return None };
    let has_kind = |at: &usize| rows_at(table, *at).iter().any(|row| type_of(row.word) == 1);
    places_of_rows(table.part(place)).into_iter().find(has_kind)
}

/// What these forms name that isn't there, or isn't of their sort.
pub fn faults_of_forms(table: impl Tables, of: &str, forms: &[Form]) -> Vec<String> {
    let absent = forms.iter().filter_map(|form| without_part(table, *form)).map(|at| format!("{of}: no part at {at}"));
    let kinds =
        forms.iter().filter_map(|form| sets_kind(table, *form)).map(|at| format!("{of}: a kind among rows at {at}"));
    absent.chain(kinds).collect()
}

/// All that is wrong with the part at a place.
pub fn faults_at(table: impl Tables, place: usize) -> Vec<String> {
    let (part, of) = (table.part(place), format!("place {place}"));
    let own = [under_kinds(table, place, part), of_names(part)].concat();
    let rows = places_of_rows(part).into_iter().filter(|at| !matches!(table.part(*at), Part::Rows(..)));
    let own = own.into_iter().chain(rows.map(|at| format!("no rows at {at}")));
    own.map(|it| format!("{of}: {it}")).chain(faults_of_forms(table, &of, &forms_in(part))).collect()
}
