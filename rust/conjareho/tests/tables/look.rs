//! What is at a place of a table, and where a form leads. A place with a part of another sort has no rows, no fields and no choices.

use conjareho::forms::{Choice, Field, Form, Number, Part, Row, Tables};

/// Names that stand for what has no row and no choice.
pub const RESERVED: [&str; 6] = ["raw", "Other", "word", "pad", "Kind", "bare"];

/// The type of an attribute, without the two flags of its word.
pub fn type_of(word: u16) -> u16 {
    word % (1 << 14)
}

pub fn rows_at(table: impl Tables, place: usize) -> &'static [Row<'static>] {
    match table.part(place) {
        Part::Rows(_, rows) => rows,
        _ => &[],
    }
}

/// The rows of a list under a kind: first its own, then those of all kinds.
pub fn rows_under(table: impl Tables, place: usize, kind: &str) -> Vec<Row<'static>> {
    match table.part(place) {
        Part::Rows(_, rows) => rows.to_vec(),
        Part::Kinds(common, others, kinds) => {
            let own = kinds.iter().find(|it| it.kind == kind).map_or(others, |it| it.rows);
            [rows_at(table, own), rows_at(table, common)].concat()
        }
        _ => Vec::new(),
    }
}

/// The row that an attribute is shown by: the first of its type, if it is also the first of its name.
pub fn shown_row(rows: &[Row<'static>], word: u16) -> Option<Row<'static>> {
    let counted = || rows.iter().filter(|row| !RESERVED.contains(&row.name));
    let first = counted().find(|row| type_of(row.word) == type_of(word))?;
    let named = counted().find(|row| row.name == first.name)?;
    (type_of(named.word) == type_of(word)).then_some(*named)
}

/// The form of an attribute; bytes if it has no row.
pub fn form_at(rows: &[Row<'static>], word: u16) -> Form {
    shown_row(rows, word).map_or(Form::Hex, |row| row.form)
}

/// The place that a form names; 0 if it names none.
pub fn place_in(form: Form) -> usize {
    match form {
        Form::Record(place)
        | Form::Array(place)
        | Form::List(place)
        | Form::InForce(place)
        | Form::Own(place)
        | Form::Indexed(place)
        | Form::Choice(place) => place,
        _ => 0,
    }
}

/// The form of each attribute of an indexed list.
pub fn held_at(table: impl Tables, form: Form) -> Form {
    let place = place_in(form);
    match table.part(place) {
        Part::One(form) => form,
        Part::Names(_) => Form::Hex,
        Part::Fields(_) => Form::Record(place),
        Part::Rows(..) | Part::Kinds(..) => Form::List(place),
        Part::Choices(_) => Form::Choice(place),
    }
}

pub fn fields_at(table: impl Tables, form: Form) -> &'static [Field<'static>] {
    match table.part(place_in(form)) {
        Part::Fields(fields) => fields,
        _ => &[],
    }
}

/// The form of a field of a record; bytes if it has none of this name.
pub fn form_of_field(table: impl Tables, form: Form, name: &str) -> Form {
    fields_at(table, form).iter().find(|field| field.name == name).map_or(Form::Hex, |field| field.form)
}

/// The choices of a form, if it is one of choices.
pub fn choices_at(table: impl Tables, form: Form) -> Option<&'static [Choice<'static>]> {
    match (form, table.part(place_in(form))) {
        (Form::Choice(_), Part::Choices(choices)) => Some(choices),
        (Form::Choice(_), _) => Some(&[]),
        _ => None,
    }
}

/// A number's form, as `codec.txt` has it.
pub fn number(number: Number) -> &'static str {
    match number {
        Number::U8 => "u8",
        Number::U16 => "u16",
        Number::U32 => "u32",
        Number::U64 => "u64",
        Number::I8 => "i8",
        Number::I16 => "i16",
        Number::I32 => "i32",
        Number::I64 => "i64",
        Number::U16Be => "u16_be",
        Number::U32Be => "u32_be",
        Number::U64Be => "u64_be",
    }
}

/// A form, as `codec.txt` has it; one that names a place with that place.
pub fn told(form: Form) -> String {
    match form {
        Form::Number(kind) => number(kind).to_string(),
        Form::Named(kind, place) => format!("{} named {place}", number(kind)),
        Form::Handle => "handle".to_string(),
        Form::Flag => "flag".to_string(),
        Form::Truth => "truth".to_string(),
        Form::Text => "text".to_string(),
        Form::Bare => "bare".to_string(),
        Form::Hex => "hex".to_string(),
        Form::Bytes(count) => format!("bytes{count}"),
        Form::Pad(count) => format!("pad{count}"),
        Form::Mac => "mac".to_string(),
        Form::Ipv4 => "ipv4".to_string(),
        Form::Ipv6 => "ipv6".to_string(),
        Form::Record(place) => format!("Record({place})"),
        Form::Array(place) => format!("Array({place})"),
        Form::Times(count, place) => format!("Times({count}, {place})"),
        Form::List(place) => format!("List({place})"),
        Form::InForce(place) => format!("InForce({place})"),
        Form::Own(place) => format!("Own({place})"),
        Form::Indexed(place) => format!("Indexed({place})"),
        Form::Choice(place) => format!("Choice({place})"),
    }
}
