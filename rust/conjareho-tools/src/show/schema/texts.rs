//! Appending texts to a vector, the description of each form, and the members of a part.

use crate::user::prelude::*;

use crate::forms_values::{Form, Number, Part};
use crate::show::units::{Unit, put_number};

/// The depth limit of explanations and examples.
pub const DEEPEST: u8 = 12;

/// The result of appending: fails if the vector can't grow.
pub type Done = Result<(), AllocError>;

pub fn put(out: &mut Vec<u8>, text: &str) -> Done {
    out.try_extend(text.as_bytes())
}

/// Appends a number between two texts.
pub fn put_counted(out: &mut Vec<u8>, head: &str, count: usize, tail: &str) -> Done {
    put(out, head)?;
    put_number(out, Unit::Plain, count as u64)?;
    put(out, tail)
}

/// Appends a text `count` times.
pub fn put_times(out: &mut Vec<u8>, text: &str, count: usize) -> Done {
    match count.checked_sub(1) {
        Some(others) => {
            put(out, text)?;
            put_times(out, text, others)
        }
        None => Ok(()),
    }
}

/// Appends a comma, except before the first element.
pub fn put_comma(out: &mut Vec<u8>, is_first: bool) -> Done {
    if is_first {
        return Ok(());
    }
    put(out, ",")
}

/// Appends a text between two others, or nothing if it is empty.
pub fn put_around(out: &mut Vec<u8>, head: &str, text: &str, tail: &str) -> Done {
    if text.is_empty() {
        return Ok(());
    }
    put(out, head)?;
    put(out, text)?;
    put(out, tail)
}

// Appends a byte of a JSON string. Names have no control characters; one would become a blank.
fn put_escaped(out: &mut Vec<u8>, byte: u8) -> Done {
    match byte {
        b'"' => put(out, "\\\""),
        b'\\' => put(out, "\\\\"),
        0..=0x1f => put(out, " "),
        _ => out.try_extend(&[byte]),
    }
}

fn put_escapes(out: &mut Vec<u8>, text: &[u8]) -> Done {
    if let Some((first, others)) = text.split_first() {
        put_escaped(out, *first)?;
        put_escapes(out, others)?;
    }
    Ok(())
}

/// Appends a text as a JSON string.
pub fn put_quoted(out: &mut Vec<u8>, text: &str) -> Done {
    put(out, "\"")?;
    put_escapes(out, text.as_bytes())?;
    put(out, "\"")
}

/// Appends a text as a JSON string, between two others.
pub fn put_between(out: &mut Vec<u8>, head: &str, text: &str, tail: &str) -> Done {
    put(out, head)?;
    put_quoted(out, text)?;
    put(out, tail)
}

// ---- forms

/// The description of a form: in words. For a form without others in it also an example in JSON, and its schema, or the
/// range of a number.
#[derive(Clone, Copy)]
pub struct Description {
    pub words: &'static str,
    pub sample: &'static str,
    pub schema: &'static str,
}

fn describe(words: &'static str, sample: &'static str, schema: &'static str) -> Description {
    Description { words, sample, schema }
}

#[must_use]
pub fn about_number(of: Number) -> Description {
    match of {
        Number::U8 => describe("u8", "1", "0,\"maximum\":255"),
        Number::U16 => describe("u16", "1", "0,\"maximum\":65535"),
        Number::U32 => describe("u32", "1", "0,\"maximum\":4294967295"),
        Number::U64 => describe("u64", "1", "0,\"maximum\":18446744073709551615"),
        Number::I8 => describe("i8", "1", "-128,\"maximum\":127"),
        Number::I16 => describe("i16", "1", "-32768,\"maximum\":32767"),
        Number::I32 => describe("i32", "1", "-2147483648,\"maximum\":2147483647"),
        Number::I64 => describe("i64", "1", "-9223372036854775808,\"maximum\":9223372036854775807"),
        Number::U16Be => describe("u16, big-endian", "1", "0,\"maximum\":65535"),
        Number::U32Be => describe("u32, big-endian", "1", "0,\"maximum\":4294967295"),
        Number::U64Be => describe("u64, big-endian", "1", "0,\"maximum\":18446744073709551615"),
    }
}

#[must_use]
pub fn about(form: Form) -> Description {
    match form {
        Form::Number(of) | Form::Named(of, _) => about_number(of),
        Form::Handle => describe("handle", "\"1:1\"", "{\"$ref\":\"#/$defs/handle\"}"),
        Form::Flag => describe("flag", "true", "{\"const\":true}"),
        Form::Truth => describe("false or true", "true", "{\"type\":\"boolean\"}"),
        Form::Text | Form::Bare => describe("text", "\"text\"", "{\"type\":\"string\"}"),
        Form::Mac => describe("MAC address", "\"02:00:00:00:00:01\"", "{\"$ref\":\"#/$defs/mac\"}"),
        Form::Ipv4 => describe("IPv4 address", "\"192.0.2.1\"", "{\"$ref\":\"#/$defs/ipv4\"}"),
        Form::Ipv6 => describe("IPv6 address", "\"2001:db8::1\"", "{\"$ref\":\"#/$defs/ipv6\"}"),
        Form::Record(_) => describe("record", "[]", ""),
        Form::Array(_) => describe("array", "[]", ""),
        Form::List(_) | Form::InForce(_) => describe("attributes", "[]", ""),
        Form::Own(_) => describe("attributes by their kind", "[]", ""),
        Form::Indexed(_) => describe("list", "[]", ""),
        Form::Choice(_) => describe("one of", "[]", ""),
        _ => describe("hex", "\"00ff\"", "{\"$ref\":\"#/$defs/hex\"}"),
    }
}

/// Appends a form in a few words.
pub fn put_form(out: &mut Vec<u8>, form: Form) -> Done {
    match form {
        Form::Bytes(count) => put_counted(out, "hex of ", count, " bytes"),
        Form::Pad(count) => put_counted(out, "padding of ", count, " bytes"),
        Form::Times(count, _) => put_counted(out, "array of ", count, ""),
        _ => put(out, about(form).words),
    }
}

/// True for padding.
#[must_use]
pub fn is_pad(form: Form) -> bool {
    matches!(form, Form::Pad(_))
}

// ---- members

/// A field, a row, a choice, or the name of a number.
#[derive(Clone, Copy)]
pub struct Member {
    pub name: &'static str,
    pub number: Option<u64>,
    pub form: Form,
}

fn member_of(name: &'static str, number: Option<u64>, form: Form) -> Member {
    Member { name, number, form }
}

/// The first member of a part, and the rest of the part.
#[must_use]
pub fn first_member(part: Part<'static>) -> Option<(Member, Part<'static>)> {
    match part {
        Part::Fields(fields) => {
            let (it, others) = fields.split_first()?;
            Some((member_of(it.name, None, it.form), Part::Fields(others)))
        }
        Part::Rows(layer, rows) => {
            let (it, others) = rows.split_first()?;
            Some((member_of(it.name, None, it.form), Part::Rows(layer, others)))
        }
        Part::Choices(choices) => {
            let (it, others) = choices.split_first()?;
            Some((member_of(it.name, None, it.form), Part::Choices(others)))
        }
        Part::Names(names) => {
            let (it, others) = names.split_first()?;
            Some((member_of(it.name, Some(it.number), Form::Hex), Part::Names(others)))
        }
        _ => None,
    }
}

/// The layer of a part.
#[must_use]
pub fn layer_of(part: Part<'static>) -> &'static str {
    if let Part::Rows(layer, _) = part {
        return layer;
    }
    ""
}
