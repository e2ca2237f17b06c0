//! A row in parts.

use crate::user::prelude::*;

use crate::tests::data::input::{Form, Input};
use crate::user::Fail;

/// The results that the calls have to return for a message.
pub enum Expected {
    /// It fails with the fault of this name.
    Refused(String),

    /// It is read: whether it fits and is settled, whether its bytes are canonical, and what is emitted where it fits.
    Accepted { fits: bool, settled: bool, canonical: bool, emitted: Vec<u8> },
}

/// A message, and what the calls have to return for it.
pub struct Row {
    pub input: Input,
    pub expected: Expected,
}

/// The parts of a row.
///
/// # Errors
///
/// A [`Fail`].
pub fn row_of(row: &str) -> Result<Row, Fail> {
    let (message, expected) = match row.split_once(" = ") {
        Some(parts) => parts,
        None => return Err(Fail::from("a row has an =")),
    };
    let input = input_of(message)?;
    let expected = expected_of(&input, expected)?;
    Ok(Row { input, expected })
}

// The first word of a text, and what follows it.
fn cut<'a>(text: &'a str) -> (&'a str, &'a str) {
    text.split_once(' ').unwrap_or((text, ""))
}

// The message of a row: its form, and the words of its bytes.
fn input_of(message: &str) -> Result<Input, Fail> {
    let (form, words) = cut(message);
    let form = match form {
        "tc" => Form::Tc,
        "action" => Form::Action,
        _ => return Err(Fail::from("a row begins with its form")),
    };
    let bytes = spelled(form, words)?;
    Ok(Input { form, bytes })
}

// What is expected of a message.
fn expected_of(input: &Input, expected: &str) -> Result<Expected, AllocError> {
    let (_, others) = cut(expected);
    if others.is_empty() {
        return Ok(Expected::Refused(expected.try_to_string()?));
    }
    let (fits, settled, canonical, other) = marks_of(expected);
    let emitted = emitted_of(input, other)?;
    Ok(Expected::Accepted { fits, settled, canonical, emitted })
}

// Whether a message fits, is settled and is canonical, and what follows.
fn marks_of<'a>(text: &'a str) -> (bool, bool, bool, &'a str) {
    let (fits, text) = mark_of(text);
    let (settled, text) = mark_of(text);
    let (canonical, text) = mark_of(text);
    (fits, settled, canonical, text)
}

// Whether the first word is yes, and what follows.
fn mark_of<'a>(text: &'a str) -> (bool, &'a str) {
    let (word, text) = cut(text);
    (word == "yes", text)
}

// The bytes that are emitted: those of the message, or others.
fn emitted_of(input: &Input, other: &str) -> Result<Vec<u8>, AllocError> {
    if other.is_empty() { input.bytes.try_to_vec() } else { spelled(input.form, other) }
}

// The bytes that words stand for.
fn spelled(form: Form, words: &str) -> Result<Vec<u8>, AllocError> {
    let mut bytes = Vec::new();
    for word in words.split(' ') {
        put_digits(&mut bytes, digits_of(form, word))?;
    }
    Ok(bytes)
}

// Appends bytes that are written in hex; fails, as without memory, where they aren't.
fn put_digits(bytes: &mut Vec<u8>, digits: &str) -> Result<(), AllocError> {
    match crate::hex::decode(digits.as_bytes()) {
        Ok(part) => bytes.try_extend(&part),
        Err(_) => Err(AllocError),
    }
}

// The header of zeros or the attribute of a kind in hex, or the digits themselves.
fn digits_of<'a>(form: Form, word: &'a str) -> &'a str {
    match word {
        "zeros" => match form {
            Form::Tc => "0000000000000000000000000000000000000000",
            Form::Action => "00000000",
        },
        "fq_codel" => "0d00010066715f636f64656c00000000",
        "ingress" => "0c000100696e677265737300",
        "flower" => "0b000100666c6f7765720000",
        "u32" => "0800010075333200",
        "matchall" => "0d0001006d61746368616c6c00000000",
        _ => word,
    }
}
