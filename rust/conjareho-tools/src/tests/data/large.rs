//! Large messages: a list of many attributes, a selector of as many keys as it can count, a long text, and a warning of many NULs.

use crate::user::prelude::*;

use crate::tests::data::input::{Form, Input};
use crate::tests::data::row::{Expected, Row};

/// The number of attributes in the list.
pub const MANY_ATTRIBUTES: u32 = 4096;

/// The number of keys in the selector, also its `nkeys`.
pub const MANY_KEYS: u8 = 255;

/// The number of letters in the text.
pub const MANY_LETTERS: usize = 60_000;

/// The number of NULs at the end of the warning.
pub const MANY_NULS: usize = 300;

// The message of these attributes, which is canonical.
fn canonical(frames: &[&[u8]]) -> Result<Row, AllocError> {
    let input = Input::of_frames(Form::Tc, frames)?;
    let expected = emitted_as(true, input.bytes.try_to_vec()?);
    Ok(Row { input, expected })
}

// What is expected of a message that is emitted as these bytes.
fn emitted_as(is_canonical: bool, emitted: Vec<u8>) -> Expected {
    Expected::Accepted { fits: true, settled: is_canonical, canonical: is_canonical, emitted }
}

// A list of TCA_CHAIN attributes with the numbers from 0 on.
fn many_attributes() -> Result<Row, AllocError> {
    let mut frames = Vec::new();
    for chain in 0..MANY_ATTRIBUTES {
        let [a, b, c, d] = chain.to_le_bytes();
        frames.try_extend(&[8, 0, 11, 0, a, b, c, d])?;
    }
    canonical(&[&frames])
}

// A selector, whose keys match the numbers from 0 on at offset 16.
fn selector() -> Result<Vec<u8>, AllocError> {
    let fields = [1, 0, MANY_KEYS, 0, 0, 0, 0, 0, 0, 0, 0, 0, 0, 0, 0, 0];
    let mut selector = fields.try_to_vec()?;
    for key in 0..MANY_KEYS {
        let fields = [0xff, 0xff, 0xff, 0xff, 0, 0, 0, key, 16, 0, 0, 0, 0, 0, 0, 0];
        selector.try_extend(&fields)?;
    }
    Ok(selector)
}

// The kind u32, and its options: the selector, in two attributes of 4104 and 4100 bytes.
fn many_keys() -> Result<Row, AllocError> {
    let selector = selector()?;
    let fronts = [8, 16, 2, 0, 4, 16, 5, 0];
    canonical(&[b"\x08\0\x01\0u32\0", &fronts, &selector])
}

// A kind of many letters, which is none of the six: an attribute of 60005 bytes, and its padding.
fn many_letters() -> Result<Row, AllocError> {
    let text = fallible::filled(b'a', MANY_LETTERS)?;
    canonical(&[&[0x65, 0xea, 1, 0], &text, &[0; 4]])
}

// The action message with the warning, of one letter and the NULs in 305 bytes and their padding, which loses one NUL when it is written.
fn warning() -> Result<Row, AllocError> {
    let read = [&[0x31, 1, 5, 0, b'a'], [0; MANY_NULS + 3].as_slice()];
    let written = [&[0x30, 1, 5, 0, b'a'], [0; MANY_NULS - 1].as_slice()];
    let input = Input::of_frames(Form::Action, &read)?;
    let emitted = Input::of_frames(Form::Action, &written)?.bytes;
    let expected = emitted_as(false, emitted);
    Ok(Row { input, expected })
}

// The large message of this number.
fn large_message(place: u8) -> Result<Row, AllocError> {
    match place {
        0 => many_attributes(),
        1 => many_keys(),
        2 => many_letters(),
        _ => warning(),
    }
}

/// The four large messages: the list, the selector, the text, and the warning.
///
/// # Errors
///
/// A [`AllocError`].
pub fn large_messages() -> Result<Vec<Row>, AllocError> {
    let mut rows = Vec::new();
    for place in 0..4 {
        rows.try_push(large_message(place)?)?;
    }
    Ok(rows)
}
