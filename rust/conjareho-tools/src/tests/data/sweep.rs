//! Attributes of all types and many lengths, and the messages that may have them.

use crate::user::prelude::*;

use crate::tests::data::input::{Form, Input};

/// The last type that is swept over, from 0 on: after all known ones.
pub const LAST_TYPE: u16 = 110;

/// The lengths of swept attributes.
pub const LENGTHS: [usize; 10] = [0, 1, 2, 4, 6, 8, 16, 24, 36, 40];

/// The kinds of a message whose options are known.
pub const KINDS: [&str; 6] = ["fq_codel", "ingress", "flower", "u32", "matchall", "bpf"];

/// The kinds of an action whose options are known.
pub const ACTION_KINDS: [&str; 3] = ["mirred", "nat", "tunnel_key"];

/// An attribute of a type with so many bytes, all 1.
///
/// # Errors
///
/// A [`AllocError`].
pub fn swept(word: u16, length: usize) -> Result<Vec<u8>, AllocError> {
    frame(word, &fallible::filled(1u8, length)?)
}

// The attributes of `KINDS` and of `ACTION_KINDS`, whose texts end in a NUL.
static KIND_FRAMES: [&[u8]; 9] = [
    b"\x0d\0\x01\0fq_codel\0\0\0\0",
    b"\x0c\0\x01\0ingress\0",
    b"\x0b\0\x01\0flower\0\0",
    b"\x08\0\x01\0u32\0",
    b"\x0d\0\x01\0matchall\0\0\0\0",
    b"\x08\0\x01\0bpf\0",
    b"\x0b\0\x01\0mirred\0\0",
    b"\x08\0\x01\0nat\0",
    b"\x0f\0\x01\0tunnel_key\0\0",
];

// The message in which an attribute is the one option of a kind.
fn as_option(kind: &[u8], swept: &[u8]) -> Result<Input, AllocError> {
    let options = frame(2, swept)?;
    Input::of_frames(Form::Tc, &[kind, &options])
}

// What begins an attribute of type 1 with so many bytes after it.
fn front(length: usize) -> [u8; 4] {
    let length = u16::try_from(length.saturating_add(4)).unwrap_or(u16::MAX);
    let [low, high] = length.to_le_bytes();
    [low, high, 1, 0]
}

// The message in which an attribute is the one option of an action of a kind.
fn as_action_option(kind: &[u8], swept: &[u8]) -> Result<Input, AllocError> {
    let options = frame(0x8002, swept)?;
    let length = kind.len().saturating_add(options.len());
    let (actions, action) = (front(length.saturating_add(4)), front(length));
    Input::of_frames(Form::Action, &[&actions, &action, kind, &options])
}

// The message around an attribute, of this number: alone in each form, then the one option of each known kind.
fn placed(place: usize, swept: &[u8]) -> Result<Input, AllocError> {
    match place {
        0 => Input::of_frames(Form::Tc, &[swept]),
        2..8 => as_option(KIND_FRAMES[place - 2], swept),
        8..11 => as_action_option(KIND_FRAMES[place - 2], swept),
        _ => Input::of_frames(Form::Action, &[swept]),
    }
}

// The message of this number of all: around each attribute eleven, of each type ten lengths.
fn around(place: usize) -> Result<Input, AllocError> {
    let swept = swept(u16::try_from(place / 110).expect("required place < 12210"), LENGTHS[place / 11 % 10])?;
    placed(place % 11, &swept)
}

/// Messages with one attribute, of each type and each length, also as the only option of each known kind.
///
/// # Errors
///
/// A [`AllocError`].
pub fn all_around() -> Result<Vec<Input>, AllocError> {
    let mut inputs = Vec::new();
    for place in 0..12210 {
        inputs.try_push(around(place)?)?;
    }
    Ok(inputs)
}

// An attribute, padded in full.
fn frame(word: u16, value: &[u8]) -> Result<Vec<u8>, AllocError> {
    let length = u16::try_from(value.len().saturating_add(4)).unwrap_or(u16::MAX);
    let mut bytes = Vec::new();
    bytes.try_extend(&length.to_le_bytes())?;
    bytes.try_extend(&word.to_le_bytes())?;
    bytes.try_extend(value)?;
    bytes.try_extend(&[0; 3][..(4 - value.len() % 4) % 4])?;
    Ok(bytes)
}
