//! The configuration of an object: what a change can't alter, and the messages of the requests that make it and that change another
//! one into it.

use crate::user::prelude::*;

use crate::nla_frames::u32_bytes;

/// A configuration.
#[derive(Clone, Copy)]
pub struct Config<'a> {
    /// How requests make it: `NEVER`, `MADE` or `CHANGED`.
    pub making: u8,
    /// The types of the options that stay as they are if a change lacks them. The cookie of an action is 0.
    pub kept: &'a [u8],
    /// The bytes that two objects share if the one is changed into the other.
    pub fixed: &'a [u8],
    /// The message of the request that changes another one into it. It is empty if that is `message`.
    pub change: &'a [u8],
    /// The message of the request that makes it, or the dump of an object that no request makes.
    pub message: &'a [u8],
}

/// No request makes it.
pub const NEVER: u8 = 0;

/// A request makes it, and none changes it.
pub const MADE: u8 = 1;

/// A request makes it, and one changes it.
pub const CHANGED: u8 = 2;

/// It is there, and is to be made again whatever is wanted.
const LOST: u8 = 3;

/// Makes a configuration one that no wanted one is, and that no change leads from.
pub(crate) fn lose(bytes: &mut [u8]) {
    if let Some(making) = bytes.first_mut() {
        *making = LOST;
    }
}

/// The message of the request that changes another object into one: that which makes it, if there is no other.
#[must_use]
pub fn changing<'a>(change: &'a [u8], message: &'a [u8]) -> &'a [u8] {
    if change.is_empty() { message } else { change }
}

/// The bytes of a configuration: what a kernel does, then each part after its length, and the message.
pub(crate) fn written(config: &Config<'_>) -> Result<Vec<u8>, AllocError> {
    let mut bytes = Vec::new();
    bytes.try_push(config.making)?;
    let bytes = with_part(bytes, config.kept)?;
    let bytes = with_part(bytes, config.fixed)?;
    let bytes = with_part(bytes, config.change)?;
    let mut bytes = bytes;
    bytes.try_extend(config.message)?;
    Ok(bytes)
}

// Bytes, and a part after its length. Fails of a part that is too long, too.
fn with_part(bytes: Vec<u8>, part: &[u8]) -> Result<Vec<u8>, AllocError> {
    match u32::try_from(part.len()) {
        Ok(len) => {
            let mut bytes = bytes;
            bytes.try_extend(&u32_bytes(len))?;
            bytes.try_extend(part)?;
            Ok(bytes)
        }
        Err(_) => Err(AllocError),
    }
}

/// The configuration that these are the bytes of.
#[must_use]
pub fn read(bytes: &[u8]) -> Config<'_> {
    let making = bytes.first().copied().unwrap_or(NEVER);
    let (_, rest) = bytes.split_at(usize::min(1, bytes.len()));
    let (kept, rest) = part_of(rest);
    let (fixed, rest) = part_of(rest);
    let (change, message) = part_of(rest);
    Config { making, kept, fixed, change, message }
}

/// The message of the request that makes an object with this configuration, or the dump of an object that no request makes.
#[must_use]
pub fn message_of(bytes: &[u8]) -> &[u8] {
    read(bytes).message
}

// The first part, and what is after it.
fn part_of(bytes: &[u8]) -> (&[u8], &[u8]) {
    match bytes {
        [a, b, c, d, rest @ ..] => {
            let len = u32::from_le_bytes([*a, *b, *c, *d]) as usize;
            rest.split_at(usize::min(len, rest.len()))
        }
        _ => (&[], &[]),
    }
}
