//! What is malformed in a message, at the end of its lines, and places in a message.

use crate::user::prelude::*;

use crate::nla_frames::DecodeError;
use crate::show::brief::put_word;
use crate::show::json::Message;
use crate::show::units::put_decimal;
use crate::tc_faults::Fault;

/// The text that the lines of a message with this fault end with; empty without one.
pub(crate) fn end_of(found: &Message<'_>, fault: &Option<Fault>) -> Result<Vec<u8>, AllocError> {
    match fault {
        Some(fault) => malformed(found, fault),
        None => Ok(Vec::new()),
    }
}

// What is malformed, and where.
fn malformed(found: &Message<'_>, fault: &Fault) -> Result<Vec<u8>, AllocError> {
    let path = found.path_to(&fault.error, fault.offset)?;
    match path {
        Some(path) => malformed_at(&fault.error, Some(path.names.as_bytes()), fault.offset as u64),
        None => malformed_at(&fault.error, None, fault.offset as u64),
    }
}

fn malformed_at(error: &DecodeError, names: Option<&[u8]>, offset: u64) -> Result<Vec<u8>, AllocError> {
    let mut text = fallible::with_capacity(64)?;
    put_word(&mut text, b"malformed:")?;
    put_error(&mut text, error)?;
    put_place(&mut text, names, offset)?;
    Ok(text)
}

// Appends a number after a blank.
fn put_number(out: &mut Vec<u8>, n: u64) -> Result<(), AllocError> {
    let mut text = Vec::new();
    put_decimal(&mut text, n)?;
    put_word(out, &text)
}

/// Appends a place in a message, with the names of the attributes on the way to it.
pub(crate) fn put_place(out: &mut Vec<u8>, names: Option<&[u8]>, offset: u64) -> Result<(), AllocError> {
    put_word(out, b"at")?;
    match names {
        Some(names) => {
            put_word(out, names)?;
            put_word(out, b"(byte")?;
            put_closed(out, offset)
        }
        None => {
            put_word(out, b"byte")?;
            put_number(out, offset)
        }
    }
}

// Appends a number and a bracket after a blank.
fn put_closed(out: &mut Vec<u8>, n: u64) -> Result<(), AllocError> {
    let mut text = Vec::new();
    put_decimal(&mut text, n)?;
    text.try_extend(b")")?;
    put_word(out, &text)
}

// Appends what is wrong.
fn put_error(out: &mut Vec<u8>, error: &DecodeError) -> Result<(), AllocError> {
    match error {
        DecodeError::BufferTooSmall { len, needed } | DecodeError::SelectorShort { len, needed } => {
            put_lengths(out, *len, *needed)
        }
        DecodeError::FrameHeaderShort { left } => put_lengths(out, *left, 4),
        DecodeError::FrameTooLong { length, left } => put_lengths(out, *left, *length),
        DecodeError::FrameTooShort { length } => put_lengths(out, *length, 4),
        DecodeError::WrongLength { expected, got } => put_lengths(out, *got, *expected),
        DecodeError::XstatsShort { len } => put_statistics(out, *len),
        DecodeError::NotUtf8 => put_two(out, b"not", b"UTF-8,"),
        DecodeError::MissingKind => put_two(out, b"no", b"kind,"),
        DecodeError::DuplicateKind => put_two(out, b"two", b"kinds,"),
        DecodeError::OutOfMemory => put_two(out, b"too", b"long,"),
    }
}

fn put_two(out: &mut Vec<u8>, first: &[u8], second: &[u8]) -> Result<(), AllocError> {
    put_word(out, first)?;
    put_word(out, second)
}

fn put_statistics(out: &mut Vec<u8>, len: usize) -> Result<(), AllocError> {
    put_number(out, len as u64)?;
    put_word(out, b"bytes")?;
    put_two(out, b"of", b"statistics,")
}

fn put_lengths(out: &mut Vec<u8>, len: usize, expected: usize) -> Result<(), AllocError> {
    put_number(out, len as u64)?;
    put_word(out, bytes_word(len))?;
    put_number(out, expected as u64)?;
    put_word(out, b"expected,")
}

fn bytes_word(len: usize) -> &'static [u8] {
    if len == 1 {
        return b"byte,";
    }
    b"bytes,"
}
