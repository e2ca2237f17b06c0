//! Words after one another, one blank between.

use crate::user::prelude::*;

use crate::show::units::hex_digit;

// True for a byte that a word has unchanged.
fn is_bare(b: u8) -> bool {
    0x21 <= b && b <= 0x7e && b != 34 && b != 92
}

/// Appends a byte of a word.
///
/// # Errors
///
/// A [`AllocError`].
pub fn put_byte(out: &mut Vec<u8>, b: u8) -> Result<(), AllocError> {
    if is_bare(b) {
        return out.try_extend(&[b]);
    }
    out.try_extend(&[92, 120, hex_digit(b / 16 % 16), hex_digit(b % 16)])
}

fn are_bare(raw: &[u8]) -> bool {
    let mut left = raw;
    'each: while let [b, rest @ ..] = left {
        if !is_bare(*b) {
            return false;
        }
        left = rest;
    }
    true
}

// Appends the bytes of a word, one by one.
fn put_each(out: &mut Vec<u8>, raw: &[u8]) -> Result<(), AllocError> {
    for b in raw {
        put_byte(out, *b)?;
    }
    Ok(())
}

// Appends the bytes of a word.
fn put_bytes(out: &mut Vec<u8>, raw: &[u8]) -> Result<(), AllocError> {
    if are_bare(raw) {
        return out.try_extend(raw);
    }
    put_each(out, raw)
}

/// Appends a word after a blank.
///
/// # Errors
///
/// A [`AllocError`].
pub fn put_word(out: &mut Vec<u8>, raw: &[u8]) -> Result<(), AllocError> {
    out.try_extend(b" ")?;
    put_first(out, raw)
}

/// Appends the first word of a line.
///
/// # Errors
///
/// A [`AllocError`].
pub fn put_first(out: &mut Vec<u8>, raw: &[u8]) -> Result<(), AllocError> {
    if raw.is_empty() {
        return out.try_extend(b"\"\"");
    }
    put_bytes(out, raw)
}
