//! Appending numbers.

use crate::user::prelude::*;

use crate::itoa::Buffer;
use crate::tc_texts::put_hex_number;

/// Appends a number in decimal. One digit, the usual case, is fast.
///
/// # Errors
///
/// A [`AllocError`].
#[inline(always)]
pub fn put_decimal(out: &mut Vec<u8>, n: u64) -> Result<(), AllocError> {
    if n < 10 {
        out.try_push(b'0' + n as u8)?;
        return Ok(());
    }
    put_long(out, n)
}

// Appends a number of any length in decimal.
#[inline(never)]
fn put_long(out: &mut Vec<u8>, n: u64) -> Result<(), AllocError> {
    let mut buffer = Buffer::new();
    out.try_extend(buffer.format(n).as_bytes())
}

/// Appends a 128-bit number in decimal.
#[inline(never)]
pub(crate) fn put_wide(out: &mut Vec<u8>, n: u128) -> Result<(), AllocError> {
    let mut buffer = Buffer::new();
    out.try_extend(buffer.format(n).as_bytes())
}

/// The last hex digit of a number, as a character of ASCII.
#[must_use]
pub fn hex_digit(n: u8) -> u8 {
    match n % 16 {
        digit @ 0..=9 => b'0' + digit,
        digit => b'a' + (digit - 10),
    }
}

/// Appends `0x` and a number in hex.
///
/// # Errors
///
/// A [`AllocError`].
pub fn put_hex(out: &mut Vec<u8>, n: u64) -> Result<(), AllocError> {
    out.try_extend(b"0x")?;
    put_hex_number(out, n)
}

/// Appends `0x` and a number in hex, with at least four digits.
pub(crate) fn put_long_hex(out: &mut Vec<u8>, n: u64) -> Result<(), AllocError> {
    if n >= 0x10000 {
        return put_hex(out, n);
    }
    out.try_extend(b"0x")?;
    out.try_extend(&[
        hex_digit((n / 0x1000) as u8),
        hex_digit((n / 0x100 % 0x10) as u8),
        hex_digit((n / 0x10 % 0x10) as u8),
        hex_digit((n % 0x10) as u8),
    ])
}
