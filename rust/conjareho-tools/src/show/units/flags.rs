//! Flag words.

use crate::user::prelude::*;

use crate::show::units::names::Name;
use crate::show::units::numerals::put_hex;

// True if a bit is set.
fn is_set(bit: u64, n: u64) -> bool {
    bit > 0 && n / bit % 2 == 1
}

// True if one of the bits is set.
fn any_set(bits: &[Name<'_>], n: u64) -> bool {
    match bits.split_first() {
        Some((bit, others)) => is_set(bit.number, n) || any_set(others, n),
        None => false,
    }
}

// Appends the names of the set bits, then the unnamed bits in hex, each after a blank.
fn put_set(out: &mut Vec<u8>, bits: &[Name<'_>], n: u64) -> Result<(), AllocError> {
    let (bit, others) = match bits.split_first() {
        Some(parts) => parts,
        None => return put_rest(out, n),
    };
    if !is_set(bit.number, n) {
        return put_set(out, others, n);
    }
    out.try_extend(b" ")?;
    out.try_extend(bit.name.as_bytes())?;
    put_set(out, others, n - bit.number)
}

// Appends the unnamed bits in hex, after a blank.
fn put_rest(out: &mut Vec<u8>, n: u64) -> Result<(), AllocError> {
    if n == 0 {
        return Ok(());
    }
    out.try_extend(b" ")?;
    put_hex(out, n)
}

/// Appends a flag word after a blank: the names of its bits and its number in parentheses, or only the number if no set
/// bit has a name.
///
/// # Errors
///
/// A [`AllocError`].
pub fn put_flags(out: &mut Vec<u8>, bits: &[Name<'_>], n: u64) -> Result<(), AllocError> {
    if !any_set(bits, n) {
        out.try_extend(b" ")?;
        return put_hex(out, n);
    }
    put_set(out, bits, n)?;
    out.try_extend(b" (")?;
    put_hex(out, n)?;
    out.try_extend(b")")
}
