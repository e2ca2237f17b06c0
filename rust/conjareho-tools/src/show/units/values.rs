//! Verdicts and the handles of u32 filters.

use crate::user::prelude::*;

use crate::show::units::numerals::put_decimal;
use crate::tc_texts::put_hex_number;

/// The name of a verdict (`TC_ACT_*`), as `tc` writes it.
#[must_use]
pub fn verdict_name(n: u32) -> Option<&'static str> {
    match n {
        0xffff_ffff => Some("continue"),
        0 => Some("pass"),
        1 => Some("reclassify"),
        2 => Some("drop"),
        3 => Some("pipe"),
        4 => Some("stolen"),
        5 => Some("queued"),
        6 => Some("repeat"),
        7 => Some("redirect"),
        8 => Some("trap"),
        _ => None,
    }
}

/// Appends a verdict by name, such as `pipe` or `goto chain 42`. A number if it has no name.
///
/// # Errors
///
/// A [`AllocError`].
pub fn put_verdict(out: &mut Vec<u8>, n: u32) -> Result<(), AllocError> {
    if n / 0x1000_0000 == 1 {
        out.try_extend(b"jump ")?;
        return put_decimal(out, (n % 0x1000_0000) as u64);
    }
    if n / 0x1000_0000 == 2 {
        out.try_extend(b"goto chain ")?;
        return put_decimal(out, (n % 0x1000_0000) as u64);
    }
    match verdict_name(n) {
        Some(name) => out.try_extend(name.as_bytes()),
        None => put_decimal(out, n as u64),
    }
}

/// Appends the handle of a u32 filter as `tc` writes it: `800::800`.
///
/// # Errors
///
/// A [`AllocError`].
pub fn put_u32_handle(out: &mut Vec<u8>, n: u64) -> Result<(), AllocError> {
    if n == 0 {
        return out.try_extend(b"none");
    }
    put_table(out, n / 0x10_0000)?;
    put_bucket(out, n / 0x1000 % 0x100)?;
    put_node(out, n % 0x1000)
}

fn put_table(out: &mut Vec<u8>, n: u64) -> Result<(), AllocError> {
    if n == 0 {
        return Ok(());
    }
    put_hex_number(out, n)?;
    out.try_extend(b":")
}

fn put_bucket(out: &mut Vec<u8>, n: u64) -> Result<(), AllocError> {
    if n == 0 {
        return Ok(());
    }
    put_hex_number(out, n)
}

fn put_node(out: &mut Vec<u8>, n: u64) -> Result<(), AllocError> {
    if n == 0 {
        return Ok(());
    }
    out.try_extend(b":")?;
    put_hex_number(out, n)
}
