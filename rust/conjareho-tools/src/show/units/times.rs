//! Durations.

use crate::user::prelude::*;

use crate::show::units::numerals::{put_decimal, put_wide};

/// Appends nanoseconds in the longest of s, ms, us and ns that is exact.
#[inline(never)]
pub(crate) fn put_time(out: &mut Vec<u8>, ns: u128) -> Result<(), AllocError> {
    if ns % 1_000_000_000 == 0 {
        put_wide(out, ns / 1_000_000_000)?;
        return out.try_extend(b"s");
    }
    if ns % 1_000_000 == 0 {
        put_wide(out, ns / 1_000_000)?;
        return out.try_extend(b"ms");
    }
    if ns % 1_000 == 0 {
        put_wide(out, ns / 1_000)?;
        return out.try_extend(b"us");
    }
    put_wide(out, ns)?;
    out.try_extend(b"ns")
}

/// Appends a number of units with this name, then the time in a longer unit if that is exact. Both with the sign.
pub(crate) fn put_time_in(out: &mut Vec<u8>, sign: &[u8], each: u32, name: &[u8], n: u64) -> Result<(), AllocError> {
    out.try_extend(sign)?;
    put_decimal(out, n)?;
    out.try_extend(name)?;
    if n > 0 && n % 1000 == 0 {
        out.try_extend(b" (")?;
        out.try_extend(sign)?;
        put_time(out, n as u128 * each as u128)?;
        out.try_extend(b")")?;
    }
    Ok(())
}

/// Appends ticks of the packet scheduler and their duration, both with the sign.
pub(crate) fn put_ticks(out: &mut Vec<u8>, sign: &[u8], n: u64) -> Result<(), AllocError> {
    out.try_extend(sign)?;
    put_decimal(out, n)?;
    out.try_extend(b" ticks (")?;
    out.try_extend(sign)?;
    put_time(out, n as u128 * 64)?;
    out.try_extend(b")")
}

/// Appends clock ticks (`USER_HZ`) and their duration.
pub(crate) fn put_clock(out: &mut Vec<u8>, n: u64) -> Result<(), AllocError> {
    put_decimal(out, n)?;
    out.try_extend(b" clock_t (")?;
    put_time(out, n as u128 * 10_000_000)?;
    out.try_extend(b")")
}
