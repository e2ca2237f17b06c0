//! Numbers with units.

use crate::user::prelude::*;

use crate::show::units::numerals::{put_decimal, put_hex, put_long_hex, put_wide};
use crate::show::units::times::{put_clock, put_ticks, put_time_in};
use crate::show::units::unit::Unit;
use crate::show::units::values::put_u32_handle;

/// Appends a number in its unit: the exact number, then a readable form in parentheses.
///
/// # Errors
///
/// A [`AllocError`].
pub fn put_number(out: &mut Vec<u8>, unit: Unit, n: u64) -> Result<(), AllocError> {
    match unit {
        Unit::Plain => put_decimal(out, n),
        Unit::Hex => put_hex(out, n),
        Unit::LongHex => put_long_hex(out, n),
        Unit::NetworkHex => put_hex(out, swapped(n)),
        Unit::Bytes => put_counted(out, n, b"B"),
        Unit::Packets => put_counted(out, n, b"p"),
        Unit::BytesPerSecond => put_rate(out, n),
        Unit::PacketsPerSecond => put_counted(out, n, b" p/s"),
        Unit::KilobitsPerSecond => put_counted(out, n, b" kbit/s"),
        Unit::Nanoseconds => put_time_in(out, b"", 1, b"ns", n),
        Unit::Microseconds => put_time_in(out, b"", 1000, b"us", n),
        Unit::Milliseconds => put_time_in(out, b"", 1_000_000, b"ms", n),
        Unit::Seconds => put_counted(out, n, b"s"),
        Unit::Ticks => put_ticks(out, b"", n),
        Unit::ClockTicks => put_clock(out, n),
        Unit::Percent => put_counted(out, n, b"%"),
        Unit::Probability => put_probability(out, n),
        Unit::Power => put_power(out, n),
        Unit::U32Handle => put_u32_handle(out, n),
    }
}

/// Appends a signed number in its unit. Negative rates, masks and keys without one.
///
/// # Errors
///
/// A [`AllocError`].
pub fn put_signed(out: &mut Vec<u8>, unit: Unit, n: i64) -> Result<(), AllocError> {
    let amount = n.unsigned_abs();
    if n < 0 { put_negative(out, unit, amount) } else { put_number(out, unit, amount) }
}

// Appends a negative number in its unit, given its absolute value.
fn put_negative(out: &mut Vec<u8>, unit: Unit, n: u64) -> Result<(), AllocError> {
    match unit {
        Unit::Bytes => put_minus(out, n, b"B"),
        Unit::Packets => put_minus(out, n, b"p"),
        Unit::Nanoseconds => put_time_in(out, b"-", 1, b"ns", n),
        Unit::Microseconds => put_time_in(out, b"-", 1000, b"us", n),
        Unit::Milliseconds => put_time_in(out, b"-", 1_000_000, b"ms", n),
        Unit::Seconds => put_minus(out, n, b"s"),
        Unit::Ticks => put_ticks(out, b"-", n),
        _ => put_minus(out, n, b""),
    }
}

// Appends a minus sign, an absolute value and the name of the unit.
fn put_minus(out: &mut Vec<u8>, n: u64, name: &[u8]) -> Result<(), AllocError> {
    out.try_extend(b"-")?;
    put_counted(out, n, name)
}

// A 32-bit number with its bytes swapped.
fn swapped(n: u64) -> u64 {
    n % 0x100 * 0x100_0000 + n / 0x100 % 0x100 * 0x1_0000 + n / 0x1_0000 % 0x100 * 0x100 + n / 0x100_0000 % 0x100
}

// Appends a number and the name of its unit, usually one letter.
#[inline(always)]
fn put_counted(out: &mut Vec<u8>, n: u64, name: &[u8]) -> Result<(), AllocError> {
    put_decimal(out, n)?;
    match name {
        [letter] => {
            out.try_push(*letter)?;
            Ok(())
        }
        _ => out.try_extend(name),
    }
}

// True if `tc` writes the number in this unit, not in the next larger one.
fn stays(n: u128) -> bool {
    n < 1000 || (n % 1000 > 0 && n < 1_000_000)
}

// Appends a number and the name of its unit.
fn put_scaled(out: &mut Vec<u8>, n: u128, name: &[u8]) -> Result<(), AllocError> {
    put_wide(out, n)?;
    out.try_extend(name)
}

// Appends a rate in bytes per second as `tc` writes it, in bits.
#[inline(never)]
fn put_bits(out: &mut Vec<u8>, rate: u64) -> Result<(), AllocError> {
    let bits = rate as u128 * 8;
    if stays(bits) {
        return put_scaled(out, bits, b"bit");
    }
    let kilo = bits / 1000;
    if stays(kilo) {
        return put_scaled(out, kilo, b"Kbit");
    }
    let mega = kilo / 1000;
    if stays(mega) {
        return put_scaled(out, mega, b"Mbit");
    }
    let giga = mega / 1000;
    if stays(giga) {
        return put_scaled(out, giga, b"Gbit");
    }
    put_scaled(out, giga / 1000, b"Tbit")
}

fn put_rate(out: &mut Vec<u8>, n: u64) -> Result<(), AllocError> {
    put_decimal(out, n)?;
    out.try_extend(b" B/s (")?;
    put_bits(out, n)?;
    out.try_extend(b")")
}

// Appends three decimals without trailing zeros.
fn put_decimals(out: &mut Vec<u8>, n: u64) -> Result<(), AllocError> {
    if n == 0 {
        return Ok(());
    }
    out.try_extend(b".")?;
    put_decimal(out, n / 100)?;
    if n % 100 == 0 {
        return Ok(());
    }
    put_decimal(out, n / 10 % 10)?;
    if n % 10 == 0 {
        return Ok(());
    }
    put_decimal(out, n % 10)
}

fn put_percent(out: &mut Vec<u8>, thousandths: u64) -> Result<(), AllocError> {
    put_decimal(out, thousandths / 1000)?;
    put_decimals(out, thousandths % 1000)?;
    out.try_extend(b"%")
}

// A probability in thousandths of a percent, rounded.
fn thousandths(n: u64) -> u64 {
    ((n as u128 * 100_000 + 0x8000_0000) / 0x1_0000_0000) as u64
}

fn put_probability(out: &mut Vec<u8>, n: u64) -> Result<(), AllocError> {
    put_decimal(out, n)?;
    out.try_extend(b" (")?;
    put_percent(out, thousandths(n))?;
    out.try_extend(b")")
}

fn put_power(out: &mut Vec<u8>, n: u64) -> Result<(), AllocError> {
    put_decimal(out, n)?;
    if n < 64 {
        out.try_extend(b" (")?;
        put_decimal(out, 1u64 << n)?;
        out.try_extend(b")")?;
    }
    Ok(())
}
