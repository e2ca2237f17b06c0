//! Numbers in a line: exact, in the largest unit that leaves at most three decimals.

use crate::user::prelude::*;

use crate::itoa::Buffer;
use crate::show::units::{Unit, put_decimal, put_number as put_exact};

// Appends a number in decimal.
pub(crate) fn put_wide(out: &mut Vec<u8>, n: u128) -> Result<(), AllocError> {
    if n <= 0xffff_ffff_ffff_ffff {
        return put_decimal(out, n as u64);
    }
    let mut buffer = Buffer::new();
    out.try_extend(buffer.format(n).as_bytes())
}

// Appends three decimals without trailing zeros.
fn put_decimals(out: &mut Vec<u8>, n: u128) -> Result<(), AllocError> {
    if n == 0 {
        return Ok(());
    }
    out.try_extend(b".")?;
    put_wide(out, n / 100)?;
    if n % 100 == 0 {
        return Ok(());
    }
    put_wide(out, n / 10 % 10)?;
    if n % 10 == 0 {
        return Ok(());
    }
    put_wide(out, n % 10)
}

// Appends thousandths of a unit, with the unit's name.
fn put_thousandths(out: &mut Vec<u8>, n: u128, unit: &[u8]) -> Result<(), AllocError> {
    put_wide(out, n / 1000)?;
    put_decimals(out, n % 1000)?;
    out.try_extend(unit)
}

// Appends a number and the name of its unit.
fn put_counted(out: &mut Vec<u8>, n: u128, unit: &[u8]) -> Result<(), AllocError> {
    put_wide(out, n)?;
    out.try_extend(unit)
}

/// Appends bits per second.
pub(crate) fn put_bits(out: &mut Vec<u8>, n: u128) -> Result<(), AllocError> {
    if 1_000_000_000 <= n && n % 1_000_000 == 0 {
        return put_thousandths(out, n / 1_000_000, b"Gbit");
    }
    if 1_000_000 <= n && n % 1000 == 0 {
        return put_thousandths(out, n / 1000, b"Mbit");
    }
    if 1000 <= n {
        return put_thousandths(out, n, b"kbit");
    }
    put_counted(out, n, b"bit")
}

// Appends bytes.
pub(crate) fn put_size(out: &mut Vec<u8>, n: u128) -> Result<(), AllocError> {
    if n == 0 {
        return out.try_extend(b"0B");
    }
    if n % 1_048_576 == 0 {
        return put_counted(out, n / 1_048_576, b"MiB");
    }
    if n % 1024 == 0 {
        return put_counted(out, n / 1024, b"KiB");
    }
    put_counted(out, n, b"B")
}

// Appends nanoseconds.
fn put_time(out: &mut Vec<u8>, n: u128) -> Result<(), AllocError> {
    if n == 0 {
        return out.try_extend(b"0s");
    }
    if 1_000_000_000 <= n && n % 1_000_000 == 0 {
        return put_thousandths(out, n / 1_000_000, b"s");
    }
    if 1_000_000 <= n && n % 1000 == 0 {
        return put_thousandths(out, n / 1000, b"ms");
    }
    if 1000 <= n {
        return put_thousandths(out, n, b"us");
    }
    put_counted(out, n, b"ns")
}

// A share in thousandths of a percent.
fn thousandths_of(n: u64) -> u128 {
    (n as u128 * 200_000 + 0xffff_ffff) / 0x1_ffff_fffe
}

// The share of thousandths of a percent, to the nearest number. A half goes to the even one, as in `tc`.
fn share_of(p: u128) -> u128 {
    let (number, rest) = (p * 0xffff_ffff / 100_000, p * 0xffff_ffff % 100_000);
    let rounds_up = rest > 50_000 || rest == 50_000 && number % 2 == 1;
    number + u128::from(rounds_up)
}

// Appends a share of 2^32 - 1 in percent; the number if three decimals don't determine it.
fn put_share(out: &mut Vec<u8>, n: u64) -> Result<(), AllocError> {
    let p = thousandths_of(n);
    if share_of(p) == n as u128 {
        return put_thousandths(out, p, b"%");
    }
    put_wide(out, n as u128)
}

// Appends a power of two, given its exponent.
fn put_power(out: &mut Vec<u8>, n: u64) -> Result<(), AllocError> {
    out.try_extend(b"2^")?;
    put_wide(out, n as u128)
}

/// Appends a number in its unit.
///
/// # Errors
///
/// A [`AllocError`].
pub fn put_number(out: &mut Vec<u8>, unit: Unit, n: u64) -> Result<(), AllocError> {
    let wide = n as u128;
    match unit {
        Unit::Bytes => put_size(out, wide),
        Unit::BytesPerSecond => put_bits(out, wide * 8),
        Unit::PacketsPerSecond => put_counted(out, wide, b"p/s"),
        Unit::KilobitsPerSecond => put_bits(out, wide * 1000),
        Unit::Nanoseconds => put_time(out, wide),
        Unit::Microseconds => put_time(out, wide * 1000),
        Unit::Milliseconds => put_time(out, wide * 1_000_000),
        Unit::Seconds => put_time(out, wide * 1_000_000_000),
        Unit::Ticks => put_time(out, wide * 64),
        Unit::ClockTicks => put_time(out, wide * 10_000_000),
        Unit::Probability => put_share(out, n),
        Unit::Power => put_power(out, n),
        _ => put_exact(out, unit, n),
    }
}

/// Appends a signed number in its unit.
pub(crate) fn put_signed(out: &mut Vec<u8>, unit: Unit, n: i64) -> Result<(), AllocError> {
    if n < 0 {
        out.try_extend(b"-")?;
    }
    put_number(out, unit, n.unsigned_abs())
}

/// Appends the size of a burst, given its rate in bytes per second and its time in ticks.
pub(crate) fn put_burst(out: &mut Vec<u8>, rate: u64, ticks: u64) -> Result<(), AllocError> {
    if rate == 0 || 0x1_0000_0000 <= ticks {
        return put_time(out, ticks as u128 * 64);
    }
    let sent = ticks as u128 * 64 * rate as u128;
    if sent % 1_000_000_000 == 0 {
        return put_size(out, sent / 1_000_000_000);
    }
    out.try_extend(b"~")?;
    put_wide(out, sent / 1_000_000_000)?;
    out.try_extend(b"B(")?;
    put_wide(out, ticks as u128)?;
    out.try_extend(b"t)")
}
