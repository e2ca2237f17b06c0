//! The text of a number determines the number: a reader, which shares nothing with the writer, gets each number back, in each unit and over all widths.

use crate::user::prelude::*;

use crate::show::brief::put_number;
use crate::show::units::Unit;

// The units that aren't written as outlines write them.
const UNITS: [Unit; 12] = [
    Unit::Bytes,
    Unit::BytesPerSecond,
    Unit::PacketsPerSecond,
    Unit::KilobitsPerSecond,
    Unit::Nanoseconds,
    Unit::Microseconds,
    Unit::Milliseconds,
    Unit::Seconds,
    Unit::Ticks,
    Unit::ClockTicks,
    Unit::Probability,
    Unit::Power,
];

// The digits that a text begins with, as a number, and how many there are.
fn digits_in(text: &[u8]) -> Option<(u128, usize)> {
    let mut number = 0u128;
    for (at, byte) in text.iter().enumerate() {
        match byte {
            b'0'..=b'9' => {
                number = number.checked_mul(10)?.checked_add(u128::from(*byte - b'0'))?;
            }
            _ => return Some((number, at)),
        }
    }
    Some((number, text.len()))
}

// Thousandths, of one to three decimals.
fn decimals_in(text: &[u8]) -> Option<(u128, usize)> {
    let (number, count) = digits_in(text)?;
    match count {
        1 => Some((number.checked_mul(100)?, 1)),
        2 => Some((number.checked_mul(10)?, 2)),
        3 => Some((number, 3)),
        _ => None,
    }
}

// A number in thousandths, and the unit after it.
fn thousandths_in(text: &[u8]) -> Option<(u128, &[u8])> {
    let (whole, count) = digits_in(text)?;
    let whole = whole.checked_mul(1000)?;
    if count == 0 || count > text.len() {
        return None;
    }
    let (_, rest) = text.split_at(count);
    match rest {
        [b'.', after @ ..] => {
            let (part, count) = decimals_in(after)?;
            if count > after.len() {
                return None;
            }
            let (_, unit) = after.split_at(count);
            Some((whole.checked_add(part)?, unit))
        }
        _ => Some((whole, rest)),
    }
}

// What a unit counts: bits per second, bytes, nanoseconds, packets per second, or the number itself.
fn factor_of(unit: &[u8]) -> Option<u128> {
    let units: [(&[u8], u128); 14] = [
        (b"Gbit", 1_000_000_000),
        (b"Mbit", 1_000_000),
        (b"kbit", 1000),
        (b"bit", 1),
        (b"MiB", 1_048_576),
        (b"KiB", 1024),
        (b"B", 1),
        (b"s", 1_000_000_000),
        (b"ms", 1_000_000),
        (b"us", 1000),
        (b"ns", 1),
        (b"p/s", 1),
        (b"%", 1),
        (b"", 1),
    ];
    for (name, factor) in &units {
        if *name == unit {
            return Some(*factor);
        }
    }
    None
}

// What one is in a unit.
fn one_in(unit: Unit) -> u128 {
    match unit {
        Unit::BytesPerSecond => 8,
        Unit::KilobitsPerSecond | Unit::Microseconds => 1000,
        Unit::Milliseconds => 1_000_000,
        Unit::Seconds => 1_000_000_000,
        Unit::Ticks => 64,
        Unit::ClockTicks => 10_000_000,
        _ => 1,
    }
}

// A share of 2^32 - 1, in thousandths of a percent, to the nearest number, halves to the even one.
fn share_in(thousandths: u128) -> Option<u128> {
    let all = thousandths.checked_mul(0xffff_ffff)?;
    let (number, rest) = (all / 100_000, all % 100_000);
    let up = if rest == 50_000 { number % 2 } else { u128::from(rest > 50_000) };
    number.checked_add(up)
}

// What `tc` 6.1 sends for `loss 10%`, `30%`, `50%` and `70%`: 2^32 - 1 times the share, of which each is a half.
#[test]
fn halves_are_even() {
    for (number, text) in [(429_496_730, "10%"), (1_288_490_188, "30%"), (2_147_483_648, "50%"), (3_006_477_106, "70%")] {
        let mut out = Vec::new();
        assert!(put_number(&mut out, Unit::Probability, number).is_ok());
        assert_eq!(String::from_utf8_lossy(&out), text);
    }
}

// The number in a text.
fn number_in(unit: Unit, text: &[u8]) -> Option<u128> {
    if let [b'2', b'^', power @ ..] = text {
        let (number, count) = digits_in(power)?;
        return if count == power.len() { Some(number) } else { None };
    }
    let (thousandths, after) = thousandths_in(text)?;
    if after == b"%".as_slice() {
        return share_in(thousandths);
    }
    let all = thousandths.checked_mul(factor_of(after)?)?;
    let one = one_in(unit).checked_mul(1000)?;
    if one == 0 || all % one != 0 {
        return None;
    }
    Some(all / one)
}

fn is_exact(unit: Unit, n: u64) -> Result<bool, AllocError> {
    let mut text = Vec::new();
    put_number(&mut text, unit, n)?;
    Ok(number_in(unit, &text) == Some(u128::from(n)))
}

// True if this number is exact in each unit.
fn are_exact(n: u64) -> bool {
    for unit in &UNITS {
        match is_exact(*unit, n) {
            Ok(true) => {}
            _ => return false,
        }
    }
    true
}

// True for a number and what is next to it.
fn are_exact_around(n: u64) -> bool {
    are_exact(n.saturating_sub(1)) && (are_exact(n) && are_exact(n.saturating_add(1)))
}

#[test]
fn texts_determine_small_numbers() {
    for n in 0..20_000u64 {
        assert!(are_exact(n));
    }
}

#[test]
fn texts_determine_numbers_of_all_widths() {
    let mut two = 1u64;
    let mut ten = 1u64;
    for _ in 0..64u32 {
        for times in 1..20u64 {
            assert!(are_exact_around(two.saturating_mul(times)));
            assert!(are_exact_around(ten.saturating_mul(times)));
        }
        two = two.saturating_mul(2);
        ten = ten.saturating_mul(10);
    }
    for n in (0..0xffff_ffffu64).step_by(214_743) {
        assert!(are_exact(n));
    }
}
