//! Rates, times and shares as `tc` writes them. Each text is read as the value that it was written of.

use super::values::{Prob, Ticks};
use core::fmt;
use core::str::FromStr;
use core::time::Duration;

/// Units of a rate and their size in bits per second, the largest of bits first.
const RATES: &[(&str, u128)] = &[
    ("tbit", 1_000_000_000_000),
    ("gbit", 1_000_000_000),
    ("mbit", 1_000_000),
    ("kbit", 1000),
    ("bit", 1),
    ("tibit", 1 << 40),
    ("gibit", 1 << 30),
    ("mibit", 1 << 20),
    ("kibit", 1 << 10),
    ("tbps", 8_000_000_000_000),
    ("gbps", 8_000_000_000),
    ("mbps", 8_000_000),
    ("kbps", 8000),
    ("bps", 8),
    ("tibps", 8 << 40),
    ("gibps", 8 << 30),
    ("mibps", 8 << 20),
    ("kibps", 8 << 10),
];
/// Units of a time and their size in nanoseconds, the largest first.
const TIMES: &[(&str, u128)] = &[
    ("s", 1_000_000_000),
    ("ms", 1_000_000),
    ("us", 1000),
    ("ns", 1),
    ("sec", 1_000_000_000),
    ("secs", 1_000_000_000),
    ("msec", 1_000_000),
    ("msecs", 1_000_000),
    ("usec", 1000),
    ("usecs", 1000),
    ("nsec", 1),
    ("nsecs", 1),
];
/// Nanoseconds in a tick.
const NS_IN_TICK: u128 = 64;
/// The probability 1.
const ONE: u128 = u32::MAX as u128;

/// Defines the error of a text that isn't such a value.
macro_rules! not_a {
    ($name:ident, $what:literal) => {
        #[doc = concat!("The error of a text that isn't ", $what, ".")]
        #[derive(Clone, Copy, PartialEq, Eq, Hash, Debug)]
        pub struct $name;

        impl core::fmt::Display for $name {
            fn fmt(&self, f: &mut core::fmt::Formatter<'_>) -> core::fmt::Result {
                f.write_str(concat!("not ", $what))
            }
        }

        impl core::error::Error for $name {}
    };
}
pub(super) use not_a;

not_a! { NotARate, "a rate, such as 100mbit" }
not_a! { NotATime, "a time, such as 100ms" }
not_a! { NotAProb, "a share, such as 0.5%" }

/// A decimal number and the text after it: its digits, and how many of them follow the point.
fn decimal(text: &str) -> Option<(u128, u32, &str)> {
    let end = text.find(|c: char| !c.is_ascii_digit() && c != '.').unwrap_or(text.len());
    let (number, unit) = text.split_at(end);
    let (whole, fraction) = number.split_once('.').unwrap_or((number, ""));
    let has_digits = !(whole.is_empty() && fraction.is_empty()) && fraction.len() <= 18;
    let digits = |value: u128, c: char| value.checked_mul(10)?.checked_add(u128::from(c.to_digit(10)?));
    let value = whole.chars().chain(fraction.chars()).try_fold(0, digits)?;
    has_digits.then_some((value, fraction.len() as u32, unit))
}

/// A number and a unit in the smallest unit, rounded down.
fn measured(text: &str, units: &[(&str, u128)], default: &str) -> Option<u128> {
    let (digits, decimals, unit) = decimal(text)?;
    let unit = if unit.is_empty() { default } else { unit };
    let (_, size) = units.iter().find(|(name, _)| unit.eq_ignore_ascii_case(name))?;
    Some(digits.checked_mul(*size)? / 10u128.pow(decimals))
}

/// Writes a value in the first of these units of which it is a whole number.
fn write_in(f: &mut fmt::Formatter<'_>, value: u128, units: &[(&str, u128)]) -> fmt::Result {
    let fits = |size: u128| value > 0 && value % size == 0;
    let (name, size) = units.iter().find(|(_, size)| fits(*size)).unwrap_or(&units[units.len() - 1]);
    write!(f, "{}{name}", value / size)
}

/// A rate in bytes per second.
#[derive(Clone, Copy, PartialEq, Eq, Hash, PartialOrd, Ord, Debug, Default)]
pub struct Rate(pub u64);

impl Rate {
    /// The time that so many bytes take: whole microseconds, turned into ticks, as iproute2 6.1 computes it.
    #[must_use]
    pub fn ticks(self, bytes: u32) -> Ticks {
        // Ticks of 64 ns in a microsecond.
        let us = (1e6 * (f64::from(bytes) / self.0 as f64)) as u32;
        Ticks((f64::from(us) * 15.625) as u32)
    }

    /// The rate in 32 bits: the largest number if it has more.
    pub(super) fn low(self) -> u32 {
        u32::try_from(self.0).unwrap_or(u32::MAX)
    }

    /// The rate in 64 bits, if it has more than 32.
    pub(super) fn high(self) -> Option<u64> {
        (self.0 > u64::from(u32::MAX)).then_some(self.0)
    }
}

impl FromStr for Rate {
    type Err = NotARate;

    /// Reads a number and a unit of `tc`, such as `1.5mbit`, `10kbps` (kilobytes per second) or `1mibit`. Without a unit: bits per second.
    fn from_str(text: &str) -> Result<Self, NotARate> {
        let bits = measured(text, RATES, "bit").ok_or(NotARate)?;
        u64::try_from(bits / 8).map(Rate).map_err(|_| NotARate)
    }
}

impl fmt::Display for Rate {
    /// Writes the rate in the largest unit of bits of which it is a whole number.
    fn fmt(&self, f: &mut fmt::Formatter<'_>) -> fmt::Result {
        write_in(f, u128::from(self.0) * 8, &RATES[..5])
    }
}

impl FromStr for Ticks {
    type Err = NotATime;

    /// Reads a number and a unit of `tc`, such as `100ms`, `1.5s` or `64ns`. Without a unit: microseconds. Less than a tick is dropped.
    fn from_str(text: &str) -> Result<Self, NotATime> {
        let ns = measured(text, TIMES, "us").ok_or(NotATime)?;
        u32::try_from(ns / NS_IN_TICK).map(Ticks).map_err(|_| NotATime)
    }
}

impl fmt::Display for Ticks {
    /// Writes the time in the largest of `s`, `ms`, `us` and `ns` of which it is a whole number.
    fn fmt(&self, f: &mut fmt::Formatter<'_>) -> fmt::Result {
        write_in(f, u128::from(self.0) * NS_IN_TICK, &TIMES[..4])
    }
}

impl From<Duration> for Ticks {
    /// The whole ticks of a time, or the largest number if there are more.
    fn from(time: Duration) -> Self {
        Ticks(u32::try_from(time.as_nanos() / NS_IN_TICK).unwrap_or(u32::MAX))
    }
}

impl From<Ticks> for Duration {
    fn from(ticks: Ticks) -> Self {
        Duration::from_nanos(u64::from(ticks.0) * 64)
    }
}

impl Prob {
    /// A share in percent, rounded as `tc` does.
    #[must_use]
    pub fn percent(percent: f64) -> Self {
        let share = percent / 100.0 * f64::from(u32::MAX);
        let number = share as u32;
        let rest = share - f64::from(number);
        let rounds_up = rest > 0.5 || rest == 0.5 && number % 2 == 1;
        Prob(number.saturating_add(u32::from(rounds_up)))
    }
}

/// The quotient, rounded to the nearest number, halves to the even one.
fn rounded(number: u128, by: u128) -> u128 {
    let (quotient, rest) = (number / by, number % by);
    quotient + u128::from(2 * rest > by || 2 * rest == by && quotient % 2 == 1)
}

impl FromStr for Prob {
    type Err = NotAProb;

    /// Reads a share in percent, from `0%` to `100%`. `%` may be left out.
    fn from_str(text: &str) -> Result<Self, NotAProb> {
        let (digits, decimals, _) = decimal(text).filter(|(_, _, unit)| ["", "%"].contains(unit)).ok_or(NotAProb)?;
        let one = 100 * 10u128.pow(decimals);
        if digits > one {
            return Err(NotAProb);
        }
        u32::try_from(rounded(digits * ONE, one)).map(Prob).map_err(|_| NotAProb)
    }
}

impl fmt::Display for Prob {
    /// Writes the share in percent, with as few digits as tell it from others.
    fn fmt(&self, f: &mut fmt::Formatter<'_>) -> fmt::Result {
        let of = |decimals: u32| rounded(u128::from(self.0) * 100 * 10u128.pow(decimals), ONE);
        let is_exact = |decimals: &u32| rounded(of(*decimals) * ONE, 100 * 10u128.pow(*decimals)) == u128::from(self.0);
        let decimals = (0..10).find(is_exact).unwrap_or(10);
        let (value, unit) = (of(decimals), 10u128.pow(decimals));
        if decimals == 0 {
            return write!(f, "{value}%");
        }
        write!(f, "{}.{:0width$}%", value / unit, value % unit, width = decimals as usize)
    }
}
