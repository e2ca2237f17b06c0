//! The time that a line begins with.

use crate::user::prelude::*;

use crate::jiff_core::Timestamp;
use crate::jiff_tz::TimeZone;
use crate::show::units::put_decimal;
use crate::tc_capture::Time;

/// How times are written.
#[derive(Clone, Copy, PartialEq, Eq, Debug)]
pub enum TimeFormat<'z> {
    /// The time of the day in UTC: `14:00:01.123456`.
    Clock,
    /// The time of the day in a time zone.
    Local(TimeZone<'z>),
    /// The date and the time of the day in UTC: `2026-11-26T14:00:01.123456Z`.
    Date,
    /// Seconds after the first of January 1970, UTC: `1764028801.123456`.
    Epoch,
    /// Seconds after the message before: `0.000123`.
    Delta,
    /// Seconds after the first message.
    Relative,
}

// One of consecutive parts, such as a year, and how much is before a place in it.
#[derive(Clone, Copy)]
pub(crate) struct Place {
    part: u64,
    before: u64,
}

// Appends the last two digits of a number.
fn put_two(out: &mut Vec<u8>, n: u64) -> Result<(), AllocError> {
    out.try_extend(&[b'0' + (n / 10 % 10) as u8, b'0' + (n % 10) as u8])
}

// Appends the last three digits of a number.
fn put_three(out: &mut Vec<u8>, n: u64) -> Result<(), AllocError> {
    out.try_extend(&[b'0' + (n / 100 % 10) as u8])?;
    put_two(out, n)
}

// Appends the last four digits of a number.
fn put_four(out: &mut Vec<u8>, n: u64) -> Result<(), AllocError> {
    out.try_extend(&[b'0' + (n / 1000 % 10) as u8])?;
    put_three(out, n)
}

/// True for a time that isn't whole microseconds.
pub(crate) fn is_fine(time: &Time) -> bool {
    time.nanoseconds % 1000 != 0
}

/// True if a time is written with nine digits: if it or one before isn't whole microseconds.
pub(crate) fn has_nine(fine: bool, time: &Time) -> bool {
    fine || is_fine(time)
}

// Appends nanoseconds as a fraction of a second, with nine digits or six.
fn put_fraction(out: &mut Vec<u8>, nine: bool, n: u64) -> Result<(), AllocError> {
    put_three(out, n / 1000000)?;
    put_three(out, n / 1000)?;
    if nine {
        return put_three(out, n);
    }
    Ok(())
}

// A time of the day in UTC.
fn clock_text(nine: bool, time: &Time) -> Result<Vec<u8>, AllocError> {
    let mut text = fallible::with_capacity(18)?;
    put_two(&mut text, time.seconds / 3600 % 24)?;
    text.try_extend(b":")?;
    put_two(&mut text, time.seconds / 60 % 60)?;
    text.try_extend(b":")?;
    put_two(&mut text, time.seconds % 60)?;
    text.try_extend(b".")?;
    put_fraction(&mut text, nine, u64::from(time.nanoseconds))?;
    Ok(text)
}

// Appends a time of the day in UTC.
fn put_clock(out: &mut Vec<u8>, nine: bool, time: &Time) -> Result<(), AllocError> {
    let text = clock_text(nine, time)?;
    out.try_extend(&text)
}

// The first second for which a zone may have no offset.
const LAST_DAYS: u64 = 253_402_128_000;

// A time before it, for a zone.
fn instant(time: &Time) -> Timestamp {
    Timestamp { nanosecond: i128::from(time.seconds) * 1_000_000_000 + i128::from(time.nanoseconds) }
}

// A count of seconds, so many later, or earlier if the number is below zero.
fn shifted(seconds: u64, offset: i32) -> u64 {
    let size = u64::from(offset.unsigned_abs());
    if offset < 0 { seconds.saturating_sub(size) } else { seconds + size }
}

// More seconds than a zone can be behind UTC, in whole days.
const TWO_DAYS: u64 = 172_800;

// What a clock in a zone shows.
fn local_time(zone: &TimeZone<'_>, time: &Time) -> Time {
    if time.seconds >= LAST_DAYS {
        return *time;
    }
    let offset = zone.to_offset(instant(time));
    Time { seconds: shifted(time.seconds + TWO_DAYS, offset.seconds), nanoseconds: time.nanoseconds }
}

// Appends seconds with a fraction.
fn put_epoch(out: &mut Vec<u8>, nine: bool, time: &Time) -> Result<(), AllocError> {
    put_decimal(out, time.seconds)?;
    out.try_extend(b".")?;
    put_fraction(out, nine, u64::from(time.nanoseconds))
}

// ---- dates

fn is_leap(year: u64) -> bool {
    year % 4 == 0 && (year % 100 != 0 || year % 400 == 0)
}

fn year_length(year: u64) -> u64 {
    if is_leap(year) { 366 } else { 365 }
}

// The days of each month, without the leap day.
const MONTH_LENGTHS: [u64; 12] = [31, 28, 31, 30, 31, 30, 31, 31, 30, 31, 30, 31];

fn month_length(leap: bool, month: u64) -> u64 {
    let days = MONTH_LENGTHS[(month - 1) as usize];
    if leap && month == 2 { days + 1 } else { days }
}

// The year of a day, given the days from the first of January 1970 to it, at most so many years later.
fn year_at(years: u64, days: u64) -> Place {
    let mut place = Place { part: 1970, before: days };
    for _year in 0..years {
        let length = year_length(place.part);
        if place.before < length {
            return place;
        }
        place = Place { part: place.part + 1, before: place.before - length };
    }
    place
}

// The month of a day, given the days before it in its year, at most so many months later.
fn month_at(leap: bool, months: u64, days: u64) -> Place {
    let mut place = Place { part: 1, before: days };
    for _month in 0..months {
        let length = month_length(leap, place.part);
        if place.before < length {
            return place;
        }
        place = Place { part: place.part + 1, before: place.before - length };
    }
    place
}

// Appends the date of a day in a year.
fn put_day(out: &mut Vec<u8>, year: &Place) -> Result<(), AllocError> {
    put_four(out, year.part)?;
    out.try_extend(b"-")?;
    let month = month_at(is_leap(year.part), 11, year.before);
    put_two(out, month.part)?;
    out.try_extend(b"-")?;
    put_two(out, month.before + 1)
}

// The first second of the year 10000.
const YEAR_10000: u64 = 253_402_300_800;

// Appends a date and a time of the day.
fn put_date(out: &mut Vec<u8>, nine: bool, time: &Time) -> Result<(), AllocError> {
    if time.seconds >= YEAR_10000 {
        return put_epoch(out, nine, time);
    }
    put_day(out, &year_at(8029, time.seconds / 86400))?;
    out.try_extend(b"T")?;
    put_clock(out, nine, time)?;
    out.try_extend(b"Z")
}

// ---- differences

fn is_before(a: &Time, b: &Time) -> bool {
    a.seconds < b.seconds || a.seconds == b.seconds && a.nanoseconds < b.nanoseconds
}

// The time from one to another that isn't before it.
fn time_since(a: &Time, b: &Time) -> Time {
    let seconds = b.seconds.saturating_sub(a.seconds);
    if a.nanoseconds <= b.nanoseconds {
        return Time { seconds, nanoseconds: b.nanoseconds - a.nanoseconds };
    }
    Time {
        seconds: seconds.saturating_sub(1),
        nanoseconds: 1_000_000_000u32.saturating_sub(a.nanoseconds - b.nanoseconds),
    }
}

// Appends the seconds from one time to another.
fn put_difference(out: &mut Vec<u8>, nine: bool, a: &Time, b: &Time) -> Result<(), AllocError> {
    if is_before(b, a) {
        out.try_extend(b"-")?;
        return put_epoch(out, nine, &time_since(b, a));
    }
    put_epoch(out, nine, &time_since(a, b))
}

/// A time in a format with nine digits or six, after messages with these first and last times.
pub(crate) fn time_text(
    format: TimeFormat<'_>,
    nine: bool,
    first: &Option<Time>,
    last: &Option<Time>,
    time: &Time,
) -> Result<Vec<u8>, AllocError> {
    let mut text = fallible::with_capacity(32)?;
    put_time(&mut text, format, nine, first, last, time)?;
    Ok(text)
}

fn put_time(
    out: &mut Vec<u8>,
    format: TimeFormat<'_>,
    nine: bool,
    first: &Option<Time>,
    last: &Option<Time>,
    time: &Time,
) -> Result<(), AllocError> {
    match format {
        TimeFormat::Clock => put_clock(out, nine, time),
        TimeFormat::Local(zone) => put_clock(out, nine, &local_time(&zone, time)),
        TimeFormat::Date => put_date(out, nine, time),
        TimeFormat::Epoch => put_epoch(out, nine, time),
        TimeFormat::Delta => put_after(out, nine, last, time),
        TimeFormat::Relative => put_after(out, nine, first, time),
    }
}

// Appends the seconds after another time, if there is one.
fn put_after(out: &mut Vec<u8>, nine: bool, other: &Option<Time>, time: &Time) -> Result<(), AllocError> {
    match other {
        Some(other) => put_difference(out, nine, other, time),
        None => put_difference(out, nine, time, time),
    }
}
