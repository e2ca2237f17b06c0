//! Times as they are given on a command line.

use super::calendar::days_of_date;
use super::digits::number_of;
use crate::tc_capture::Time;

/// The forms of a time, for error messages.
pub const TIME_FORMS: &str = "a time is seconds since 1970, such as 1764028801.25, or 2026-11-26T14:00:00Z, or 20:00";

const DAY: u64 = 86_400;

/// Parses a time: seconds since 1970 with up to nine decimals, or a date and a time in UTC.
#[must_use]
pub fn parse_time(text: &str) -> Option<Time> {
    time_of_date(text).or_else(|| time_of_seconds(text))
}

// Parses seconds since 1970, with decimals after a point.
fn time_of_seconds(text: &str) -> Option<Time> {
    let (seconds, nanoseconds) = with_decimals(text)?;
    Some(Time { seconds: number_of(10, u64::MAX, seconds)?, nanoseconds })
}

// A text before a point, and the decimals after it as nanoseconds: 0 if there is no point.
fn with_decimals(text: &str) -> Option<(&str, u32)> {
    let Some((whole, decimals)) = text.split_once('.') else {
        return Some((text, 0));
    };
    if !(1..=9).contains(&decimals.len()) {
        return None;
    }
    let nanoseconds = number_of(10, 999_999_999, &format!("{decimals:0<9}"))?;
    Some((whole, u32::try_from(nanoseconds).ok()?))
}

// Parses a date and a time in UTC.
fn time_of_date(text: &str) -> Option<Time> {
    let (date, clock) = text.strip_suffix('Z')?.split_once('T')?;
    let (clock, nanoseconds) = with_decimals(clock)?;
    let [year, month, day] = parts(date, '-', [4, 2, 2])?;
    let second = second_of(parts(clock, ':', [2, 2, 2])?)?;
    let seconds = days_of_date(year, month, day)?.saturating_mul(DAY).saturating_add(second);
    Some(Time { seconds, nanoseconds })
}

// The numbers of so many digits each, with a mark between them.
fn parts<const N: usize>(text: &str, mark: char, lengths: [usize; N]) -> Option<[u64; N]> {
    let (mut parts, mut numbers) = (text.split(mark), [0; N]);
    for (number, length) in numbers.iter_mut().zip(lengths) {
        *number = number_of(10, 9999, parts.next().filter(|part| part.len() == length)?)?;
    }
    parts.next().is_none().then_some(numbers)
}

fn second_of([hour, minute, second]: [u64; 3]) -> Option<u64> {
    let seconds = hour.saturating_mul(3600).saturating_add(minute.saturating_mul(60)).saturating_add(second);
    (hour < 24 && minute < 60 && second < 60).then_some(seconds)
}

/// Parses a time of day: hours, minutes and perhaps seconds, such as 20:00. Returns the second of the day.
#[must_use]
pub fn parse_clock(text: &str) -> Option<u64> {
    let short = parts(text, ':', [2, 2]).map(|[hour, minute]| [hour, minute, 0]);
    second_of(short.or_else(|| parts(text, ':', [2, 2, 2]))?)
}

/// This second of the day in which a time is, in UTC.
#[must_use]
pub fn on_day(day: Time, second: u64) -> Time {
    let midnight = day.seconds.saturating_sub(day.seconds % DAY);
    Time { seconds: midnight.saturating_add(second), nanoseconds: 0 }
}
