//! Times, as Python's `datetime` writes them.

use crate::user::prelude::*;

use crate::read::select::{on_day, parse_clock, parse_time};
use crate::tc_capture::Time;

static DATES: [(&str, u64); 24] = [
    ("1970-01-01T00:00:00Z", 0),
    ("2000-02-29T00:00:00Z", 951782400),
    ("2000-03-01T00:00:00Z", 951868800),
    ("2024-02-29T00:00:00Z", 1709164800),
    ("2024-03-01T00:00:00Z", 1709251200),
    ("2099-12-31T23:59:59Z", 4102444799),
    ("9999-12-31T23:59:59Z", 253402300799),
    ("2025-11-26T14:00:00Z", 1764165600),
    ("1972-03-01T00:00:00Z", 68256000),
    ("1972-06-30T00:00:00Z", 78710400),
    ("4232-05-30T22:12:21Z", 71394819141),
    ("5065-03-16T08:43:05Z", 97675231385),
    ("8066-09-20T03:36:23Z", 192393891383),
    ("9311-09-06T17:56:58Z", 231681059818),
    ("7650-11-20T14:41:45Z", 179271499305),
    ("6586-11-24T22:07:28Z", 145695276448),
    ("9187-05-12T03:33:03Z", 227757843183),
    ("8702-05-18T10:32:59Z", 212453231579),
    ("4139-12-04T13:28:20Z", 68476195700),
    ("2466-08-19T12:13:09Z", 15672226389),
    ("3453-08-20T16:52:11Z", 46819011131),
    ("5115-10-04T16:48:54Z", 99270463734),
    ("9519-06-17T09:04:34Z", 238237837474),
    ("5270-01-03T16:09:12Z", 104138237352),
];

// Texts, the seconds and the nanoseconds.
static TIMES: [(&str, u64, u32); 5] = [
    ("2026-11-26T14:00:00.25Z", 1_795_701_600, 250_000_000),
    ("1764028801.25", 1_764_028_801, 250_000_000),
    ("0", 0, 0),
    ("7.000000001", 7, 1),
    ("18446744073709551615.999999999", u64::MAX, 999_999_999),
];

// True if this is the time of a text.
fn is_time(text: &str, seconds: u64, nanoseconds: u32) -> bool {
    match parse_time(text) {
        Some(time) => time.seconds == seconds && time.nanoseconds == nanoseconds,
        None => false,
    }
}

#[test]
fn dates() {
    for (text, seconds) in &DATES {
        assert!(is_time(text, *seconds, 0), "{text}");
    }
}

#[test]
fn fractions() {
    for (text, seconds, nanoseconds) in &TIMES {
        assert!(is_time(text, *seconds, *nanoseconds), "{text}");
    }
}

static NO_TIMES: [&str; 26] = [
    "",
    ".",
    "1.",
    ".5",
    "+1",
    "-1",
    "1.0000000001",
    "18446744073709551616",
    "1e3",
    "yesterday",
    "2026-11-26",
    "2026-11-26T14:00:00",
    "2026-11-26T14:00:00z",
    "2026-11-26 14:00:00Z",
    "2026-11-26T14:00:00.Z",
    "2026-11-26T24:00:00Z",
    "2026-11-26T14:60:00Z",
    "2026-11-26T14:00:60Z",
    "2026-13-26T14:00:00Z",
    "2026-00-26T14:00:00Z",
    "2026-11-31T14:00:00Z",
    "2026-11-00T14:00:00Z",
    "2025-02-29T14:00:00Z",
    "2100-02-29T14:00:00Z",
    "1969-12-31T23:59:59Z",
    "2026-11-26T14:00:00+00:00",
];

#[test]
fn no_times() {
    for text in &NO_TIMES {
        assert!(parse_time(text).is_none(), "{text}");
    }
}

// Times of day, and their seconds.
static CLOCKS: [(&str, u64); 4] = [("00:00", 0), ("20:00", 72_000), ("23:59:59", 86_399), ("07:05:09", 25_509)];

static NO_CLOCKS: [&str; 9] = ["", "20", "2000", "20:0", "24:00", "20:60", "20:00:60", "20:00Z", "20-00-00"];

#[test]
fn clocks() {
    for (text, second) in &CLOCKS {
        assert!(parse_clock(text) == Some(*second), "{text}");
    }
    for text in &NO_CLOCKS {
        assert!(parse_clock(text).is_none(), "{text}");
    }
}

#[test]
fn days() {
    // 2025-11-26T14:00:00.5Z, and 20:00 on that day.
    let day = Time { seconds: 1_764_165_600, nanoseconds: 500_000_000 };
    assert!(on_day(day, 72_000) == Time { seconds: 1_764_187_200, nanoseconds: 0 });
    let last = Time { seconds: u64::MAX, nanoseconds: 0 };
    assert!(on_day(last, 86_399).seconds == u64::MAX);
}
