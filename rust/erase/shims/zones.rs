//! As much of `jiff_core` and `jiff_tz` as is used, over the C library, and the time zone of the system.

use jiff_core::{Offset, Timestamp};
use std::io::Read as _;
use std::marker::PhantomData;
use std::path::Path;

pub mod jiff_core {
    /// Nanoseconds after the first of January 1970, UTC.
    pub struct Timestamp {
        pub nanosecond: i128,
    }

    /// The seconds by which a clock is ahead of UTC.
    pub struct Offset {
        pub seconds: i32,
    }
}

pub mod jiff_tz {
    pub use super::TimeZone;
}

/// The offsets of UTC, or of the system's time zone.
#[derive(Clone, Copy, PartialEq, Eq, Debug)]
pub enum TimeZone<'a> {
    Utc,
    System(PhantomData<&'a ()>),
}

impl TimeZone<'_> {
    pub fn to_offset(self, time: Timestamp) -> Offset {
        let seconds = i64::try_from(time.nanosecond.div_euclid(1_000_000_000)).ok();
        let offset = match self {
            TimeZone::Utc => None,
            TimeZone::System(_) => seconds.and_then(local_time::offset_at),
        };
        Offset { seconds: offset.unwrap_or(0) }
    }
}

/// The time zone isn't in the database.
#[derive(Debug)]
pub struct NoZone;

impl std::fmt::Display for NoZone {
    fn fmt(&self, f: &mut std::fmt::Formatter<'_>) -> std::fmt::Result {
        f.write_str("the time zone is not in the database")
    }
}

impl std::error::Error for NoZone {}

/// The system's time zone, if there is one. The C library takes UTC for one that isn't there.
pub(crate) fn system_zone() -> Result<TimeZone<'static>, NoZone> {
    let is_there = match std::env::var("TZ") {
        Ok(text) => text.is_empty() || is_rule(&text) || is_name(&text),
        Err(std::env::VarError::NotPresent) => is_zone(Path::new("/etc/localtime")),
        Err(_) => false,
    };
    if is_there { Ok(TimeZone::System(PhantomData)) } else { Err(NoZone) }
}

// True for a rule: a name of letters, or in angle brackets, and a number.
fn is_rule(text: &str) -> bool {
    let number = match text.strip_prefix('<') {
        Some(name) => name.split_once('>').map_or("", |(_, number)| number),
        None => text.trim_start_matches(|c: char| c.is_ascii_alphabetic()),
    };
    number.trim_start_matches(['+', '-']).starts_with(|c: char| c.is_ascii_digit())
}

// True for the name of a zone, or of its file.
fn is_name(text: &str) -> bool {
    let name = text.strip_prefix(':').unwrap_or(text);
    name.eq_ignore_ascii_case("utc") || is_zone(&Path::new("/usr/share/zoneinfo").join(name))
}

fn is_zone(file: &Path) -> bool {
    let mut front = [0; 4];
    file.is_file() && std::fs::File::open(file).and_then(|mut file| file.read_exact(&mut front)).is_ok() && front == *b"TZif"
}
