//! The time of a line: a text of seconds since 1970, a point and nine digits.

use std::fmt;

use serde::{Deserialize, Serialize, Serializer};

use crate::tc_capture::Time;

/// A time of capture as a line has it, such as `1764028801.250000000`.
#[derive(Clone, Copy, Deserialize)]
#[serde(try_from = "String")]
pub(crate) struct Seconds(pub(crate) Time);

impl fmt::Display for Seconds {
    fn fmt(&self, f: &mut fmt::Formatter<'_>) -> fmt::Result {
        write!(f, "{}.{:09}", self.0.seconds, self.0.nanoseconds)
    }
}

impl Serialize for Seconds {
    fn serialize<S: Serializer>(&self, to: S) -> Result<S::Ok, S::Error> {
        to.collect_str(self)
    }
}

impl TryFrom<String> for Seconds {
    type Error = &'static str;

    fn try_from(text: String) -> Result<Seconds, &'static str> {
        seconds_in(&text).map(Seconds).ok_or("no time")
    }
}

fn seconds_in(text: &str) -> Option<Time> {
    let (seconds, rest) = text.split_once('.')?;
    let is_whole = rest.len() == 9 && [seconds, rest].iter().all(|part| part.bytes().all(|byte| byte.is_ascii_digit()));
    if !is_whole {
        return None;
    }
    Some(Time { seconds: seconds.parse().ok()?, nanoseconds: rest.parse().ok()? })
}
