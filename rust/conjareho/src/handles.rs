//! Texts of handles and of the results of actions, beside those of the codec.

use crate::tc::{TcActionType, TcHandle};
use core::fmt;
use core::str::FromStr;

/// The error of a text that is no value of its type.
#[derive(Clone, Copy, PartialEq, Eq, Hash, Debug)]
pub struct ParseError(&'static str);

impl fmt::Display for ParseError {
    fn fmt(&self, f: &mut fmt::Formatter<'_>) -> fmt::Result {
        write!(f, "not {}", self.0)
    }
}

impl core::error::Error for ParseError {}

impl FromStr for TcHandle {
    type Err = ParseError;

    /// Reads `MAJOR:MINOR` **in decimal**, as `Display` writes it. `kinds::Handle` reads and writes hex, as `tc` does.
    fn from_str(text: &str) -> Result<Self, ParseError> {
        let half = |text: &str| if text.starts_with('+') { None } else { text.parse::<u16>().ok() };
        let halves = text.split_once(':').and_then(|(major, minor)| Some((half(major)?, half(minor)?)));
        halves.map(|(major, minor)| TcHandle { major, minor }).ok_or(ParseError("a handle in decimal, such as 1:16"))
    }
}

/// The results of actions that have a name.
const RESULTS: &[(TcActionType, &str)] = &[
    (TcActionType::Unspec, "continue"),
    (TcActionType::Ok, "pass"),
    (TcActionType::Reclassify, "reclassify"),
    (TcActionType::Shot, "drop"),
    (TcActionType::Pipe, "pipe"),
    (TcActionType::Stolen, "stolen"),
    (TcActionType::Queued, "queued"),
    (TcActionType::Repeat, "repeat"),
    (TcActionType::Redirect, "redirect"),
    (TcActionType::Trap, "trap"),
];

/// Other names of results that `tc` reads.
const MORE_RESULTS: &[(TcActionType, &str)] = &[(TcActionType::Ok, "ok"), (TcActionType::Shot, "shot")];

impl fmt::Display for TcActionType {
    /// Writes the word of `tc`, such as `drop`, or the number.
    fn fmt(&self, f: &mut fmt::Formatter<'_>) -> fmt::Result {
        match RESULTS.iter().find(|(result, _)| result == self) {
            Some((_, name)) => f.write_str(name),
            // `Other` of a number that has a name is written as a number too.
            None => write!(f, "{}", i32::from(*self)),
        }
    }
}

impl FromStr for TcActionType {
    type Err = ParseError;

    /// Reads a word of `tc`, such as `drop`, or a number.
    fn from_str(text: &str) -> Result<Self, ParseError> {
        let named = RESULTS.iter().chain(MORE_RESULTS).find(|(_, name)| *name == text).map(|(result, _)| *result);
        let number = || text.parse::<i32>().ok().map(TcActionType::from);
        named.or_else(number).ok_or(ParseError("the result of an action, such as drop"))
    }
}
