//! Values of the options that filter messages.

use std::fmt;

use crate::read::select::{
    Filter, HANDLE_FORMS, TIME_FORMS, TYPE_FORMS, Types, on_day, parse_clock, parse_handle, parse_time, parse_types,
};
use crate::show::program::arguments::Filters;
use crate::show::program::kinds::is_known;
use crate::show::program::nearest::nearest_kinds;
use crate::tc_capture::Time;

/// Parsed values of the options that filter messages.
pub struct FilterValues<'a> {
    arguments: &'a Filters,
    kinds: Vec<&'a str>,
    types: Vec<Types>,
    interfaces: Vec<u32>,
    names: Vec<&'a str>,
    handles: Vec<u32>,
    parents: Vec<u32>,
    since: Option<Moment>,
    until: Option<Moment>,
}

// A time, or a time of day.
#[derive(Clone, Copy)]
enum Moment {
    At(Time),
    // A second of the day.
    OfDay(u64),
}

/// Why the values of a filter are refused.
#[derive(Clone, Copy, Debug)]
pub enum FilterError<'a> {
    /// An unknown kind.
    Kind(&'a str),
    /// Another word that can't be parsed: what is expected, the word, and the forms it can have.
    Word(&'static str, &'a str, &'static str),
}

impl fmt::Display for FilterError<'_> {
    fn fmt(&self, f: &mut fmt::Formatter<'_>) -> fmt::Result {
        match *self {
            FilterError::Kind(kind) => {
                let [first, second, third] = nearest_kinds(kind);
                write!(
                    f,
                    "unknown kind '{kind}'; near it are {first}, {second} and {third} (tcshow --explain lists all)"
                )
            }
            FilterError::Word(what, word, forms) => write!(f, "unknown {what} '{word}': {forms}"),
        }
    }
}

impl std::error::Error for FilterError<'_> {}

impl<'a> FilterValues<'a> {
    /// Parses the values in arguments. Interfaces have these names.
    ///
    /// # Errors
    ///
    /// The first word that isn't what it has to be.
    pub fn of_arguments(arguments: &'a Filters, names: &[(u32, &str)]) -> Result<FilterValues<'a>, FilterError<'a>> {
        let kinds =
            each(&arguments.kinds, |kind| if is_known(kind) { Ok(kind) } else { Err(FilterError::Kind(kind)) })?;
        let types =
            each(&arguments.types, |word| parse_types(word).ok_or(FilterError::Word("type", word, TYPE_FORMS)))?;
        let interfaces = arguments.interfaces.iter();
        let mut handles = handles_in(&arguments.handles)?;
        handles.extend(arguments.handles.iter().filter_map(|word| u32_handle_of(word)));
        Ok(FilterValues {
            arguments,
            kinds,
            types,
            interfaces: interfaces.clone().filter_map(|word| interface_of(names, word)).collect(),
            // The input may name the interfaces that aren't numbers.
            names: interfaces.map(String::as_str).filter(|word| word.parse::<u32>().is_err()).collect(),
            handles,
            parents: handles_in(&arguments.parents)?,
            since: time_in(arguments.since.as_deref())?,
            until: time_in(arguments.until.as_deref())?,
        })
    }

    /// True if a value is a time of day.
    #[must_use]
    pub fn need_day(&self) -> bool {
        is_of_day(self.since) || is_of_day(self.until)
    }

    /// Puts times of day into the day (UTC) of this time.
    pub fn set_day(&mut self, day: Time) {
        self.since = in_day(self.since, day);
        self.until = in_day(self.until, day);
    }

    /// The filter with these values. Without a day, a time of day is that of the first of January 1970.
    #[must_use]
    pub fn filter(&self) -> Filter<'_> {
        Filter {
            kinds: self.kinds.as_slice(),
            types: self.types.as_slice(),
            interfaces: self.interfaces.as_slice(),
            names: self.names.as_slice(),
            handles: self.handles.as_slice(),
            parents: self.parents.as_slice(),
            chains: self.arguments.chains.as_slice(),
            priorities: self.arguments.priorities.as_slice(),
            since: time_at(self.since),
            until: time_at(self.until),
            refused: self.arguments.refused,
        }
    }
}

// What each word stands for.
fn each<'a, T>(
    words: &'a [String],
    parse: impl Fn(&'a str) -> Result<T, FilterError<'a>>,
) -> Result<Vec<T>, FilterError<'a>> {
    words.iter().map(|word| parse(word)).collect()
}

fn handles_in(words: &[String]) -> Result<Vec<u32>, FilterError<'_>> {
    each(words, |word| parse_handle(word).ok_or(FilterError::Word("handle", word, HANDLE_FORMS)))
}

// The u32 handle that a word names besides: outlines write a table as `800:`, and a bucket as `800:1`.
fn u32_handle_of(word: &str) -> Option<u32> {
    let (table, bucket) = word.split_once(':')?;
    if table.is_empty() || bucket.contains(':') {
        return None;
    }
    let handle = parse_handle(word)?;
    let (table, bucket) = (handle / 0x10000, handle % 0x10000);
    if table > 0xFFF || bucket > 0xFF {
        return None;
    }
    Some(table * 0x10_0000 + bucket * 0x1000)
}

// The number of an interface, from its number or its name.
fn interface_of(names: &[(u32, &str)], word: &str) -> Option<u32> {
    names.iter().find(|(_, name)| *name == word).map(|(number, _)| *number).or_else(|| word.parse().ok())
}

fn time_in(word: Option<&str>) -> Result<Option<Moment>, FilterError<'_>> {
    let Some(word) = word else {
        return Ok(None);
    };
    if let Some(second) = parse_clock(word) {
        return Ok(Some(Moment::OfDay(second)));
    }
    match parse_time(word) {
        Some(time) => Ok(Some(Moment::At(time))),
        None => Err(FilterError::Word("time", word, TIME_FORMS)),
    }
}

fn is_of_day(moment: Option<Moment>) -> bool {
    matches!(moment, Some(Moment::OfDay(_)))
}

fn in_day(moment: Option<Moment>, day: Time) -> Option<Moment> {
    match moment {
        Some(Moment::OfDay(second)) => Some(Moment::At(on_day(day, second))),
        other => other,
    }
}

// The first day of the time scale.
const FIRST_DAY: Time = Time { seconds: 0, nanoseconds: 0 };

fn time_at(moment: Option<Moment>) -> Option<Time> {
    match moment {
        None => None,
        Some(Moment::At(time)) => Some(time),
        Some(Moment::OfDay(second)) => Some(on_day(FIRST_DAY, second)),
    }
}
