//! Message types as they are given on a command line.

use super::digits::number_of;

/// Message types from one to another, both included.
#[derive(Clone, Copy, PartialEq, Eq, Debug)]
pub struct Types {
    /// The first `nlmsg_type`.
    pub first: u16,
    /// The last `nlmsg_type`.
    pub last: u16,
}

/// The forms of a message type, for error messages.
pub const TYPE_FORMS: &str = "a type is one of qdisc, tclass, tfilter, chain and action, with new, del or get before it if it is one alone, \
such as newtclass or RTM_NEWTCLASS, or a number";

/// The first of the three types of each object, such as `RTM_NEWQDISC` (`linux/rtnetlink.h`), and the two after it.
const OBJECTS: [(&str, Types); 5] = [
    ("qdisc", Types { first: 36, last: 38 }),
    ("tclass", Types { first: 40, last: 42 }),
    ("tfilter", Types { first: 44, last: 46 }),
    ("action", Types { first: 48, last: 50 }),
    ("chain", Types { first: 100, last: 102 }),
];

/// Parses message types: `tclass` is all three, `newtclass` or `RTM_NEWTCLASS` is one, and so is a number.
#[must_use]
pub fn parse_types(text: &str) -> Option<Types> {
    let number = number_of(10, u64::from(u16::MAX), text).and_then(|number| u16::try_from(number).ok());
    number.map(one).or_else(|| named_types(text.strip_prefix("RTM_").unwrap_or(text)))
}

fn one(number: u16) -> Types {
    Types { first: number, last: number }
}

fn named_types(text: &str) -> Option<Types> {
    object(text).or_else(|| {
        let (verb, name) = text.split_at_checked(3)?;
        let mut types = object(name).map(|types| types.first..=types.last)?;
        types.nth(["new", "del", "get"].iter().position(|it| is_either(verb, it))?).map(one)
    })
}

fn object(name: &str) -> Option<Types> {
    OBJECTS.iter().find(|(object, _)| is_either(name, object)).map(|(_, types)| *types)
}

// True for a word in small letters or in capitals.
fn is_either(text: &str, word: &str) -> bool {
    text == word || text == word.to_ascii_uppercase()
}
