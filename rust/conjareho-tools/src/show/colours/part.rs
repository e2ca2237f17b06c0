//! The words of a line, and their colors.

use crate::user::prelude::*;

/// A color of a terminal; the color of `Plain` text is the terminal's own.
#[derive(Clone, Copy, PartialEq, Eq, Debug)]
pub(crate) enum Colour {
    Plain,
    Bold,
    Red,
    Green,
    Yellow,
    Magenta,
    Cyan,
}

/// What the next word of a line is.
#[derive(Clone, Copy, PartialEq, Eq, Debug)]
pub(crate) enum Part {
    /// The time, or the verb of a line without one.
    First,
    /// The verb after a time.
    Verb,
    /// What the kernel says of a request, in this color, or the request's verb.
    Told(Colour),
    /// The kernel's sentence, in this color.
    Sentence(Colour),
    /// The object, or the flags of a request before it.
    Object,
    /// The kind, or the number of a chain.
    Kind,
    /// The words of the object.
    Words,
    /// The name of an interface.
    Interface,
    /// All to the end of the line, in this color.
    All(Colour),
}

fn is_request(word: &[u8]) -> bool {
    word == b"add".as_slice()
        || word == b"replace".as_slice()
        || word == b"change".as_slice()
        || word == b"get".as_slice()
        || word == b"dump".as_slice()
        || word == b"send".as_slice()
}

fn is_removal(word: &[u8]) -> bool {
    word == b"del".as_slice() || word == b"flush".as_slice() || word == b"gone".as_slice()
}

fn is_said(word: &[u8]) -> bool {
    word == b"is".as_slice() || word == b"new".as_slice() || word == b"ok".as_slice()
}

fn is_warning(word: &[u8]) -> bool {
    word == b"warned".as_slice() || word == b"interrupted".as_slice()
}

fn verb_colour(word: &[u8]) -> Colour {
    if is_request(word) {
        Colour::Magenta
    } else if is_removal(word) || is_warning(word) {
        Colour::Yellow
    } else if is_said(word) {
        Colour::Green
    } else if word == b"refused".as_slice() {
        Colour::Red
    } else {
        Colour::Plain
    }
}

// True for a verb that begins the line of an answer, which has its request's verb too.
fn is_answer(word: &[u8]) -> bool {
    word == b"refused".as_slice() || is_warning(word) || word == b"ok".as_slice()
}

// True for a verb before an object.
fn is_verb(word: &[u8]) -> bool {
    is_request(word) || is_removal(word) || is_said(word) || word == b"-".as_slice()
}

// True for the first word about a fault in the input.
fn is_fault(word: &[u8]) -> bool {
    word == b"byte".as_slice()
}

// True for the first word of a summary, and before the name of an input.
fn is_bold(word: &[u8]) -> bool {
    word == b"summary".as_slice() || word == b"==>".as_slice()
}

fn is_object(word: &[u8]) -> bool {
    word == b"qdisc".as_slice()
        || word == b"class".as_slice()
        || word == b"filter".as_slice()
        || word == b"chain".as_slice()
        || word == b"action".as_slice()
}

// True for the first word of the kernel's sentence, which is in quotes.
fn opens(word: &[u8]) -> bool {
    word.starts_with(b"\"")
}

fn closes(word: &[u8]) -> bool {
    word.ends_with(b"\"")
}

fn first_colour(word: &[u8]) -> Colour {
    if is_fault(word) {
        Colour::Red
    } else if is_bold(word) {
        Colour::Bold
    } else {
        verb_colour(word)
    }
}

fn told_colour(colour: Colour, word: &[u8]) -> Colour {
    if is_verb(word) { verb_colour(word) } else { colour }
}

fn object_colour(word: &[u8]) -> Colour {
    if is_object(word) { Colour::Bold } else { Colour::Magenta }
}

fn words_colour(word: &[u8]) -> Colour {
    if word == b"malformed:".as_slice() { Colour::Red } else { Colour::Plain }
}

/// The color of a word.
pub(crate) fn colour_in(part: Part, word: &[u8]) -> Colour {
    match part {
        Part::First | Part::Verb => first_colour(word),
        Part::Told(colour) => told_colour(colour, word),
        Part::Sentence(colour) | Part::All(colour) => colour,
        Part::Object => object_colour(word),
        Part::Kind => Colour::Bold,
        Part::Words => words_colour(word),
        Part::Interface => Colour::Cyan,
    }
}

// What follows the first word, or that after the time; `other` if it is no verb.
fn after_first(other: Part, word: &[u8]) -> Part {
    if is_fault(word) || is_bold(word) {
        Part::All(first_colour(word))
    } else if is_answer(word) {
        Part::Told(verb_colour(word))
    } else if is_verb(word) {
        Part::Object
    } else {
        other
    }
}

fn after_told(colour: Colour, word: &[u8]) -> Part {
    if is_verb(word) {
        Part::Object
    } else if opens(word) && !(word.len() > 1 && closes(word)) {
        Part::Sentence(colour)
    } else {
        Part::Told(colour)
    }
}

fn after_words(word: &[u8]) -> Part {
    if word == b"dev".as_slice() {
        Part::Interface
    } else if word == b"malformed:".as_slice() {
        Part::All(Colour::Red)
    } else {
        Part::Words
    }
}

/// What follows a word.
pub(crate) fn after(part: Part, word: &[u8]) -> Part {
    match part {
        Part::First => after_first(Part::Verb, word),
        Part::Verb => after_first(Part::Words, word),
        Part::Told(colour) => after_told(colour, word),
        Part::Sentence(colour) if closes(word) => Part::Told(colour),
        Part::Object if is_object(word) => Part::Kind,
        Part::Kind | Part::Interface => Part::Words,
        Part::Words => after_words(word),
        Part::Sentence(_) | Part::Object | Part::All(_) => part,
    }
}
