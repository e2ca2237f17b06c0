//! What a line begins with.

use crate::user::prelude::*;

use crate::show::brief::{put_first, put_word};
use crate::show::lines::past::Requests;
use crate::show::lines::times::{TimeFormat, has_nine, time_text};
use crate::show::lines::verb::Verb;
use crate::show::units::put_hex;
use crate::tc_capture::Time;

/// The first word of a verb.
pub(crate) fn word_of(verb: Verb) -> &'static str {
    match verb {
        Verb::Add => "add",
        Verb::Replace => "replace",
        Verb::Change => "change",
        Verb::Del => "del",
        Verb::Flush => "flush",
        Verb::Get => "get",
        Verb::Dump => "dump",
        Verb::Send(_) => "send",
        Verb::Is => "is",
        Verb::New => "new",
        Verb::Gone => "gone",
        Verb::Unsaid => "-",
    }
}

// Appends the other words of a verb.
fn put_flags(out: &mut Vec<u8>, verb: Verb) -> Result<(), AllocError> {
    let flags = match verb {
        Verb::Send(flags) => u64::from(flags),
        _ => return Ok(()),
    };
    put_word(out, b"flags")?;
    let mut text = Vec::new();
    put_hex(&mut text, flags)?;
    put_word(out, &text)
}

/// Appends the words of a verb.
pub(crate) fn put_verb(out: &mut Vec<u8>, verb: Verb) -> Result<(), AllocError> {
    put_word(out, word_of(verb).as_bytes())?;
    put_flags(out, verb)
}

// A message's time, after these messages.
fn time_in(past: &Requests, format: TimeFormat<'_>, time: &Option<Time>) -> Result<Option<Vec<u8>>, AllocError> {
    match time {
        Some(time) => {
            let nine = has_nine(past.fine, time);
            let text = time_text(format, nine, &past.first, &past.last, time)?;
            Ok(Some(text))
        }
        None => Ok(None),
    }
}

// A word, after a time.
fn first_word(time: &Option<Vec<u8>>, word: &[u8]) -> Result<Vec<u8>, AllocError> {
    let mut text = fallible::with_capacity(32)?;
    match time {
        Some(time) => {
            put_first(&mut text, time.as_slice())?;
            put_word(&mut text, word)?;
        }
        None => put_first(&mut text, word)?,
    }
    Ok(text)
}

/// The first word of a line, after the message's time, if it is known.
pub(crate) fn begin_with(
    past: &Requests,
    format: TimeFormat<'_>,
    time: &Option<Time>,
    word: &[u8],
) -> Result<Vec<u8>, AllocError> {
    let time = time_in(past, format, time)?;
    first_word(&time, word)
}

/// The time, if it is known, and the verb.
pub(crate) fn begin(
    past: &Requests,
    format: TimeFormat<'_>,
    time: &Option<Time>,
    verb: Verb,
) -> Result<Vec<u8>, AllocError> {
    let mut text = begin_with(past, format, time, word_of(verb).as_bytes())?;
    put_flags(&mut text, verb)?;
    Ok(text)
}
