//! The lines of a message.

use crate::user::prelude::*;

use crate::show::brief::{Said, lines_of, lines_of_nothing};
use crate::show::columns::{KindColumns, LinkNames, Root};
use crate::show::json::Message;
use crate::show::lines::begin::begin;
use crate::show::lines::fault::end_of;
use crate::show::lines::past::Requests;
use crate::show::lines::times::TimeFormat;
use crate::show::lines::verb::{object_in, speech_of};
use crate::tc_faults::Fault;

/// The lines of a message, each with its line feed, and the name of its fault if it is malformed.
pub struct Lines {
    pub text: Vec<u8>,
    pub fault: Option<&'static str>,
}

// The lines of a message with these names of interfaces.
fn lines_with(
    interfaces: &[(u32, &str)],
    links: &LinkNames,
    root: Root,
    said: &Said<'_>,
    bytes: &[u8],
) -> Result<Vec<u8>, AllocError> {
    lines_of(KindColumns { root, interfaces, links: Some(links), all: false }, said, bytes)
}

fn name_of(fault: &Option<Fault>) -> Option<&'static str> {
    match fault {
        Some(fault) => Some(fault.error.name()),
        None => None,
    }
}

/// The lines of a message that begin with a text.
pub(crate) fn lines_said(
    interfaces: &[(u32, &str)],
    links: &LinkNames,
    begin: &[u8],
    statistics: bool,
    port: u32,
    found: &Message<'_>,
) -> Result<Lines, AllocError> {
    let fault = found.first_fault();
    let end = end_of(found, &fault)?;
    let about = found.root();
    let said = Said { begin, object: object_in(about), statistics, port: port as u64, end: end.as_slice() };
    let text = lines_with(interfaces, links, about, &said, found.payload)?;
    Ok(Lines { text, fault: name_of(&fault) })
}

/// The line of a message whose bytes aren't known: its object.
pub(crate) fn line_without_bytes(begin: &[u8], statistics: bool, found: &Message<'_>) -> Result<Vec<u8>, AllocError> {
    let said = Said { begin, object: object_in(found.root()), statistics, port: 0, end: &[] };
    match lines_of_nothing(&said) {
        Ok(text) => Ok(text),
        Err(_) => Err(AllocError),
    }
}

/// The lines of a message after these messages, with the caller's names of interfaces, and those of the capture.
///
/// # Errors
///
/// A [`AllocError`].
pub fn lines_of_message(
    interfaces: &[(u32, &str)],
    links: &LinkNames,
    past: &Requests,
    statistics: bool,
    format: TimeFormat<'_>,
    found: &Message<'_>,
) -> Result<Lines, AllocError> {
    let speech = speech_of(past, found);
    let front = begin(past, format, &found.origin.time, speech.verb)?;
    lines_said(interfaces, links, front.as_slice(), statistics, speech.port, found)
}
