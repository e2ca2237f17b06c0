//! A run in memory.

use crate::user::prelude::*;

use crate::read::select::Filter;
use crate::show::outline::Interfaces;
use crate::show::program::options::{Options, OutputFormat, TimeFormat};
use crate::show::program::program::serve;
use crate::streams::{Reader, Writer};
use crate::tc_capture::MessageType;
use crate::tests::data::{Format, file_of, messages};
use crate::user::Fail;
use core::str;

/// The output formats.
pub(crate) static FORMS: [OutputFormat; 3] = [OutputFormat::Lines(true), OutputFormat::Outline, OutputFormat::Json];

/// Options that print the messages of a filter.
pub(crate) fn chosen_in<'a>(form: OutputFormat, chosen: Filter<'a>) -> Options<'a> {
    Options {
        format: form,
        all: false,
        without_header: None,
        filter: chosen,
        time: TimeFormat::Clock,
        acks: false,
        names: Interfaces { names: &[] },
        has_summary: false,
    }
}

/// Options that print all messages.
pub(crate) fn all_in(form: OutputFormat) -> Options<'static> {
    chosen_in(form, Filter::ALL)
}

/// Options that print all messages and a summary.
pub(crate) fn counted_in(form: OutputFormat) -> Options<'static> {
    let mut options = all_in(form);
    options.has_summary = true;
    options
}

/// Options that print all messages, of lines of hex without a netlink header.
pub(crate) fn alone_in(form: OutputFormat, holds: MessageType) -> Options<'static> {
    let mut options = all_in(form);
    options.without_header = Some(holds);
    options
}

/// The output of a run, and its status.
pub(crate) struct Outcome {
    pub(crate) status: u8,
    pub(crate) written: Vec<u8>,
    pub(crate) errors: Vec<u8>,
}

/// A run over an input.
pub(crate) fn shown(options: &Options<'_>, input: &[u8]) -> Outcome {
    let (mut written, mut errors) = (Vec::new(), Vec::new());
    let ended = serve(options, "input", &mut Reader::new(input), &mut Writer::new(&mut written), &mut errors);
    Outcome { status: ended.status(), written, errors }
}

/// Expected output.
#[derive(Clone, Copy)]
pub(crate) enum Written<'a> {
    /// These texts, one after the other.
    Is(&'a [&'a str]),
    /// This at the front.
    Begins(&'a str),
    /// Lines with these fronts, and perhaps others after them.
    BeginsWithLines(&'a [&'a str]),
    /// This at the end.
    Ends(&'a str),
    /// This somewhere.
    Has(&'a str),
    /// So many lines.
    Counts(usize),
}

// True of these texts, one after the other.
fn is_joined(written: &[u8], texts: &[&str]) -> bool {
    let mut rest = written;
    for text in texts {
        match rest.strip_prefix(text.as_bytes()) {
            Some(after) => rest = after,
            None => return false,
        }
    }
    rest.is_empty()
}

// True if the first lines have these fronts.
fn begin_with(written: &str, fronts: &[&str]) -> bool {
    let mut lines = written.split('\n');
    for front in fronts {
        match lines.next() {
            Some(line) if line.starts_with(*front) => {}
            _ => return false,
        }
    }
    true
}

/// The number of lines.
pub(crate) fn lines_of(written: &[u8]) -> usize {
    let mut count = 0usize;
    for byte in written {
        if *byte == b'\n' {
            count = count.wrapping_add(1);
        }
    }
    count
}

/// True if this is written.
pub(crate) fn is_written(written: &[u8], want: Written<'_>) -> bool {
    let text = core::str::from_utf8(written).unwrap_or("");
    match want {
        Written::Is(texts) => is_joined(written, texts),
        Written::Begins(front) => text.starts_with(front),
        Written::BeginsWithLines(fronts) => begin_with(text, fronts),
        Written::Ends(end) => text.ends_with(end),
        Written::Has(part) => text.contains(part),
        Written::Counts(count) => lines_of(written) == count,
    }
}

/// True if a run over an input ends with this status, and writes and complains this.
pub(crate) fn gives(options: &Options<'_>, input: &[u8], status: u8, written: Written<'_>, complaint: &str) -> bool {
    let run = shown(options, input);
    run.status == status && is_written(&run.written, written) && run.errors.as_slice() == complaint.as_bytes()
}

/// True if a run over an input in hex ends with this status, and writes and complains this.
pub(crate) fn gives_of_hex(
    options: &Options<'_>,
    digits: &str,
    status: u8,
    written: Written<'_>,
    complaint: &str,
) -> bool {
    match crate::hex::decode(digits) {
        Ok(input) => gives(options, &input, status, written, complaint),
        Err(_) => false,
    }
}

/// True if a run ends with this status, and writes this text, without a complaint.
pub(crate) fn writes(options: &Options<'_>, input: &str, status: u8, written: &str) -> bool {
    gives(options, input.as_bytes(), status, Written::Is(&[written]), "")
}

/// A file of the first messages that were captured.
pub(crate) fn file_of_first(count: usize, format: Format, is_big: bool) -> Result<Vec<u8>, Fail> {
    let mut all = messages()?;
    all.truncate(count);
    Ok(file_of(format, is_big, &all)?)
}

/// True if the bytes begin with this front.
pub(crate) fn is_front(front: &[u8], bytes: &[u8]) -> bool {
    match bytes.get(..front.len()) {
        Some(begin) => begin == front,
        None => false,
    }
}

// True of printable ASCII and line feeds.
fn is_printable(byte: u8) -> bool {
    0x20 <= byte && byte < 0x7f || byte == b'\n'
}

/// True if an output has no control bytes; JSON has none either, but text that isn't ASCII.
pub(crate) fn is_clean(form: OutputFormat, written: &[u8]) -> bool {
    for byte in written {
        if !is_printable(*byte) && (form != OutputFormat::Json || *byte < 0x80) {
            return false;
        }
    }
    true
}
