//! Bytes on several lines: dumps with offsets, and rows of plain hex.

use super::input::MOST_PIECE;
use super::lines::{MOST_LINE, before_comment, bytes_of};
use crate::read::select::{DumpLine, digits_of_line, dump_line, end_of_dump, is_asterisk};

/// The lines that may follow the lines of a dump.
#[derive(Clone, Copy, PartialEq, Eq)]
pub enum Next {
    /// None.
    Nothing,
    /// A line at the offset where the bytes end, or an asterisk. The line before has this many bytes.
    AtOffset(usize),
    /// A line at a later offset: an asterisk stands for copies of the line before, which has this many bytes.
    Repeated(usize),
    /// A row of hex without an offset.
    Digits,
}

/// Bytes of several lines.
pub struct Dump {
    /// The bytes so far.
    pub bytes: Vec<u8>,
    /// The lines that may follow.
    pub next: Next,
}

/// The role of a line in a dump.
pub enum Place {
    /// The first line of a dump.
    Begins(Dump),
    /// The next line of the dump, with these bytes.
    GoesOn(Dump),
    /// Not a line of the dump.
    Apart,
}

impl Dump {
    /// No lines.
    #[must_use]
    pub fn new() -> Dump {
        Dump { bytes: Vec::new(), next: Next::Nothing }
    }

    /// Forgets all lines.
    pub fn clear(&mut self) {
        self.bytes.clear();
        self.next = Next::Nothing;
    }

    /// Appends the bytes of more lines.
    pub fn go_on(&mut self, more: Dump) {
        self.bytes.extend(more.bytes);
        self.next = more.next;
    }
}

impl Default for Dump {
    fn default() -> Dump {
        Dump::new()
    }
}

/// The role of a line after the lines of a dump: at offset 0 it begins one. At the offset where the bytes end it continues it, as
/// an asterisk does and the offset of the end. A row of 60 digits begins rows, and a row of at most 60 continues them.
#[must_use]
pub fn place_of(dump: &Dump, line: &[u8]) -> Place {
    if line.len() > MOST_LINE {
        return Place::Apart;
    }
    let text = before_comment(line);
    let place = match dump_line(text) {
        Some(line) => with_offset(dump, line),
        None => without_offset(dump, text),
    };
    place.unwrap_or(Place::Apart)
}

// The role of a line with an offset. Before its bytes come copies of the line before, if an asterisk stands for them.
fn with_offset(dump: &Dump, line: DumpLine<'_>) -> Option<Place> {
    let filling = if line.offset == 0 { Vec::new() } else { filling_to(dump, line.offset)? };
    let bytes = bytes_of(line.columns)?;
    let next = Next::AtOffset(bytes.len());
    let more = Dump { bytes: [filling, bytes].concat(), next };
    Some(if line.offset == 0 { Place::Begins(more) } else { Place::GoesOn(more) })
}

// The bytes between those of a dump and an offset: the last ones, repeated.
fn filling_to(dump: &Dump, offset: u64) -> Option<Vec<u8>> {
    let offset = usize::try_from(offset).ok()?;
    let left = offset.checked_sub(dump.bytes.len());
    match dump.next {
        Next::Nothing | Next::Digits => None,
        Next::AtOffset(_) => (left? == 0).then(Vec::new),
        Next::Repeated(count) => {
            let line = dump.bytes.get(dump.bytes.len().saturating_sub(count)..)?;
            let is_whole = offset <= MOST_PIECE && left?.checked_rem(count)? == 0;
            is_whole.then_some(line.repeat(left?.checked_div(count)?))
        }
    }
}

// The role of a line without an offset.
fn without_offset(dump: &Dump, text: &[u8]) -> Option<Place> {
    match dump.next {
        Next::AtOffset(count) if is_asterisk(text) => {
            Some(Place::GoesOn(Dump { bytes: Vec::new(), next: Next::Repeated(count) }))
        }
        Next::AtOffset(_) | Next::Repeated(_) if digits_of_line(text) != MOST_DIGITS => {
            Some(Place::GoesOn(Dump { bytes: filling_to(dump, end_of_dump(text)?)?, next: Next::Nothing }))
        }
        Next::Digits => row(text).map(Place::GoesOn),
        Next::Nothing | Next::AtOffset(_) | Next::Repeated(_) => {
            row(text).filter(|row| row.next == Next::Digits).map(Place::Begins)
        }
    }
}

// The digits of each row but the last.
const MOST_DIGITS: usize = 60;

// A row of at most 60 digits, of which fewer end the rows.
fn row(text: &[u8]) -> Option<Dump> {
    let count = digits_of_line(text);
    let next = if count == MOST_DIGITS { Next::Digits } else { Next::Nothing };
    let bytes = if (1..=MOST_DIGITS).contains(&count) { bytes_of(text)? } else { return None };
    Some(Dump { bytes, next })
}
