//! Reading lines.

use std::io::{BufRead, Read as _};

use crate::streams::Stop;

/// The longest line that is read, in bytes: 4 MiB, 16 for each byte of a message of 256 KiB. The longest line of such a message has 63 bytes
/// for each attribute without a payload, which takes four: `{"Taprio":{"SchedCycleTimeExtension":{"raw":""},"word":49161}},`.
pub const MOST_LINE: usize = 4 * 1024 * 1024;

/// The most values in a line, by the memory that they take: 17 for each object or list, and two for each comma, outside of texts. Four bytes of such
/// a message have 55 at most, as an attribute with three objects and two commas, and 320 are around them.
pub const MOST_VALUES: usize = 55 * 65_536 + 320;

/// The most quotes in a line, two for each name or text: ten for four bytes of such a message, and 160 around them. Both bound the memory that a
/// line takes.
pub const MOST_QUOTES: usize = 10 * 65_536 + 160;

/// How reading a line ended.
#[derive(Clone, Copy, PartialEq, Eq, Debug)]
pub enum LineStatus {
    /// The whole line.
    Whole,
    /// The line is too long.
    TooLong,
    /// The end of the input.
    End,
}

/// What is in a line.
#[derive(Clone, Copy, PartialEq, Eq, Debug)]
pub enum LineContent {
    /// More than [`MOST_VALUES`] values or [`MOST_QUOTES`] quotes.
    ManyValues,
    /// Nothing, or blanks.
    Blank,
    /// A text that is to be read.
    Text,
}

/// Reads a line, without its line feed. Of one that is too long, the rest is passed over.
///
/// # Errors
///
/// [`Stop::Read`].
pub fn next_line<R: BufRead>(input: &mut R, line: &mut Vec<u8>) -> Result<LineStatus, Stop> {
    const MOST_READ: u64 = MOST_LINE as u64 + 1;
    line.clear();
    input.by_ref().take(MOST_READ).read_until(b'\n', line).map_err(|_| Stop::Read)?;
    if line.is_empty() {
        return Ok(LineStatus::End);
    }
    if line.last() == Some(&b'\n') {
        line.pop();
        return Ok(LineStatus::Whole);
    }
    if line.len() <= MOST_LINE {
        return Ok(LineStatus::Whole);
    }
    input.skip_until(b'\n').map_err(|_| Stop::Read)?;
    Ok(LineStatus::TooLong)
}

/// What is in a line. Braces, brackets and commas in texts don't count, quotes in them do.
#[must_use]
pub fn content_of(line: &[u8]) -> LineContent {
    if values_of(line) > MOST_VALUES || line.iter().filter(|byte| **byte == b'"').count() > MOST_QUOTES {
        LineContent::ManyValues
    } else if line.trim_ascii_start().is_empty() {
        LineContent::Blank
    } else {
        LineContent::Text
    }
}

// Where a byte of a line is.
#[derive(Clone, Copy)]
enum Place {
    Outside,
    InText,
    AfterBackslash,
}

// The values of a line.
fn values_of(line: &[u8]) -> usize {
    let mut place = Place::Outside;
    let counts = line.iter().map(|byte| {
        let before = place;
        place = match (before, byte) {
            (Place::Outside, b'"') => Place::InText,
            (Place::Outside, _) | (Place::InText, b'"') => Place::Outside,
            (Place::InText, b'\\') => Place::AfterBackslash,
            (Place::InText | Place::AfterBackslash, _) => Place::InText,
        };
        match (before, byte) {
            (Place::Outside, b'{' | b'[') => 17,
            (Place::Outside, b',') => 2,
            _ => 0,
        }
    });
    counts.sum()
}
