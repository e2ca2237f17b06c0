//! Lines of text, and the hex on them.

use std::io::Read;

use super::input::{Input, MOST_PIECE};
use crate::read::select::push_hex;
use crate::streams::Stop;

/// The longest line that is read, in bytes of text: two digits and a blank for each byte of the longest piece.
pub const MOST_LINE: usize = 3 * MOST_PIECE;

/// The result of reading on if no line ends in the unused bytes.
#[derive(Clone, Copy)]
pub enum LineGap {
    /// More bytes were read.
    More,
    /// A line that is too long was skipped: its length in bytes, and whether the text continues.
    Long(u64, bool),
    /// The unused bytes are the last line.
    Last,
}

impl Input {
    /// The end of the first line in the unused bytes, if any.
    pub fn line_end(&mut self) -> Option<usize> {
        let after = self.rest().get(self.searched..).unwrap_or_default();
        let end = after.iter().position(|byte| *byte == b'\n').map(|place| self.searched.saturating_add(place));
        if end.is_none() {
            self.searched = self.rest().len();
        }
        end
    }

    /// Uses the line that ends there, and its line feed.
    pub fn use_line(&mut self, end: usize) {
        self.use_up(end.saturating_add(1));
    }

    /// Reads more after no line ended in the unused bytes, or skips a line that is too long.
    ///
    /// # Errors
    ///
    /// [`Stop::Read`].
    pub fn read_line<R: Read>(&mut self, reader: &mut R) -> Result<LineGap, Stop> {
        if self.rest().len() > MOST_LINE {
            let at = self.offset();
            let goes_on = self.skip_line(reader)?;
            let long = self.offset().saturating_sub(at).saturating_sub(u64::from(goes_on));
            return Ok(LineGap::Long(long, goes_on));
        }
        Ok(if self.more(reader)? { LineGap::More } else { LineGap::Last })
    }

    // Skips a line and its line feed. False if the input ends in the line.
    fn skip_line<R: Read>(&mut self, reader: &mut R) -> Result<bool, Stop> {
        self.use_all();
        while self.more(reader)? {
            if let Some(end) = self.line_end() {
                self.use_line(end);
                return Ok(true);
            }
            self.use_all();
        }
        Ok(false)
    }
}

/// The content of a line.
pub enum OnLine {
    /// Nothing but blanks and a comment.
    Nothing,
    /// Not hex.
    NoHex,
    /// Longer than [`MOST_LINE`].
    TooLong,
    /// Bytes.
    Bytes(Vec<u8>),
}

/// Reads a line of hex: digits with blanks, colons and `0x` among them, then a comment.
#[must_use]
pub fn on_line(line: &[u8]) -> OnLine {
    if line.len() > MOST_LINE {
        return OnLine::TooLong;
    }
    match bytes_of(before_comment(line)) {
        Some(bytes) if bytes.is_empty() => OnLine::Nothing,
        Some(bytes) => OnLine::Bytes(bytes),
        None => OnLine::NoHex,
    }
}

/// Reads hex. `None` if it isn't.
pub(super) fn bytes_of(text: &[u8]) -> Option<Vec<u8>> {
    let mut bytes = Vec::new();
    push_hex(&mut bytes, text).then_some(bytes)
}

/// The part of a line before its comment.
pub(super) fn before_comment(line: &[u8]) -> &[u8] {
    line.split(|byte| *byte == b'#').next().unwrap_or(line)
}
