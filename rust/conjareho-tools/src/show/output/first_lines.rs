//! The first lines of a text, which tell whether it is hex.

use crate::read::input::{Dump, OnLine, Place, on_line, place_of};

// If none of so many first lines is hex, a text isn't hex.
const MOST_LINES: u8 = 16;

/// The first lines of a text so far. Lines that are empty, hold only a comment or are too long don't count.
#[derive(Clone, Copy)]
pub(crate) struct FirstLines {
    /// One of them is hex, alone or in a dump.
    has_hex: bool,
    /// There are such lines.
    has_any: bool,
    /// How many lines are still first ones.
    left: u8,
}

impl FirstLines {
    /// No lines.
    pub(crate) fn new() -> FirstLines {
        FirstLines { has_hex: false, has_any: false, left: MOST_LINES }
    }

    /// Counts a line, which comes after the lines of a dump.
    pub(crate) fn see(&mut self, dump: &Dump, line: &[u8]) {
        if self.has_hex {
            return;
        }
        if let Some(is_hex) = is_hex_at(dump, line) {
            self.count(is_hex);
        }
    }

    // Counts a line with content, after lines that aren't hex.
    fn count(&mut self, is_hex: bool) {
        self.has_any = true;
        if self.left > 0 {
            self.left = self.left.saturating_sub(1);
            self.has_hex = is_hex;
        }
    }

    /// True if there were lines, and none of them was hex.
    pub(crate) fn are_without_hex(&self) -> bool {
        !self.has_hex && self.has_any
    }

    /// True if the text isn't hex: none of its first 16 lines was.
    pub(crate) fn are_other_text(&self) -> bool {
        self.left == 0 && self.are_without_hex()
    }
}

// True if a line after the lines of a dump is hex. `None` if it doesn't count.
fn is_hex_at(dump: &Dump, line: &[u8]) -> Option<bool> {
    match (place_of(dump, line), on_line(line)) {
        (Place::Begins(_) | Place::GoesOn(_), _) | (Place::Apart, OnLine::Bytes(_)) => Some(true),
        (Place::Apart, OnLine::NoHex) => Some(false),
        (Place::Apart, OnLine::Nothing | OnLine::TooLong) => None,
    }
}
