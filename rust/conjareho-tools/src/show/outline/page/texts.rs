//! Texts that need no escaping or quotes.

use crate::user::prelude::*;

use crate::tc_texts::is_printable;

// True if each byte is printable ASCII.
pub(super) fn are_printable(text: &[u8]) -> bool {
    text.iter().all(|byte| 0x20 <= *byte && *byte <= 0x7e)
}

// True if each byte is printable ASCII or a line feed.
pub(super) fn are_shown(text: &[u8]) -> bool {
    all_shown(text)
}

// The same, without an early end, so that many bytes are compared at once.
fn all_shown(text: &[u8]) -> bool {
    let mut are_shown = true;
    for byte in text {
        are_shown = are_shown & is_shown(*byte);
    }
    are_shown
}

fn is_shown(byte: u8) -> bool {
    0x20 <= byte && byte <= 0x7e || byte == b'\n'
}

// The number of printable bytes at the front of a text.
pub(super) fn run_of(text: &[u8]) -> usize {
    let mut at = 0;
    while at < text.len() && is_printable(text[at]) {
        at += 1;
    }
    at
}

// The number of blanks at the front of a line.
pub(super) fn margin_of(line: &[u8]) -> usize {
    match line.iter().position(|byte| *byte != b' ') {
        Some(at) => at,
        None => line.len(),
    }
}

// True if the text needs no quotes.
pub(super) fn is_word(text: &[u8]) -> bool {
    !text.is_empty() && text.iter().all(|byte| is_word_byte(*byte))
}

fn is_word_byte(byte: u8) -> bool {
    byte.is_ascii_alphanumeric() || byte == b'_' || byte == b'-' || byte == b'.'
}
