//! Lines in colors.

use crate::user::prelude::*;

use crate::show::colours::part::{Colour, Part, after, colour_in};

fn code_of(colour: Colour) -> &'static [u8] {
    match colour {
        Colour::Plain => b"",
        Colour::Bold => b"\x1b[1m",
        Colour::Red => b"\x1b[31m",
        Colour::Green => b"\x1b[32m",
        Colour::Yellow => b"\x1b[33m",
        Colour::Magenta => b"\x1b[35m",
        Colour::Cyan => b"\x1b[36m",
    }
}

fn end_of(colour: Colour) -> &'static [u8] {
    match colour {
        Colour::Plain => b"",
        _ => b"\x1b[0m",
    }
}

// Appends a word in a color.
fn put_word(out: &mut Vec<u8>, colour: Colour, word: &[u8]) -> Result<(), AllocError> {
    out.try_extend(code_of(colour))?;
    out.try_extend(word)?;
    out.try_extend(end_of(colour))
}

// The place of the first byte of this number, or the text's length if it has none.
fn place_of(text: &[u8], number: u8) -> usize {
    let mut at = 0;
    let mut left = text;
    'each: while let [byte, rest @ ..] = left {
        if *byte == number {
            return at;
        }
        at += 1;
        left = rest;
    }
    at
}

// The parts of a text before and after the first byte of this number. `None` if it has none.
fn cut(text: &[u8], number: u8) -> Option<(&[u8], &[u8])> {
    let at = place_of(text, number);
    if at >= text.len() {
        return None;
    }
    let (before, rest) = text.split_at(at);
    let (_, after) = rest.split_at(1);
    Some((before, after))
}

// Appends a line without its line feed.
fn put_line(out: &mut Vec<u8>, line: &[u8]) -> Result<(), AllocError> {
    let mut part = Part::First;
    let mut left = line;
    'words: while let Some((word, rest)) = cut(left, b' ') {
        put_word(out, colour_in(part, word), word)?;
        out.try_extend(b" ")?;
        part = after(part, word);
        left = rest;
    }
    put_word(out, colour_in(part, left), left)
}

/// Appends lines in colors.
///
/// # Errors
///
/// A [`AllocError`].
pub fn paint_lines(out: &mut Vec<u8>, lines: &[u8]) -> Result<(), AllocError> {
    let mut left = lines;
    'lines: while let Some((line, rest)) = cut(left, b'\n') {
        put_line(out, line)?;
        out.try_extend(b"\n")?;
        left = rest;
    }
    put_line(out, left)
}
