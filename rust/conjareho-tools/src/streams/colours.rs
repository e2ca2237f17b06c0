//! Outlines in colors: the first line of a paragraph is bold, in each other line the name is cyan and the value green, and a line about a
//! fault, or about a byte of the input that is malformed, truncated or skipped, is red.

use std::io::{Result, Write};

const BOLD: &str = "\x1b[1m";
const RED: &str = "\x1b[31m";
const GREEN: &str = "\x1b[32m";
const CYAN: &str = "\x1b[36m";
const PLAIN: &str = "\x1b[0m";

/// Appends lines in colors. `is_first` says whether they begin a paragraph. Returns whether the text after them begins one.
pub fn paint(out: &mut Vec<u8>, is_first: bool, lines: &[u8]) -> bool {
    let mut is_first = is_first;
    for line in lines.split_inclusive(|byte| *byte == b'\n') {
        let (text, feed) = line.strip_suffix(b"\n").map_or((line, &b""[..]), |text| (text, b"\n"));
        paint_line(out, is_first, text);
        out.extend_from_slice(feed);
        is_first = line.len() < 2;
    }
    is_first
}

fn paint_line(out: &mut Vec<u8>, is_first: bool, text: &[u8]) {
    let (margin, words) = split(text, |byte| byte != b' ');
    out.extend_from_slice(margin);
    if words.starts_with(b"refused ") || words.starts_with(b"byte ") {
        put(out, RED, words);
    } else if is_first {
        put(out, BOLD, words);
    } else {
        let (name, value) = split(words, |byte| byte == b' ');
        put(out, CYAN, name);
        put(out, GREEN, value);
    }
}

// The text before the first such byte, and the rest.
fn split(text: &[u8], is_end: impl Fn(u8) -> bool) -> (&[u8], &[u8]) {
    text.split_at(text.iter().position(|byte| is_end(*byte)).unwrap_or(text.len()))
}

fn put(out: &mut Vec<u8>, colour: &str, text: &[u8]) {
    if !text.is_empty() {
        out.extend([colour.as_bytes(), text, PLAIN.as_bytes()].concat());
    }
}

/// A writer that adds colors to outlines and writes them to another writer. Each write must end with a whole line.
pub struct Coloured<W> {
    inner: W,
    is_first: bool,
}

impl<W: Write> Coloured<W> {
    /// A writer to another writer. The first line begins a paragraph.
    #[must_use]
    pub fn new(inner: W) -> Coloured<W> {
        Coloured { inner, is_first: true }
    }

    /// Returns the other writer.
    #[must_use]
    pub fn into_inner(self) -> W {
        self.inner
    }
}

impl<W: Write> Write for Coloured<W> {
    fn write(&mut self, bytes: &[u8]) -> Result<usize> {
        let mut out = Vec::new();
        self.is_first = paint(&mut out, self.is_first, bytes);
        self.inner.write_all(&out)?;
        Ok(bytes.len())
    }

    fn flush(&mut self) -> Result<()> {
        self.inner.flush()
    }
}
