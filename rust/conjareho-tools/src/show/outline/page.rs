//! The text of outlines.

use crate::user::prelude::*;

mod texts;

use crate::itoa::Buffer;
use crate::show::units::hex_digit;
use crate::tc_texts::put_escaped_byte;
use texts::{are_printable, are_shown, is_word, margin_of, run_of};

/// The layout of a message.
#[derive(Clone, Copy, PartialEq, Eq, Debug)]
pub enum Layout {
    /// Each attribute on a line of its own, indented by its depth.
    Lines,
    /// The whole message on one line, with lists in braces.
    OneLine,
}

impl Layout {
    fn is_in_lines(self) -> bool {
        match self {
            Layout::Lines => true,
            Layout::OneLine => false,
        }
    }
}

/// Text that is safe for any terminal: each byte is printable ASCII or a line feed, and all other bytes of a message
/// are escaped. Calls that write fail only if the allocator does.
pub struct Page {
    bytes: Vec<u8>,
    has_lines: bool,
    depth: usize,
}

impl Page {
    /// An empty page.
    #[must_use]
    pub fn new(layout: Layout) -> Self {
        Page { bytes: Vec::new(), has_lines: layout.is_in_lines(), depth: 0 }
    }

    /// The text: printable ASCII and line feeds.
    #[must_use]
    pub fn bytes(&self) -> &[u8] {
        self.bytes.as_slice()
    }

    /// Empties the page for a text in this layout, and keeps its memory.
    pub fn restart(&mut self, layout: Layout) {
        self.bytes.clear();
        self.has_lines = layout.is_in_lines();
        self.depth = 0;
    }

    /// Writes a text, each byte that isn't printable ASCII as `\x1b`.
    ///
    /// # Errors
    ///
    /// A [`AllocError`].
    pub fn text(&mut self, text: &str) -> Result<(), AllocError> {
        self.escaped(text.as_bytes())
    }

    /// Writes lines: the first continues the current line, and each of the others begins with a line feed and two
    /// blanks per level.
    ///
    /// # Errors
    ///
    /// A [`AllocError`].
    pub fn lines(&mut self, text: &[u8]) -> Result<(), AllocError> {
        if self.has_lines { self.shown(text) } else { self.on_one_line(text) }
    }

    // Writes lines as one line, with a brace for each change of depth.
    fn on_one_line(&mut self, text: &[u8]) -> Result<(), AllocError> {
        let mut left = text;
        while !left.is_empty() {
            left = self.run(left)?;
        }
        Ok(())
    }

    // Writes printable bytes and the byte after them, or begins the next line; returns the rest.
    fn run<'t>(&mut self, text: &'t [u8]) -> Result<&'t [u8], AllocError> {
        let (printable, others) = text.split_at(run_of(text));
        self.bytes.try_extend(printable)?;
        match others {
            [b'\n', line @ ..] => self.margin(line),
            [byte, left @ ..] => {
                self.escaped_byte(*byte)?;
                Ok(left)
            }
            [] => Ok(&[]),
        }
    }

    // Begins a line with the depth of its margin; returns the line after the margin.
    fn margin<'t>(&mut self, line: &'t [u8]) -> Result<&'t [u8], AllocError> {
        let (blanks, left) = line.split_at(margin_of(line));
        self.begin(blanks.len() / 2)?;
        Ok(left)
    }

    /// Writes a text, in quotes unless it consists only of letters, digits, `_`, `-` and `.`.
    ///
    /// # Errors
    ///
    /// A [`AllocError`].
    pub fn quoted(&mut self, text: &[u8]) -> Result<(), AllocError> {
        if is_word(text) {
            return self.escaped(text);
        }
        self.byte(b'"')?;
        for byte in text {
            if *byte == b'"' || *byte == b'\\' {
                self.byte(b'\\')?;
            }
            self.escaped_byte(*byte)?;
        }
        self.byte(b'"')
    }

    /// Writes a number in decimal.
    ///
    /// # Errors
    ///
    /// A [`AllocError`].
    pub fn number(&mut self, n: u64) -> Result<(), AllocError> {
        let mut buffer = Buffer::new();
        self.text(buffer.format(n))
    }

    /// Writes bytes in hex, or `empty` if there are none.
    ///
    /// # Errors
    ///
    /// A [`AllocError`].
    pub fn hex(&mut self, bytes: &[u8]) -> Result<(), AllocError> {
        if bytes.is_empty() {
            return self.text("empty");
        }
        for byte in bytes {
            self.hex_byte(*byte)?;
        }
        Ok(())
    }

    /// Writes the last hex digit of a number.
    ///
    /// # Errors
    ///
    /// A [`AllocError`].
    pub fn hex_digit(&mut self, n: u16) -> Result<(), AllocError> {
        self.digit((n % 16) as u8)
    }

    // Writes a byte as two hex digits.
    fn hex_byte(&mut self, byte: u8) -> Result<(), AllocError> {
        self.digit(byte / 16)?;
        self.digit(byte % 16)
    }

    pub fn blank(&mut self) -> Result<(), AllocError> {
        self.byte(b' ')
    }

    /// Begins a line at this depth: a line feed and blanks, or on one line a blank and the braces of lists that begin
    /// or end.
    ///
    /// # Errors
    ///
    /// A [`AllocError`].
    pub fn begin(&mut self, depth: usize) -> Result<(), AllocError> {
        if self.has_lines { self.line(depth) } else { self.braces(depth) }
    }

    /// Ends a message: closes the braces of open lists.
    ///
    /// # Errors
    ///
    /// A [`AllocError`].
    pub fn end(&mut self) -> Result<(), AllocError> {
        let open = self.depth;
        self.depth = 0;
        if !self.has_lines {
            for _ in 0..open {
                self.byte(b'}')?;
            }
        }
        Ok(())
    }

    fn line(&mut self, depth: usize) -> Result<(), AllocError> {
        self.line_feed()?;
        for _ in 0..depth {
            self.text("  ")?;
        }
        Ok(())
    }

    fn braces(&mut self, depth: usize) -> Result<(), AllocError> {
        let before = self.depth;
        self.depth = depth;
        if depth > before {
            return self.text(" {");
        }
        for _ in 0..before - depth {
            self.byte(b'}')?;
        }
        self.blank()
    }

    fn line_feed(&mut self) -> Result<(), AllocError> {
        if self.has_lines {
            self.bytes.try_push(b'\n')?;
        }
        Ok(())
    }

    // Writes text with line feeds.
    fn shown(&mut self, text: &[u8]) -> Result<(), AllocError> {
        if are_shown(text) {
            return self.bytes.try_extend(text);
        }
        for byte in text {
            self.shown_byte(*byte)?;
        }
        Ok(())
    }

    fn shown_byte(&mut self, byte: u8) -> Result<(), AllocError> {
        if byte == b'\n' { self.line_feed() } else { self.escaped_byte(byte) }
    }

    fn escaped(&mut self, text: &[u8]) -> Result<(), AllocError> {
        if are_printable(text) {
            return self.bytes.try_extend(text);
        }
        for byte in text {
            self.escaped_byte(*byte)?;
        }
        Ok(())
    }

    fn escaped_byte(&mut self, byte: u8) -> Result<(), AllocError> {
        put_escaped_byte(&mut self.bytes, byte)
    }

    // Writes a hex digit.
    fn digit(&mut self, digit: u8) -> Result<(), AllocError> {
        self.byte(hex_digit(digit))
    }

    // Writes a printable byte.
    fn byte(&mut self, byte: u8) -> Result<(), AllocError> {
        self.bytes.try_push(byte)?;
        Ok(())
    }
}
