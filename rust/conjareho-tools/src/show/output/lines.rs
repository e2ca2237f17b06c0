//! Lines of hex, printed.

use crate::user::prelude::*;

use crate::host::io::{Read, Write};
use crate::read::input::{Dump, Input, LineGap, OnLine, Place, on_line, place_of};
use crate::show::json::{Message, NO_ORIGIN, Notice};
use crate::show::output::first_lines::FirstLines;
use crate::show::output::printer::Printer;
use crate::streams::Stop;

/// True if lines of hex can begin with these bytes: with a digit, a blank, `#` or a line end.
#[must_use]
pub fn is_hex_text(first: &[u8]) -> bool {
    match first.first() {
        Some(byte) => is_hex_digit(*byte) || is_blank(*byte),
        None => false,
    }
}

fn is_hex_digit(byte: u8) -> bool {
    matches!(byte, b'0'..=b'9' | b'a'..=b'f' | b'A'..=b'F')
}

fn is_blank(byte: u8) -> bool {
    matches!(byte, b' ' | b'\t' | b'\r' | b'#' | b'\n')
}

// True if the bytes begin with the cooked header of route netlink, as frames of nlmon do: `ARPHRD_NETLINK` (824) at 2, `NETLINK_ROUTE` (0) at 14.
fn is_cooked(bytes: &[u8]) -> bool {
    bytes[2] == 3 && bytes[3] == 0x38 && bytes[14] == 0 && bytes[15] == 0
}

// The messages after a cooked header, if there is one.
fn after_cooked(bytes: &[u8]) -> &[u8] {
    if bytes.len() < 16 {
        return bytes;
    }
    if is_cooked(bytes) {
        let (_, rest) = bytes.split_at(16);
        rest
    } else {
        bytes
    }
}

/// Prints the messages of lines of hex, to the end of the input. If none of the first 16 lines with content is hex, the input isn't.
///
/// # Errors
///
/// A [`Stop`].
pub fn show_lines<R: Read, W: crate::host::io::Write>(
    printer: &mut Printer<'_>,
    input: &mut Input,
    reader: &mut R,
    writer: &mut W,
) -> Result<(), Stop> {
    let mut dump = Dump::new();
    let mut first = FirstLines::new();
    show_lines_after(printer, &mut first, &mut dump, input, reader, writer)?;
    if first.are_without_hex() {
        return Err(Stop::NoCapture);
    }
    Ok(())
}

// Prints the messages of lines of hex, after the bytes of a dump that the lines may go on with.
fn show_lines_after<R: Read, W: crate::host::io::Write>(
    printer: &mut Printer<'_>,
    first: &mut FirstLines,
    dump: &mut Dump,
    input: &mut Input,
    reader: &mut R,
    writer: &mut W,
) -> Result<(), Stop> {
    for _ in 0..u64::MAX {
        let goes_on = show_line(printer, first, dump, input, reader, writer)?;
        if !goes_on {
            return Ok(());
        }
    }
    Err(Stop::Read)
}

// Prints the next line, after the bytes of a dump, or reads more of it. Returns false at the end of the input.
fn show_line<R: Read, W: crate::host::io::Write>(
    printer: &mut Printer<'_>,
    first: &mut FirstLines,
    dump: &mut Dump,
    input: &mut Input,
    reader: &mut R,
    writer: &mut W,
) -> Result<bool, Stop> {
    match input.line_end() {
        Some(end) => {
            see_front(first, dump, input, end);
            put_front(printer, dump, input, end)?;
            input.use_line(end);
            if first.are_other_text() {
                return Err(Stop::NoCapture);
            }
            printer.write_much(writer)?;
            Ok(true)
        }
        None => more_of_line(printer, first, dump, input, reader, writer),
    }
}

// Reads more of a line, or skips a line that is too long. Returns false if the input ends with the line.
fn more_of_line<R: Read, W: crate::host::io::Write>(
    printer: &mut Printer<'_>,
    first: &mut FirstLines,
    dump: &mut Dump,
    input: &mut Input,
    reader: &mut R,
    writer: &mut W,
) -> Result<bool, Stop> {
    let at = input.offset();
    printer.write_lines(first, writer)?;
    let gap = input.read_line(reader)?;
    match gap {
        LineGap::More => Ok(true),
        LineGap::Long(length, goes_on) => {
            printer.put_long(dump, length, at)?;
            Ok(goes_on)
        }
        LineGap::Last => {
            let line = input.rest();
            first.see(dump, line);
            printer.put_last(dump, line, input.offset())?;
            Ok(false)
        }
    }
}

// Counts the line of `len` bytes at the front of what was read.
fn see_front(first: &mut FirstLines, dump: &Dump, input: &Input, len: usize) {
    let (line, _) = input.rest().split_at(len);
    first.see(dump, line);
}

// Prints the line of `len` bytes at the front of what was read.
fn put_front(printer: &mut Printer<'_>, dump: &mut Dump, input: &Input, len: usize) -> Result<(), AllocError> {
    let (line, _) = input.rest().split_at(len);
    printer.put_text(dump, line, input.offset())
}

impl<'a> Printer<'a> {
    // Prints the last line of a text, and the dump that ends with it.
    fn put_last(&mut self, dump: &mut Dump, line: &[u8], at: u64) -> Result<(), AllocError> {
        self.put_text(dump, line, at)?;
        self.put_dump(dump.bytes.as_slice())
    }

    // Prints a line of text, after the bytes of a dump.
    fn put_text(&mut self, dump: &mut Dump, line: &[u8], at: u64) -> Result<(), AllocError> {
        let place = place_of(dump, line);
        self.put_place(dump, place, line, at)
    }

    // Prints a line of text, whose place in the dump is known.
    fn put_place(&mut self, dump: &mut Dump, place: Place, line: &[u8], at: u64) -> Result<(), AllocError> {
        match place {
            Place::GoesOn(more) => {
                dump.go_on(more);
                Ok(())
            }
            Place::Begins(other) => self.put_begun(dump, other, at),
            Place::Apart => self.put_separate(dump, line, at),
        }
    }

    // Prints a dump that ends; another begins, at this offset of the input.
    fn put_begun(&mut self, dump: &mut Dump, other: Dump, at: u64) -> Result<(), AllocError> {
        self.put_dump(dump.bytes.as_slice())?;
        *dump = other;
        self.dump_at = at;
        Ok(())
    }

    // Prints a dump that ends before a line, and the line.
    fn put_separate(&mut self, dump: &mut Dump, line: &[u8], at: u64) -> Result<(), AllocError> {
        self.put_dump(dump.bytes.as_slice())?;
        dump.clear();
        self.put_single(line, at)
    }

    // Prints a dump that ends before a line that is too long, and a notice about the line.
    fn put_long(&mut self, dump: &mut Dump, length: u64, at: u64) -> Result<(), AllocError> {
        self.put_dump(dump.bytes.as_slice())?;
        dump.clear();
        self.put_hole(Notice::Skipped(length), at)
    }

    // Prints the messages of a dump, if it has bytes.
    fn put_dump(&mut self, dump: &[u8]) -> Result<(), AllocError> {
        if dump.is_empty() {
            return Ok(());
        }
        let at = self.dump_at;
        self.put_bytes(dump, at)
    }

    // Prints a line that isn't part of a dump.
    fn put_single(&mut self, line: &[u8], at: u64) -> Result<(), AllocError> {
        match on_line(line) {
            OnLine::Nothing => Ok(()),
            OnLine::NoHex => self.put_hole(Notice::NoHex, at),
            OnLine::TooLong => self.put_hole(Notice::Skipped(line.len() as u64), at),
            OnLine::Bytes(bytes) => self.put_bytes(&bytes, at),
        }
    }

    // Prints the messages in the bytes of a line or of a dump.
    fn put_bytes(&mut self, bytes: &[u8], at: u64) -> Result<(), AllocError> {
        match self.options.without_header {
            None => self.put_messages(NO_ORIGIN, after_cooked(bytes), true, at),
            Some(holds) => self.put_message(&Message::without_header(holds, bytes)),
        }
    }
}
