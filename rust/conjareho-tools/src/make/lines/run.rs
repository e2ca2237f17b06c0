//! A run over an input.

use std::fmt;
use std::io::{BufRead, BufReader, Read, Write};

use super::encoding::Encoding;
use super::input::{LineContent, LineStatus, content_of, next_line};
use super::netlink::NetlinkHeader;
use super::output::Output;
use crate::fallible::AllocError;
use crate::streams::{Ended, Reader, Stop, Writer, shown_reason};

/// The error for a line longer than [`MOST_LINE`](super::MOST_LINE).
pub const LONG_LINE: &str = "longer than 4194304 bytes";

/// The error for a line with more than [`MOST_VALUES`](super::MOST_VALUES) or [`MOST_QUOTES`](super::MOST_QUOTES).
pub const MANY_VALUES: &str = "more objects, lists, values or texts than a message of 256 KiB has";

/// What becomes of a line.
pub enum Answer {
    /// A message, its header, and notices on fields that were changed.
    Message { given: NetlinkHeader, bytes: Vec<u8>, notices: Vec<String> },
    /// No message in the line, with an optional notice.
    Nothing { notice: Option<String> },
    /// An error in the line.
    Complaint(String),
}

/// What makes messages of lines.
pub trait Maker {
    /// Makes the message of a line, which is freed as soon as it is read.
    ///
    /// # Errors
    ///
    /// Memory ran out.
    fn make(&self, line: Vec<u8>) -> Result<Answer, AllocError>;
}

/// Takes what is said of a line, by its number from 1.
pub type Say<'a> = &'a mut dyn FnMut(u64, &dyn fmt::Display);

/// Makes the messages of all lines of an input, and writes them. Errors and notices are said.
pub fn run<M: Maker, R: Read, W: Write>(
    maker: &M,
    encoding: Encoding,
    reader: &mut BufReader<Reader<R>>,
    writer: &mut Writer<W>,
    say: Say<'_>,
) -> Ended {
    let mut lines = Lines { maker, output: Output::new(encoding), say, has_refused: false };
    let outcome = lines.make_all(reader, writer).map_err(|stop| shown_reason(reader.get_ref(), writer, stop));
    Ended { outcome, has_refused: lines.has_refused }
}

struct Lines<'a, M> {
    maker: &'a M,
    output: Output,
    say: Say<'a>,
    // A line has an error.
    has_refused: bool,
}

impl<M: Maker> Lines<'_, M> {
    fn make_all<R: BufRead, W: Write>(&mut self, reader: &mut R, writer: &mut W) -> Result<(), Stop> {
        for number in 1.. {
            self.output.write(writer)?;
            let mut line = Vec::new();
            match next_line(reader, &mut line)? {
                LineStatus::Whole => self.make(line, number)?,
                LineStatus::TooLong => self.refuse(number, &LONG_LINE),
                LineStatus::End => break,
            }
        }
        self.output.end();
        self.output.write(writer)
    }

    fn make(&mut self, line: Vec<u8>, number: u64) -> Result<(), Stop> {
        match content_of(&line) {
            LineContent::Blank => return Ok(()),
            LineContent::ManyValues => {
                self.refuse(number, &MANY_VALUES);
                return Ok(());
            }
            LineContent::Text => {}
        }
        match self.maker.make(line)? {
            Answer::Message { given, bytes, notices } => match self.output.put(&given, &bytes) {
                Ok(()) => notices.iter().for_each(|notice| (self.say)(number, notice)),
                Err(why) => self.refuse(number, &why),
            },
            Answer::Nothing { notice } => notice.iter().for_each(|notice| (self.say)(number, notice)),
            Answer::Complaint(complaint) => self.refuse(number, &complaint),
        }
        Ok(())
    }

    fn refuse(&mut self, number: u64, why: &dyn fmt::Display) {
        (self.say)(number, why);
        self.has_refused = true;
    }
}
