//! Options of a run.

use crate::user::prelude::*;

use crate::read::select::Filter;
use crate::show::lines::TimeFormat;
use crate::show::outline::Interfaces;
use crate::tc_capture::MessageType;

/// How messages are printed.
#[derive(Clone, Copy, PartialEq, Eq)]
pub enum OutputFormat {
    /// A line for each object, with statistics or without.
    Lines(bool),
    /// An outline: a line for the header, a line for each attribute, and an empty line.
    Outline,
    /// A line of JSON.
    Json,
}

/// Options of a run.
#[derive(Clone, Copy)]
pub struct Options<'a> {
    pub format: OutputFormat,
    /// The message type of lines of hex that have no netlink header. `None` if they have one.
    pub without_header: Option<MessageType>,
    /// Which messages are printed.
    pub filter: Filter<'a>,
    /// How lines of objects show times.
    pub time: TimeFormat<'a>,
    /// True if lines of objects are printed for acknowledgements without a text, too.
    pub acks: bool,
    /// True if outlines have padding attributes too.
    pub all: bool,
    /// Names of interfaces, beside those in the capture.
    pub names: Interfaces<'a>,
    /// True if a summary is printed at the end.
    pub has_summary: bool,
}
