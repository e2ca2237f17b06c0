//! Why no message is made of a line.

use std::fmt::{self, Write as _};

use crate::fallible::AllocError;
use crate::forms_json::MakeError;
use crate::forms_text::{Difference, ReadError, StrictError};
use crate::make::lines::run::{LONG_LINE, MANY_VALUES};
use crate::nla_frames::DecodeError;
use crate::tc_capture::rtm_of;

/// Why no message is made of a line.
pub enum LineError {
    /// It is longer than the longest line.
    LongLine,
    /// It has more values than a line may have.
    ManyValues,
    /// It isn't read as JSON.
    Read(ReadError),
    /// It is a part of JSON that goes on on other lines.
    OnePart,
    /// It says that a message was refused, and holds none.
    Refused,
    /// It is a summary, and holds none.
    Summary,
    /// It is a note on a place of a capture, and holds none.
    Note,
    /// A member isn't what it has to be.
    Member { name: &'static str, found: Actual, wanted: &'static str },
    /// A member isn't one of a line.
    Unknown(String),
    /// There are no bytes for its message.
    Make(MakeError),
    /// An attribute isn't one of the table of a kind, or of any if there is no kind.
    Attribute {
        /// The place of the mistake, as a JSON pointer.
        path: String,
        /// Its name, as an error shows it.
        found: String,
        kind: Option<String>,
    },
    /// The bytes of its message are shown as something else.
    Shown(Difference),
    /// The codec refuses the bytes.
    Unreadable {
        /// The place of the fault, as a JSON pointer.
        path: String,
        error: DecodeError,
    },
    /// The codec refuses the bytes for another fault than the line says.
    OtherFault { said: DecodeError, error: DecodeError },
    /// The codec reads the bytes, and the line says that it refuses them.
    Readable { said: DecodeError },
    /// The bytes aren't canonical: what is there, and what would be in its place.
    NotCanonical(Difference),
    /// Its message is longer than [`MOST_MESSAGE`](crate::MOST_MESSAGE).
    LongMessage,
    /// The message can't be written: a payload would have more than 65531 bytes.
    DoesNotFit,
    /// Memory ran out.
    NoMemory,
}

/// What a line has instead of what is expected.
pub enum Actual {
    /// Nothing.
    Nothing,
    /// True or false.
    Truth(bool),
    /// A number.
    Number(u64),
    /// A message type.
    Type(u16),
    /// A value of JSON, as an error shows it.
    Json(String),
}

impl From<AllocError> for LineError {
    fn from(_e: AllocError) -> LineError {
        LineError::NoMemory
    }
}

impl From<StrictError> for LineError {
    fn from(e: StrictError) -> LineError {
        match e {
            StrictError::Make(MakeError::OutOfMemory) => LineError::NoMemory,
            StrictError::Make(e) => LineError::Make(e),
            StrictError::Differs(difference) => LineError::Shown(difference),
        }
    }
}

// Of bytes that the codec reads: reading them again fails only where memory runs out.
impl From<DecodeError> for LineError {
    fn from(_e: DecodeError) -> LineError {
        LineError::NoMemory
    }
}

impl fmt::Display for Actual {
    fn fmt(&self, f: &mut fmt::Formatter<'_>) -> fmt::Result {
        match self {
            Actual::Nothing => f.write_str("nothing"),
            Actual::Truth(is_so) => write!(f, "{is_so}"),
            Actual::Number(number) => write!(f, "{number}"),
            Actual::Type(kind) => match rtm_of(*kind) {
                Some(rtm) => f.write_str(rtm.name),
                None => write!(f, "{kind}"),
            },
            Actual::Json(text) => f.write_str(text.as_str()),
        }
    }
}

/// A place of JSON as a error shows it: control characters escaped as JSON has them.
#[derive(Clone, Copy)]
pub struct Place<'a>(pub &'a str);

impl fmt::Display for Place<'_> {
    fn fmt(&self, f: &mut fmt::Formatter<'_>) -> fmt::Result {
        for c in self.0.chars() {
            if c.is_control() {
                write!(f, "\\u{:04x}", c as u32)?;
            } else {
                f.write_char(c)?;
            }
        }
        Ok(())
    }
}

impl fmt::Display for LineError {
    fn fmt(&self, f: &mut fmt::Formatter<'_>) -> fmt::Result {
        match self {
            LineError::Read(error) => show_read(error, f),
            LineError::Member { name, found, wanted } => write!(f, "/{name}: found {found}, wanted {wanted}"),
            LineError::Unknown(name) => {
                write!(f, "/{}: found a member that a line doesn't have", Place(name))
            }
            LineError::Make(error) => show_make(error, f),
            LineError::Attribute { path, found, kind } => {
                show_path(path.as_str(), f)?;
                write!(f, "unknown attribute {found}")?;
                show_list(path.as_str(), kind, f)
            }
            LineError::Shown(difference) | LineError::NotCanonical(difference) => show_difference(difference, f),
            LineError::Unreadable { path, error } => {
                write!(f, "{path}: found a message that the codec refuses, {error}")
            }
            LineError::OtherFault { said, error } => {
                let (said_name, name) = (said.name(), error.name());
                write!(f, "/refused: found {said_name}, {said}; wanted {name}, {error}")
            }
            LineError::Readable { said } => {
                let name = said.name();
                write!(f, "/refused: found {name}, wanted none of a message that the codec reads")
            }
            _ => f.write_str(self.text()),
        }
    }
}

impl LineError {
    // The text of one that holds nothing.
    fn text(&self) -> &'static str {
        match self {
            LineError::LongLine => LONG_LINE,
            LineError::ManyValues => MANY_VALUES,
            LineError::OnePart => "a part of JSON on several lines; wanted all of it on one, as jq -c writes it",
            LineError::Refused => "this line reports a refused message; there is nothing to make",
            LineError::Summary => "this line is a summary; there is nothing to make",
            LineError::Note => "this line is a note on a capture; there is nothing to make",
            LineError::LongMessage => "found a message of more than 262144 bytes",
            LineError::DoesNotFit => "found a message that doesn't fit: a payload would have more than 65531 bytes",
            LineError::NoMemory => "out of memory",
            _ => "",
        }
    }
}

fn show_read(error: &ReadError, f: &mut fmt::Formatter<'_>) -> fmt::Result {
    match error {
        ReadError::Repeated { path } => {
            write!(f, "{}: found twice, wanted once", Place(path))
        }
        ReadError::NotJson { column, .. } => write!(f, "not JSON at byte {column}"),
        ReadError::TooDeep { .. } => f.write_str("lists and objects nest more than 127 deep"),
        ReadError::OutOfMemory => f.write_str("out of memory"),
    }
}

fn show_make(error: &MakeError, f: &mut fmt::Formatter<'_>) -> fmt::Result {
    match error {
        MakeError::OutOfMemory => f.write_str("out of memory"),
        MakeError::Wrong { path, found, wanted } => {
            show_path(path.as_str(), f)?;
            write!(f, "found {found}, wanted {wanted}")
        }
    }
}

// Where the attributes are listed that may be at a place.
fn show_list(path: &str, kind: &Option<String>, f: &mut fmt::Formatter<'_>) -> fmt::Result {
    match kind {
        Some(kind) if path.ends_with("/Options") => {
            write!(f, " (the kind {kind} isn't known; tcshow --explain lists those that are)")
        }
        Some(kind) => write!(f, " (tcshow --explain {kind} lists them)"),
        None if is_of_options(path) => f.write_str(" (options need a Kind before them)"),
        None => Ok(()),
    }
}

// True of the place of options, and of one option by its name.
fn is_of_options(path: &str) -> bool {
    let parent = |path: &str| path.rsplit_once('/').map_or(String::new(), |(parent, _)| parent.to_owned());
    path.ends_with("/Options") || parent(&parent(path)).ends_with("/Options")
}

fn show_difference(difference: &Difference, f: &mut fmt::Formatter<'_>) -> fmt::Result {
    let [found, wanted] = [&difference.found, &difference.wanted].map(|value| value.as_deref().unwrap_or("nothing"));
    show_path(&difference.path, f)?;
    write!(f, "found {found}, wanted {wanted}")
}

// The place in the message; nothing of the whole.
fn show_path(path: &str, f: &mut fmt::Formatter<'_>) -> fmt::Result {
    if path.is_empty() {
        return Ok(());
    }
    write!(f, "{}: ", Place(path))
}

/// A place that settling changed, as a notice shows it.
#[derive(Clone, Copy)]
pub struct Notice<'a>(pub &'a Difference);

impl fmt::Display for Notice<'_> {
    fn fmt(&self, f: &mut fmt::Formatter<'_>) -> fmt::Result {
        let Difference { path, found, wanted } = self.0;
        show_path(path, f)?;
        write!(f, "found {}, ", found.as_deref().unwrap_or("nothing"))?;
        match wanted {
            Some(wanted) => write!(f, "settled to {wanted}"),
            None => f.write_str("dropped"),
        }
    }
}
