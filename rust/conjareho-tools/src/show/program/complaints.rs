//! Complaints of the program, on standard error: each begins with its name, and ends with a line feed.

use std::fmt;
use std::io::{self, Write};

use crate::read::select::LINK_FORMS;
use crate::show::program::filter::FilterError;
use crate::show::program::run::Ended;
use crate::streams::{Reader, Stop, Writer, cause_of, write_text};
use crate::zones::NoZone;

/// Names of the streams in complaints.
pub(crate) const INPUT: &str = "standard input";
pub(crate) const OUTPUT: &str = "standard output";

/// Why nothing, or nothing more, is printed.
pub(crate) enum Failure<'a> {
    /// An argument is no text.
    NoText,
    /// The arguments are wrong, or ask for the help or the version.
    Arguments(clap::Error),
    /// `--diff` has another number of files than two.
    NotTwoFiles,
    /// A time of day has no day where there are several files.
    NoDay,
    Zone(NoZone),
    File {
        path: &'a str,
        error: io::Error,
    },
    /// A line in a file of names.
    Names {
        path: &'a str,
        line: u64,
    },
    Filter(FilterError<'a>),
    /// Reading or writing this stream failed, which ends the run so.
    Stream {
        name: &'a str,
        error: Option<String>,
        stop: Stop,
    },
    NoMemory,
}

impl fmt::Display for Failure<'_> {
    fn fmt(&self, f: &mut fmt::Formatter<'_>) -> fmt::Result {
        match self {
            Failure::Arguments(error) => return error.fmt(f),
            Failure::NoText => f.write_str("tcshow: an argument is not valid UTF-8"),
            Failure::NotTwoFiles => f.write_str("tcshow: --diff compares two files"),
            Failure::NoDay => {
                f.write_str("tcshow: with several files, --since and --until take a date: 2026-11-26T20:00:00Z")
            }
            Failure::Zone(error) => match std::env::var("TZ") {
                Ok(zone) => write!(f, "tcshow: TZ={zone}: {error}"),
                Err(_) => write!(f, "tcshow: /etc/localtime: {error}"),
            },
            Failure::File { path, error } => write!(f, "tcshow: {path}: {}", cause_of(error)),
            Failure::Names { path, line } => write!(f, "tcshow: {path}: line {line}: {LINK_FORMS}"),
            Failure::Filter(error) => write!(f, "tcshow: {error}"),
            Failure::Stream { name, error, .. } => {
                write!(f, "tcshow: {name}: {}", error.as_deref().unwrap_or("failed"))
            }
            Failure::NoMemory => f.write_str("tcshow: out of memory"),
        }?;
        f.write_str("\n")
    }
}

impl From<crate::fallible::AllocError> for Failure<'_> {
    fn from(_: crate::fallible::AllocError) -> Self {
        Failure::NoMemory
    }
}

impl<'a> From<FilterError<'a>> for Failure<'a> {
    fn from(error: FilterError<'a>) -> Self {
        Failure::Filter(error)
    }
}

impl<'a> Failure<'a> {
    /// Why the first bytes of an input can't be read.
    pub(crate) fn of_input<R>(name: &'a str, stop: Stop, reader: &Reader<R>) -> Self {
        match stop {
            Stop::Read => Failure::Stream { name, error: reader.failure().map(cause_of), stop },
            _ => Failure::NoMemory,
        }
    }

    /// Why standard output can't be written to.
    pub(crate) fn of_output<W>(stop: Stop, writer: &Writer<W>) -> Self {
        Failure::Stream { name: OUTPUT, error: writer.failure().map(cause_of), stop }
    }

    /// Says it, and ends for it.
    pub(crate) fn say(&self, errors: &mut dyn Write) -> Ended {
        say(errors, self);
        Ended::early(match self {
            Failure::NoMemory => Stop::NoMemory,
            Failure::Stream { stop, .. } => *stop,
            _ => Stop::Usage,
        })
    }
}

/// Writes a text as a terminal gets it, if it can.
pub(crate) fn say(mut errors: &mut dyn Write, text: impl fmt::Display) {
    let _ = write_text(&mut errors, &text.to_string());
}

/// Writes what is to be said of an input.
pub(crate) fn say_of(errors: &mut dyn Write, name: &str, what: impl fmt::Display) {
    say(errors, format_args!("tcshow: {name}: {what}\n"));
}

/// Writes why a run over an input of this name ended early.
pub(crate) fn say_end<R, W>(errors: &mut dyn Write, name: &str, ended: &Ended, reader: &Reader<R>, writer: &Writer<W>) {
    match ended.outcome {
        Ok(()) | Err(Stop::Usage | Stop::Closed) => {}
        Err(Stop::NoCapture) => {
            say_of(
                errors,
                name,
                "not a capture, and its first lines are not hex; lines of JSON have to be the only FILE",
            );
        }
        Err(Stop::NoRoute) => say_of(errors, name, ended.packets),
        Err(stop @ Stop::Read) => say(errors, Failure::of_input(name, stop, reader)),
        Err(stop @ Stop::Write) => say(errors, Failure::of_output(stop, writer)),
        Err(Stop::NoMemory) => say(errors, Failure::NoMemory),
    }
}
