//! Why a request or a dump failed.

use nix::errno::Errno;
use std::{fmt, io};

/// Why a request or a dump failed.
#[derive(Debug)]
pub enum Fault {
    /// The kernel refused it.
    Refused(Refusal),
    /// The kernel ended a dump with an error, after a part of it.
    Cut(Refusal),
    /// A call on the socket failed: which, and why.
    Socket(&'static str, io::Error),
    /// No answer came within ten seconds. The kernel may have done what was asked.
    Silent,
    /// A malformed answer.
    Broken(&'static str),
    /// Messages were lost (`ENOBUFS` or `NLMSG_OVERRUN`). The kernel may have done what was asked.
    Lost,
    /// `NLM_F_DUMP_INTR`: something changed during the dump.
    Interrupted,
    /// Something changed during each of so many dumps.
    Changing(u32),
    /// The interface of this index is gone.
    NoInterface(u32),
    /// The name of the interface of this index isn't UTF-8, so that a save, which finds interfaces by name, can't name it.
    NoName(u32),
}

/// A refusal of the kernel.
#[derive(Clone, PartialEq, Eq, Debug)]
pub struct Refusal {
    /// The error, as a positive number.
    pub errno: i32,
    /// What the kernel says; empty if nothing.
    pub text: String,
    /// The offset of the attribute that it names, in bytes from the begin of the message.
    pub offset: Option<u32>,
}

impl Refusal {
    /// The error's name, such as `ENOENT`; its number if it has none.
    pub fn name(&self) -> String {
        match Errno::from_i32(self.errno) {
            Errno::UnknownErrno => self.errno.to_string(),
            Errno::EOPNOTSUPP => "EOPNOTSUPP".into(),
            errno => format!("{errno:?}"),
        }
    }

    /// True for this error.
    pub fn is(&self, errno: Errno) -> bool {
        self.errno == errno as i32
    }
}

impl fmt::Display for Refusal {
    fn fmt(&self, to: &mut fmt::Formatter<'_>) -> fmt::Result {
        Located { refusal: self, path: None }.fmt(to)
    }
}

/// A refusal, with the path of the attribute that it names, if that was found.
pub struct Located<'a> {
    pub refusal: &'a Refusal,
    /// As in lines of `tcshow`: `Options/Htb/Rate64`.
    pub path: Option<&'a str>,
}

impl fmt::Display for Located<'_> {
    fn fmt(&self, to: &mut fmt::Formatter<'_>) -> fmt::Result {
        let Located { refusal, path } = self;
        to.write_str(&refusal.name())?;
        if !refusal.text.is_empty() {
            write!(to, ": {}", Printable(&refusal.text))?;
        }
        let Some(offset) = refusal.offset else { return Ok(()) };
        if let Some(path) = path {
            write!(to, " at {}", Printable(path))?;
        }
        write!(to, " (byte {offset} of the netlink message)")
    }
}

impl fmt::Display for Fault {
    fn fmt(&self, to: &mut fmt::Formatter<'_>) -> fmt::Result {
        match self {
            Fault::Refused(refusal) => refusal.fmt(to),
            Fault::Cut(refusal) => write!(to, "the dump ended early: {refusal}"),
            Fault::Socket(call, error) => write!(to, "{call}: {error}"),
            Fault::Silent => to.write_str("the kernel doesn't answer"),
            Fault::Broken(what) => write!(to, "a broken answer: {what}"),
            Fault::Lost => to.write_str("messages were lost"),
            Fault::Interrupted => to.write_str("it changed while it was dumped"),
            Fault::Changing(times) => write!(to, "it changed while it was dumped, {times} times"),
            Fault::NoInterface(index) => write!(to, "there is no interface {index} any more"),
            Fault::NoName(index) => {
                write!(to, "the name of interface {index} isn't UTF-8, and a save finds interfaces by their names")
            }
        }
    }
}

impl std::error::Error for Fault {}

/// A text with control and other invisible characters escaped.
pub struct Printable<'a>(pub &'a str);

impl fmt::Display for Printable<'_> {
    fn fmt(&self, to: &mut fmt::Formatter<'_>) -> fmt::Result {
        for letter in self.0.chars() {
            match letter {
                ' '..='~' => fmt::Write::write_char(to, letter)?,
                _ => write!(to, "{}", letter.escape_default())?,
            }
        }
        Ok(())
    }
}
