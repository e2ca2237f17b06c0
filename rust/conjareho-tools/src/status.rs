//! How the programs for sockets end, and what they say then.

use crate::netlink::Fault;
use crate::netlink::fault::Printable;
use ::clap::builder::StyledStr;
use ::clap::error::{ContextKind, ContextValue};
use ::clap::{ArgMatches, Command, Error};
use std::fmt;
use std::process::ExitCode;

/// An exit status.
#[derive(Clone, Copy, PartialEq, Eq, Debug)]
pub enum Status {
    /// The kernel refused something, or there is no such interface.
    Refused = 1,
    /// The arguments are wrong.
    Usage = 2,
    /// A socket, a stream or a file failed.
    Stream = 3,
}

/// Why a program ends early.
#[derive(Debug)]
pub struct Ending {
    pub status: Status,
    pub text: String,
}

impl Ending {
    pub fn new(status: Status, text: impl fmt::Display) -> Ending {
        Ending { status, text: text.to_string() }
    }

    pub fn no_interface(word: &str) -> Ending {
        Ending::new(Status::Refused, format!("there is no interface {}", Printable(word)))
    }

    /// Says why, in a line that begins with the name of the program, and returns the status.
    pub fn say(&self, program: &str) -> ExitCode {
        say(program, &self.text);
        ExitCode::from(self.status as u8)
    }
}

impl From<Fault> for Ending {
    fn from(fault: Fault) -> Ending {
        let status = match fault {
            Fault::Refused(_)
            | Fault::Cut(_)
            | Fault::Interrupted
            | Fault::Changing(_)
            | Fault::NoInterface(_)
            | Fault::NoName(_) => Status::Refused,
            Fault::Socket(..) | Fault::Silent | Fault::Broken(_) | Fault::Lost => Status::Stream,
        };
        Ending::new(status, fault)
    }
}

/// Writes a line to standard error, if that can be written to.
pub fn say(program: &str, text: impl fmt::Display) {
    use std::io::Write;
    let _ = writeln!(std::io::stderr(), "{program}: {text}");
}

/// What the arguments say. The status if they are wrong, or ask for the help or the version, which is printed then.
pub fn words_of(program: &str, command: Command) -> Result<ArgMatches, ExitCode> {
    let words: Result<Vec<String>, _> = std::env::args_os().map(|word| word.into_string()).collect();
    let Ok(words) = words else {
        return Err(Ending::new(Status::Usage, "an argument is no text").say(program));
    };
    command.try_get_matches_from(words).map_err(|error| {
        let is_wrong = error.use_stderr();
        print(error);
        if is_wrong { ExitCode::from(Status::Usage as u8) } else { ExitCode::SUCCESS }
    })
}

/// Prints a help, or a complaint about arguments, in which these can't control a terminal.
pub fn print(error: Error) {
    // What can't be printed isn't.
    let _ = printable(error).print();
}

// What a complaint has of the arguments is escaped. The rest is clap's own, and may be coloured.
fn printable(mut error: Error) -> Error {
    let safe = |text: &String| Printable(text).to_string();
    let escaped: Vec<(ContextKind, ContextValue)> = error
        .context()
        .filter_map(|(kind, value)| match value {
            ContextValue::String(text) => Some((kind, ContextValue::String(safe(text)))),
            ContextValue::Strings(texts) => Some((kind, ContextValue::Strings(texts.iter().map(safe).collect()))),
            ContextValue::StyledStrs(texts) => {
                let texts = texts.iter().map(|text| StyledStr::from(safe(&text.to_string())));
                Some((kind, ContextValue::StyledStrs(texts.collect())))
            }
            _ => None,
        })
        .collect();
    for (kind, value) in escaped {
        error.insert(kind, value);
    }
    error
}

#[cfg(test)]
mod tests {
    use super::*;
    use ::clap::{Arg, value_parser};

    #[test]
    fn arguments_are_escaped_in_complaints() {
        let command = || {
            let number = Arg::new("wait").long("wait").value_parser(value_parser!(u64));
            let choice = Arg::new("kind").long("kind").value_parser(["htb", "tbf"]);
            Command::new("it").arg(number).arg(choice).subcommand(Command::new("dump")).arg(Arg::new("file"))
        };
        for words in [
            ["--\u{1b}[31mx", "a"],
            ["--wait", "\u{1b}[31m"],
            ["--kind", "h\u{202e}tb"],
            ["a", "\u{1b}]0;x\u{7}"],
            ["--wait=1\n2", "a"],
            ["--\u{9b}31mx=\r", "a"],
        ] {
            let error = command().try_get_matches_from(["it"].iter().chain(&words)).expect_err("refused");
            let said = printable(error).to_string();
            let is_safe = |letter: char| letter == '\n' || (' '..='~').contains(&letter);
            assert!(said.chars().all(is_safe), "{words:?}: {said:?}");
            assert!(said.contains('\\'), "{words:?}: {said:?}");
        }
        let error = command().try_get_matches_from(["it", "--wait", "1\n2"]).expect_err("refused");
        assert!(printable(error).to_string().contains("1\\n2"));
    }
}
