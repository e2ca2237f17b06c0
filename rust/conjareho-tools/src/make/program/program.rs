//! The program `tcmake`: it does over its streams what its arguments say.

use std::io::{BufReader, Read, Write};
use std::{fmt, io};

use clap::Parser as _;

use crate::forms_json::Tables;
use crate::host::HostRuntime;
use crate::host::io::{Input as _, Print as _};
use crate::make::messages::Forms;
use crate::make::program::arguments::{Arguments, Options};
use crate::make::program::order::RequestOptions;
use crate::make::program::run::run;
use crate::read::select::names_in;
use crate::streams::{Ended, Reader, Stop, Writer, cause_of, write_all, write_text};

/// Why no line is read.
enum Failure {
    NoText,
    Arguments(clap::Error),
    File { path: String, error: io::Error },
    Names { path: String, line: u64 },
}

impl fmt::Display for Failure {
    fn fmt(&self, f: &mut fmt::Formatter<'_>) -> fmt::Result {
        match self {
            Failure::NoText => f.write_str("tcmake: an argument is not valid UTF-8\n"),
            Failure::Arguments(error) => error.fmt(f),
            Failure::File { path, error } => writeln!(f, "tcmake: {path}: {}", cause_of(error)),
            Failure::Names { path, line } => {
                writeln!(
                    f,
                    "tcmake: {path}: line {line}: found no index and name, wanted lines as ip -o link writes them"
                )
            }
        }
    }
}

const NO_MEMORY: &str = "tcmake: out of memory\n";

/// The whole program: reads its arguments, makes messages of the lines of standard input, and writes them to standard output.
/// Complaints are written to `errors`.
pub fn tcmake<T: Tables>(forms: Forms<T>, mut errors: &mut dyn Write) -> Ended {
    match obey(forms, errors) {
        Ok(ended) => ended,
        Err(Failure::Arguments(asked)) if !asked.use_stderr() => {
            Ended { outcome: write_all(&mut HostRuntime.out(), asked.to_string().as_bytes()), has_refused: false }
        }
        Err(failure) => {
            let _ = write_text(&mut errors, &failure.to_string());
            Ended::early(Stop::Usage)
        }
    }
}

// Reads the arguments and the files that they name, and then the lines.
fn obey<T: Tables>(forms: Forms<T>, errors: &mut dyn Write) -> Result<Ended, Failure> {
    let words: Result<Vec<String>, _> = std::env::args_os().map(|word| word.into_string()).collect();
    let arguments = Arguments::try_parse_from(words.map_err(|_| Failure::NoText)?).map_err(Failure::Arguments)?;
    let now = arguments.now().map(read).transpose()?;
    let named = arguments.names().map(read).transpose()?;
    let names = match (arguments.names(), &named) {
        (Some(path), Some(text)) => {
            Some(names_in(text).map_err(|line| Failure::Names { path: path.to_owned(), line })?)
        }
        _ => None,
    };
    let options = arguments.options();
    let requests = RequestOptions {
        index: options.index,
        now: now.as_deref().map(str::as_bytes),
        plans: arguments.plans(),
        replaces_actions: arguments.replaces_actions(),
        names: names.as_deref(),
    };
    let mut reader = BufReader::new(Reader::new(HostRuntime.reader()));
    let mut writer = Writer::new(HostRuntime.out());
    Ok(serve_with(forms, &options, &requests, &mut reader, &mut writer, errors))
}

fn read(path: &str) -> Result<String, Failure> {
    std::fs::read_to_string(path).map_err(|error| Failure::File { path: path.to_owned(), error })
}

/// Makes messages of all lines of an input. Complaints, and why it ended early, are written to `errors`.
pub fn serve<T: Tables, R: Read, W: Write>(
    forms: Forms<T>,
    options: &Options,
    reader: &mut BufReader<Reader<R>>,
    writer: &mut Writer<W>,
    errors: &mut dyn Write,
) -> Ended {
    let requests =
        RequestOptions { index: options.index, now: None, plans: false, replaces_actions: false, names: None };
    serve_with(forms, options, &requests, reader, writer, errors)
}

/// Makes messages of all lines of an input, with options for requests. Complaints, and why it ended early, are written to `errors`.
pub fn serve_with<T: Tables, R: Read, W: Write>(
    forms: Forms<T>,
    options: &Options,
    requests: &RequestOptions<'_>,
    reader: &mut BufReader<Reader<R>>,
    writer: &mut Writer<W>,
    mut errors: &mut dyn Write,
) -> Ended {
    let ended = run(forms, options, requests, reader, writer, errors);
    let failure = match ended.outcome {
        Ok(()) | Err(Stop::Closed | Stop::Usage | Stop::NoCapture | Stop::NoRoute) => None,
        Err(Stop::Read) => {
            reader.get_ref().failure().map(|error| format!("tcmake: standard input: {}\n", cause_of(error)))
        }
        Err(Stop::Write) => writer.failure().map(|error| format!("tcmake: standard output: {}\n", cause_of(error))),
        Err(Stop::NoMemory) => Some(NO_MEMORY.to_owned()),
    };
    if let Some(text) = failure {
        let _ = write_text(&mut errors, &text);
    }
    ended
}
