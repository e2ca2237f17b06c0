//! The program `tcshow`: it does what its arguments say, over its streams and files.

use std::fs::File;
use std::io::{self, IsTerminal as _, Read, Write};

use clap::Parser as _;

use crate::host::HostRuntime;
use crate::host::io::{Input as _, Print};
use crate::host::rt::Files;
use crate::jiff_tz::TimeZone;
use crate::read::select::names_in;
use crate::show::differences::StateDiffer;
use crate::show::output::OutputFormat;
use crate::show::program::arguments::{Arguments, Task, TimeChoice};
use crate::show::program::complaints::{Failure, say_end};
use crate::show::program::filter::{FilterError, FilterValues};
use crate::show::program::kinds::{explain, is_known, put_schema_of_line, write_all_kinds};
use crate::show::program::options::Options;
use crate::show::program::run::{Ended, run};
use crate::show::program::view::View;
use crate::streams::{Reader, Stop, Writer, write_all};
use crate::zones::system_zone;

/// The comparison of two inputs (`--diff`).
pub trait Differ: Sized {
    /// Compares the two files in the arguments, and prints the differences. `has_refused` is true if there are any.
    fn diff<R: Files + crate::host::io::Input + Print, E: Write>(
        &self,
        rt: &R,
        arguments: &Arguments,
        errors: &mut E,
    ) -> Ended;
}

/// The whole program: reads its arguments, prints the messages of its input on standard output, and returns how it ended. Complaints are
/// written to `errors`.
pub fn tcshow(errors: &mut dyn Write) -> Ended {
    match arguments() {
        Ok(arguments) => obey(&arguments, errors).unwrap_or_else(|failure| failure.say(errors)),
        Err(Failure::Arguments(asked)) if !asked.use_stderr() => print(asked.to_string().as_bytes(), errors),
        Err(failure) => failure.say(errors),
    }
}

fn arguments() -> Result<Arguments, Failure<'static>> {
    let words: Result<Vec<String>, _> = std::env::args_os().map(|word| word.into_string()).collect();
    let mut arguments = Arguments::try_parse_from(words.map_err(|_| Failure::NoText)?).map_err(Failure::Arguments)?;
    let is_allowed = io::stdout().is_terminal() && std::env::var("NO_COLOR").map_or(true, |text| text.is_empty());
    arguments.in_colours = arguments.format() != OutputFormat::Json && arguments.output.colours.are_on(is_allowed);
    Ok(arguments)
}

fn obey<'a>(arguments: &'a Arguments, mut errors: &mut dyn Write) -> Result<Ended, Failure<'a>> {
    let mut text = Vec::new();
    match arguments.task() {
        Task::Show => return show(arguments, errors),
        Task::Diff if arguments.files().len() != 2 => return Err(Failure::NotTwoFiles),
        Task::Diff => return Ok(StateDiffer.diff(&HostRuntime, arguments, &mut errors)),
        Task::Schema => put_schema_of_line(&mut text)?,
        Task::Explain(None) => {
            let mut kinds = String::new();
            write_all_kinds(&mut kinds).map_err(|_| Failure::NoMemory)?;
            text = kinds.into_bytes();
        }
        Task::Explain(Some(kind)) if is_known(kind) => explain(kind, &mut text)?,
        Task::Explain(Some(kind)) => return Err(FilterError::Kind(kind).into()),
    }
    Ok(print(&text, errors))
}

// Writes a text on standard output.
fn print(text: &[u8], errors: &mut dyn Write) -> Ended {
    let mut writer = Writer::new(HostRuntime.out());
    match write_all(&mut writer, text) {
        Ok(()) | Err(Stop::Closed) => Ended::well(),
        Err(stop) => Failure::of_output(stop, &writer).say(errors),
    }
}

// Prints the messages of the files, of standard input, or of a stored capture.
fn show<'a>(arguments: &'a Arguments, errors: &mut dyn Write) -> Result<Ended, Failure<'a>> {
    let zone = match arguments.output.time {
        Some(TimeChoice::Local) => system_zone().map_err(Failure::Zone)?,
        _ => TimeZone::Utc,
    };
    let named =
        arguments.names().map(|path| std::fs::read_to_string(path).map_err(|error| Failure::File { path, error }));
    let named = named.transpose()?;
    let names = match (arguments.names(), &named) {
        (Some(path), Some(text)) => names_in(text).map_err(|line| Failure::Names { path, line })?,
        _ => Vec::new(),
    };
    let values = FilterValues::of_arguments(&arguments.filters, &names)?;
    let view = View { arguments, zone, names: &names };
    if let Some(example) = arguments.example() {
        return Ok(view.show("example", example.bytes(), values, errors));
    }
    match arguments.files().as_slice() {
        [] => Ok(view.show_file("-", values, errors)),
        [file] => Ok(view.show_file(file, values, errors)),
        _ if values.need_day() => Err(Failure::NoDay),
        files => Ok(view.show_each(files, &values, errors)),
    }
}

/// A file to read: standard input for `-`. With its name for complaints.
pub(crate) fn opened<'a>(file: &'a str) -> Result<(&'a str, File), Failure<'a>> {
    if file == "-" {
        return Ok((super::complaints::INPUT, HostRuntime.reader()));
    }
    File::open(file).map(|opened| (file, opened)).map_err(|error| Failure::File { path: file, error })
}

/// Prints the messages of an input of this name. Why it ended early is written to `errors`.
pub fn serve<R: Read, W: Write>(
    options: &Options<'_>,
    name: &str,
    reader: &mut Reader<R>,
    writer: &mut Writer<W>,
    errors: &mut dyn Write,
) -> Ended {
    let ended = run(options, reader, writer);
    say_end(errors, name, &ended, reader, writer);
    ended
}

/// Appends the lines of JSON of an input of this name. Why it ended early is written to `errors`.
pub fn put_json<R: Read, E: Write>(
    options: &Options<'_>,
    name: &str,
    reader: R,
    lines: &mut Vec<u8>,
    errors: &mut E,
) -> Ended {
    let options = Options { format: OutputFormat::Json, ..*options };
    serve(&options, name, &mut Reader::new(reader), &mut Writer::new(lines), errors)
}
