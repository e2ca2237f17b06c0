//! What `tcshow --diff` does: it reads two dumps or saves, and prints their differences.

use crate::user::prelude::*;

use crate::forms_kinds::{ACTION_MESSAGE, TC_MESSAGE, TcTables};
use crate::host::io::{BufReader, Input, Print, Read, Write};
use crate::host::rt::Files;
use crate::host::{fs, io};
use crate::make::messages::Forms;
use crate::make::program::plans::{LineState, state_of_lines};
use crate::make::requests::lines::RemarkKind;
use crate::plan::objects::State;
use crate::read::input::Input as Begun;
use crate::read::select::Filter;
use crate::show::differences::lines::{DifferenceLines, difference_lines};
use crate::show::output::Stop;
use crate::show::program::arguments::Arguments;
use crate::read::select::names_in;
use crate::show::program::options::{TimeZone, options_of};
use crate::show::program::program::{Differ, put_json};
use crate::show::program::run::Ended;
use crate::streams::{Reader, Writer, cause_of, write_all, write_text};

/// The comparison of two states.
#[derive(Clone, Copy)]
pub struct StateDiffer;

impl Differ for StateDiffer {
    fn diff<R: Files + Input + Print, E: Write>(&self, rt: &R, arguments: &Arguments, errors: &mut E) -> Ended {
        match diff_files(rt, arguments, errors) {
            Ok(has_refused) => Ended { has_refused, ..Ended::well() },
            Err(Stop::NoMemory) => {
                let _ = write_all(errors, b"tcshow: out of memory\n");
                Ended::early(Stop::NoMemory)
            }
            Err(stop) => Ended::early(stop),
        }
    }
}

// Compares two files, with the names of interfaces in a third one, if there is one. True if they differ.
fn diff_files<R: Files + Input + Print, E: Write>(rt: &R, arguments: &Arguments, errors: &mut E) -> Result<bool, Stop> {
    let Some(path) = arguments.names() else {
        return diff_with(rt, arguments, &[], errors);
    };
    let text = match fs::read_to_string(rt, path) {
        Ok(text) => text,
        Err(error) => return fail_for(path, &error, Stop::Usage, errors),
    };
    match names_in(text.as_str()) {
        Ok(names) => diff_with(rt, arguments, names.as_slice(), errors),
        Err(line) => {
            let what = crate::user::formatted(format_args!("line {line}: found no index and name"))?;
            fail(path, what.as_str(), Stop::Usage, errors)
        }
    }
}

fn diff_with<R: Files + Input + Print, E: Write>(
    rt: &R,
    arguments: &Arguments,
    names: &[(u32, &str)],
    errors: &mut E,
) -> Result<bool, Stop> {
    let files = arguments.files();
    let [first, second] = files.as_slice() else {
        return Err(Stop::Usage);
    };
    let before = state_of_file(rt, arguments, *first, None, errors)?;
    let after = state_of_file(rt, arguments, *second, Some(&before.state), errors)?;
    let (was, is) = (&before.state, &after.state);
    let own = names_of(&after.names)?;
    let DifferenceLines { text, differ } =
        if names.is_empty() { difference_lines(&own, was, is)? } else { difference_lines(names, was, is)? };
    print(rt, &text, errors)?;
    Ok(differ)
}

// The state that a file shows, and the names of interfaces that it has.
struct NamedState {
    state: State,
    names: Vec<(u32, String)>,
}

fn names_of(names: &[(u32, String)]) -> Result<Vec<(u32, &str)>, AllocError> {
    let mut all = fallible::with_capacity(names.len())?;
    for (index, name) in names {
        all.try_push((*index, name.as_str()))?;
    }
    Ok(all)
}

// Writes a text on standard output.
fn print<R: Print, E: Write>(rt: &R, text: &[u8], errors: &mut E) -> Result<(), Stop> {
    let mut writer = Writer::new(io::writer(rt));
    match write_all(&mut writer, text) {
        Ok(()) | Err(crate::streams::Stop::Closed) => Ok(()),
        Err(stop) => match writer.failure() {
            Some(error) => fail_for("standard output", &error, Stop::from(stop), errors),
            None => Err(Stop::from(stop)),
        },
    }
}

// ---- Reading

// The state that a file shows: a capture, hex, or lines of JSON.
fn state_of_file<R: Files + Input, E: Write>(
    rt: &R,
    arguments: &Arguments,
    name: &str,
    there: Option<&State>,
    errors: &mut E,
) -> Result<NamedState, Stop> {
    if name == "-" {
        return state_of_reader(arguments, "standard input", rt.reader(), there, errors);
    }
    match fs::open(rt, name) {
        Ok(reader) => state_of_reader(arguments, name, reader, there, errors),
        Err(error) => fail_for(name, &error, Stop::Usage, errors),
    }
}

fn state_of_reader<I: Read, E: Write>(
    arguments: &Arguments,
    name: &str,
    reader: I,
    there: Option<&State>,
    errors: &mut E,
) -> Result<NamedState, Stop> {
    let mut reader = Reader::new(reader);
    match Begun::begin(&mut reader) {
        Ok(input) => {
            let is_json = input.first().first() == Some(&b'{');
            let whole = input.rest().chain(reader.into_inner());
            if is_json {
                state_of_json(name, whole, there, errors)
            } else {
                state_of_capture(arguments, name, whole, there, errors)
            }
        }
        Err(stop) => fail_to_read(name, &reader, stop, errors),
    }
}

// The state that lines of JSON show.
fn state_of_json<I: Read, E: Write>(
    name: &str,
    reader: I,
    there: Option<&State>,
    errors: &mut E,
) -> Result<NamedState, Stop> {
    let mut reader = match BufReader::new(Reader::new(reader)) {
        Ok(reader) => reader,
        Err(_) => return Err(Stop::NoMemory),
    };
    match state_of_lines(FORMS, there, &mut reader) {
        Ok(found) => state_found(name, found, errors),
        Err(stop) => fail_to_read(name, reader.get_ref(), stop, errors),
    }
}

const FORMS: Forms<TcTables> = Forms { table: TcTables, tc: TC_MESSAGE, action: ACTION_MESSAGE };

// The state that a capture or hex shows, by the lines that `tcshow --json` prints of it.
fn state_of_capture<I: Read, E: Write>(
    arguments: &Arguments,
    name: &str,
    reader: I,
    there: Option<&State>,
    errors: &mut E,
) -> Result<NamedState, Stop> {
    let options = options_of(arguments, TimeZone::Utc, Filter::ALL, &[]);
    let mut lines = Vec::new();
    let ended = put_json(&options, name, reader, &mut lines, errors);
    ended.outcome?;
    if ended.has_refused {
        return fail(name, MALFORMED, Stop::Read, errors);
    }
    let mut text = lines.as_slice();
    let found = state_of_lines(FORMS, there, &mut text)?;
    state_found(name, found, errors)
}

const MALFORMED: &str = "a message is malformed, or the input is cut; tcshow without --diff shows where";

// The state of lines with which nothing is wrong. Complaints are written, with the numbers of their lines.
fn state_found<E: Write>(name: &str, found: LineState, errors: &mut E) -> Result<NamedState, Stop> {
    let LineState { state, names, remarks } = found;
    for remark in &remarks {
        if remark.kind == RemarkKind::Complaint {
            let (number, text) = (remark.number, remark.text.as_str());
            let what = crate::user::formatted(format_args!("line {number}: {text}"))?;
            put_complaint(name, what.as_str(), errors)?;
        }
    }
    match state {
        Some(state) => Ok(NamedState { state, names }),
        None => Err(Stop::Read),
    }
}

// ---- Complaints

fn put_complaint<E: Write>(name: &str, what: &str, errors: &mut E) -> Result<(), Stop> {
    let text = crate::user::formatted(format_args!("tcshow: {name}: {what}\n"))?;
    let _ = write_text(errors, text.as_str());
    Ok(())
}

// Complains, and ends for this reason.
fn fail<T, E: Write>(name: &str, what: &str, stop: Stop, errors: &mut E) -> Result<T, Stop> {
    put_complaint(name, what, errors)?;
    Err(stop)
}

// The same of an error of the system.
fn fail_for<T, E: Write>(name: &str, error: &io::Error, stop: Stop, errors: &mut E) -> Result<T, Stop> {
    let cause = cause_of(error);
    fail(name, cause.as_str(), stop, errors)
}

// The same of a read that failed.
fn fail_to_read<T, I, E: Write>(
    name: &str,
    reader: &Reader<I>,
    stop: crate::streams::Stop,
    errors: &mut E,
) -> Result<T, Stop> {
    match reader.failure() {
        Some(error) => fail_for(name, &error, Stop::from(stop), errors),
        None => Err(Stop::from(stop)),
    }
}
