//! Inputs, as the arguments ask for them: one after another, from lines of JSON too, as a tree, in colors.

use std::io::{Read, Write};

use crate::host::HostRuntime;
use crate::host::io::Print as _;
use crate::jiff_tz::TimeZone;
use crate::read::input::Input;
use crate::read::select::Filter;
use crate::show::colours::ColouredLines;
use crate::show::output::{OutputFormat, Printer};
use crate::show::program::arguments::Arguments;
use crate::show::program::complaints::{Failure, say_end, say_of};
use crate::show::program::day::first_time;
use crate::show::program::filter::FilterValues;
use crate::show::program::hint::{HINT, lacks_header};
use crate::show::program::json::{encoding_by, made_of, names_in_head};
use crate::show::program::options::{Options, options_of};
use crate::show::program::program::{opened, serve};
use crate::show::program::run::{Ended, run_next};
use crate::show::tree::tree_lines;
use crate::streams::{Coloured, Reader, Stop, Writer, write_all};

/// What is asked for of each input.
#[derive(Clone, Copy)]
pub(crate) struct View<'a> {
    pub(crate) arguments: &'a Arguments,
    /// The time zone of local times.
    pub(crate) zone: TimeZone<'a>,
    /// The names of interfaces.
    pub(crate) names: &'a [(u32, &'a str)],
}

impl<'a> View<'a> {
    /// Prints the messages of a file; of standard input for `-`.
    pub(crate) fn show_file(self, file: &str, values: FilterValues<'a>, errors: &mut dyn Write) -> Ended {
        match opened(file) {
            Ok((name, reader)) => self.show(name, reader, values, errors),
            Err(failure) => failure.say(errors),
        }
    }

    /// Prints the messages of an input of this name: of lines of JSON the messages that they show.
    pub(crate) fn show<R: Read>(
        self,
        name: &str,
        reader: R,
        values: FilterValues<'a>,
        errors: &mut dyn Write,
    ) -> Ended {
        let mut reader = Reader::new(reader);
        let mut input = match Input::begin(&mut reader) {
            Ok(input) => input,
            Err(stop) => return Failure::of_input(name, stop, &reader).say(errors),
        };
        let Some(encoding) = encoding_by(input.first()) else {
            let is_bare = self.arguments.without_header().is_none() && lacks_header(input.rest());
            let ended = self.show_bytes(name, input.rest().chain(reader.into_inner()), values, errors);
            if is_bare {
                say_of(errors, name, HINT);
            }
            return ended;
        };
        let saved = match names_in_head(&mut input, &mut reader) {
            Ok(saved) => saved,
            Err(stop) => return Failure::of_input(name, stop, &reader).say(errors),
        };
        // The caller's names come first.
        let saved = saved.iter().map(|(index, name)| (*index, name.as_str()));
        let names: Vec<(u32, &str)> = self.names.iter().copied().chain(saved).collect();
        let values = match FilterValues::of_arguments(&self.arguments.filters, &names) {
            Ok(values) => values,
            Err(error) => return Failure::Filter(error).say(errors),
        };
        let view = View { names: &names, ..self };
        match made_of(name, encoding, input.rest().chain(reader.into_inner()), errors) {
            Ok(made) => {
                let ended = if made.bytes.is_empty() {
                    Ended::well()
                } else {
                    view.show_bytes(name, made.bytes.as_slice(), values, errors)
                };
                Ended { has_refused: ended.has_refused || made.has_wrong, ..ended }
            }
            Err(Stop::NoMemory) => Failure::NoMemory.say(errors),
            Err(stop) => Ended::early(stop),
        }
    }

    // Prints the messages of a capture or of lines of hex. A time of day is in the day of its first packet that has a time, which is read before.
    fn show_bytes<R: Read>(self, name: &str, reader: R, mut values: FilterValues<'_>, errors: &mut dyn Write) -> Ended {
        if !values.need_day() {
            return self.show_filtered(name, reader, values.filter(), errors);
        }
        let mut reader = Reader::new(reader);
        let (first, time) = match first_time(&mut reader) {
            Ok(found) => found,
            Err(stop) => return Failure::of_input(name, stop, &reader).say(errors),
        };
        if let Some(time) = time {
            values.set_day(time);
        }
        self.show_filtered(name, first.rest().chain(reader.into_inner()), values.filter(), errors)
    }

    fn show_filtered<R: Read>(self, name: &str, reader: R, filter: Filter<'_>, errors: &mut dyn Write) -> Ended {
        let options = self.options(filter);
        let (mut reader, mut writer) = (Reader::new(reader), self.output());
        if !self.arguments.output.tree {
            return serve(&options, name, &mut reader, &mut writer, errors);
        }
        let mut lines = Vec::new();
        let ended = serve(&options, name, &mut reader, &mut Writer::new(&mut lines), errors);
        print_tree(&lines, ended, &mut writer, errors)
    }

    fn options<'b>(&self, filter: Filter<'b>) -> Options<'b>
    where
        'a: 'b,
    {
        options_of(self.arguments, self.zone, filter, self.names)
    }

    // Standard output, in colors if the arguments ask for them.
    fn output(&self) -> Writer<Box<dyn Write>> {
        let output = HostRuntime.out();
        Writer::new(match self.arguments.format() {
            OutputFormat::Outline if self.arguments.in_colours => Box::new(Coloured::new(output)),
            OutputFormat::Lines(_) if self.arguments.in_colours && !self.arguments.output.tree => {
                Box::new(ColouredLines::new(output))
            }
            _ => Box::new(output),
        })
    }

    /// Prints the messages of several files, one after another, and one summary.
    pub(crate) fn show_each(self, files: &[&str], values: &FilterValues<'_>, errors: &mut dyn Write) -> Ended {
        let options = self.options(values.filter());
        let mut printer = Printer::new(&options);
        let mut writer = self.output();
        let mut worst = Ended::well();
        for file in files {
            let ended = self.show_next(&mut printer, file, &mut writer, errors);
            worst = worst.or_worse(ended);
            if ended.stops_output() {
                return worst;
            }
        }
        printer.restart();
        let ended = match printer.put_summary().map_err(Stop::from).and_then(|()| printer.write(&mut writer)) {
            Ok(()) | Err(Stop::Closed) => Ended::well(),
            Err(Stop::NoMemory) => Failure::NoMemory.say(errors),
            Err(stop) => Failure::of_output(stop, &writer).say(errors),
        };
        worst.or_worse(ended)
    }

    fn show_next<W: Write>(
        &self,
        printer: &mut Printer<'_>,
        file: &str,
        writer: &mut Writer<W>,
        errors: &mut dyn Write,
    ) -> Ended {
        if !self.arguments.output.tree {
            return serve_next(printer, file, writer, errors);
        }
        let mut lines = Vec::new();
        let ended = serve_next(printer, file, &mut Writer::new(&mut lines), errors);
        print_tree(&lines, ended, writer, errors)
    }
}

// Prints the name of the next of several inputs, and its messages. Why it ended early is written to `errors`.
fn serve_next<W: Write>(
    printer: &mut Printer<'_>,
    file: &str,
    writer: &mut Writer<W>,
    errors: &mut dyn Write,
) -> Ended {
    let (name, reader) = match opened(file) {
        Ok(opened) => opened,
        Err(failure) => return failure.say(errors),
    };
    let mut reader = Reader::new(reader);
    printer.restart();
    if printer.put_name(name).is_err() {
        return Failure::NoMemory.say(errors);
    }
    let ended = run_next(printer, &mut reader, writer);
    say_end(errors, name, &ended, &reader, writer);
    ended
}

// Prints these lines as a tree, after a run that ended so.
fn print_tree<W: Write>(lines: &[u8], ended: Ended, writer: &mut Writer<W>, errors: &mut dyn Write) -> Ended {
    let mut tree = Vec::new();
    if tree_lines(&mut tree, lines).is_err() {
        return Failure::NoMemory.say(errors);
    }
    match write_all(writer, &tree) {
        Ok(()) => ended,
        Err(Stop::Closed) => Ended { outcome: Err(Stop::Closed), ..ended },
        Err(stop) => Failure::of_output(stop, writer).say(errors),
    }
}
