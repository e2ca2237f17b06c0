//! A whole run.

use std::io::{BufReader, Read, Write};

use crate::fallible::AllocError;
use crate::forms_json::Tables;
use crate::make::lines::run::run as run_lines;
use crate::make::lines::{Answer, Maker};
use crate::make::messages::{BuiltMessage, Forms, Making, MessageMaker, notices_of};
use crate::make::program::arguments::Options;
use crate::make::program::order::{RequestOptions, restore_in_order};
use crate::make::requests::complaint::Complaint;
use crate::make::requests::lines::dump_in_line;
use crate::make::requests::order::MADE_BY_ANOTHER;
use crate::make::requests::restore::restored;
use crate::streams::{Ended, Reader, Writer, shown_reason, write_text};

/// Makes messages of all lines of an input. Complaints, and what was settled, are written to `errors`.
pub fn run<T: Tables, R: Read, W: Write>(
    forms: Forms<T>,
    options: &Options,
    requests: &RequestOptions<'_>,
    reader: &mut BufReader<Reader<R>>,
    writer: &mut Writer<W>,
    mut errors: &mut dyn Write,
) -> Ended {
    if options.making == Making::Restored && !options.in_order {
        let mut has_refused = false;
        let restored = restore_in_order(forms, options, requests, reader, writer, errors, &mut has_refused);
        let outcome = restored.map_err(|stop| shown_reason(reader.get_ref(), writer, stop));
        return Ended { outcome, has_refused };
    }
    let mut say = |number: u64, text: &dyn std::fmt::Display| {
        let _ = write_text(&mut errors, &format!("tcmake: line {number}: {text}\n"));
    };
    match options.making {
        Making::Restored => {
            let maker = RequestMaker { forms, index: requests.index, verbose: options.verbose };
            run_lines(&maker, options.form, reader, writer, &mut say)
        }
        making => run_lines(&MessageMaker { forms, making }, options.form, reader, writer, &mut say),
    }
}

// What makes requests of lines that show dumps.
struct RequestMaker<T> {
    forms: Forms<T>,
    index: Option<i32>,
    verbose: bool,
}

impl<T: Tables> Maker for RequestMaker<T> {
    fn make(&self, line: Vec<u8>) -> Result<Answer, AllocError> {
        match self.request_in(line) {
            Ok(Some(BuiltMessage { given, bytes, settled })) => {
                Ok(Answer::Message { given, bytes, notices: notices_of(&settled) })
            }
            Ok(None) => Ok(Answer::Nothing { notice: None }),
            Err(complaint) if complaint.is_no_memory() => Err(AllocError),
            Err(complaint) if complaint.is_made_by_another() => {
                Ok(Answer::Nothing { notice: self.verbose.then(|| MADE_BY_ANOTHER.to_owned()) })
            }
            Err(complaint) => Ok(Answer::Complaint(complaint.to_string())),
        }
    }
}

impl<T: Tables> RequestMaker<T> {
    // The request that restores what a line shows.
    fn request_in(&self, line: Vec<u8>) -> Result<Option<BuiltMessage>, Complaint> {
        dump_in_line(self.forms, self.index, line)?.map(|dump| restored(&[], &dump)).transpose()
    }
}
