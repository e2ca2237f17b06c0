//! Runs in memory.

use crate::user::prelude::*;

use crate::forms_kinds::{ACTION_MESSAGE, TC_MESSAGE, TcTables};
use std::io::BufReader;
use crate::make::lines::Encoding;
use crate::make::messages::{Forms, Making};
use crate::make::program::arguments::Options;
use crate::make::program::program::serve;
use crate::streams::{Reader, Writer};

/// The forms of both messages.
pub(crate) const FORMS: Forms<TcTables> = Forms { table: TcTables, tc: TC_MESSAGE, action: ACTION_MESSAGE };

/// The options without arguments.
pub(crate) const HEX: Options =
    Options { form: Encoding::Hex, making: Making::Checked, in_order: false, index: None, verbose: false };

/// A capture instead of lines of hex.
pub(crate) const PCAP: Options =
    Options { form: Encoding::Capture, making: Making::Checked, in_order: false, index: None, verbose: false };

/// Messages one after the other instead of lines of hex.
pub(crate) const STREAM: Options =
    Options { form: Encoding::Stream, making: Making::AsGiven, in_order: false, index: None, verbose: false };

/// Messages without a netlink header, made so.
pub(crate) fn bare(making: Making) -> Options {
    Options { form: Encoding::Bare, making, in_order: false, index: None, verbose: false }
}

/// The output of a run, and its status.
pub(crate) struct Outcome {
    pub(crate) status: u8,
    pub(crate) written: Vec<u8>,
    pub(crate) errors: Vec<u8>,
}

/// A run over lines.
pub(crate) fn made(options: &Options, lines: &[u8]) -> Outcome {
    let mut writer = Writer::new(Vec::new());
    let mut errors = Vec::new();
    let mut reader = BufReader::new(Reader::new(lines));
    let status = serve(FORMS, options, &mut reader, &mut writer, &mut errors).status();
    Outcome { status, written: writer.into_inner(), errors }
}

/// True if a run over lines ends with this status, having written these bytes and said this.
pub(crate) fn makes(options: &Options, lines: &[u8], status: u8, written: &[u8], errors: &str) -> bool {
    let run = made(options, lines);
    run.status == status && run.written.as_slice() == written && run.errors.as_slice() == errors.as_bytes()
}

/// True if these bytes are a line of this text after this start.
pub(crate) fn is_line(bytes: &[u8], start: &str, text: &str) -> bool {
    match bytes.strip_prefix(start.as_bytes()) {
        Some(rest) => rest.strip_suffix(b"\n") == Some(text.as_bytes()),
        None => false,
    }
}

/// True if a run over one line writes this line of hex, and ends well, or writes nothing where there is no hex; and says this of the line, if
/// there is anything to say.
pub(crate) fn makes_line(options: &Options, line: &str, hex: &str, said: &str) -> bool {
    let run = made(options, line.as_bytes());
    let is_written = if hex.is_empty() {
        run.status == 1 && run.written.is_empty()
    } else {
        run.status == 0 && is_line(&run.written, "", hex)
    };
    is_written && if said.is_empty() { run.errors.is_empty() } else { is_line(&run.errors, "tcmake: line 1: ", said) }
}
