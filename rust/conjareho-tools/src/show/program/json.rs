//! Lines of JSON as an input, as `tcshow --json` and `tcsave` write them.

use std::io::{BufReader, Read, Write};

use serde_json::Value;

use crate::forms_kinds::{ACTION_MESSAGE, TC_MESSAGE, TcTables};
use crate::forms_text::read_json;
use crate::make::lines::Encoding;
use crate::make::lines::run::run;
use crate::make::messages::{Forms, Making, MessageMaker, is_head};
use crate::read::input::{Input, MOST_PIECE};
use crate::show::program::complaints::say_of;
use crate::streams::{Reader, Stop, Writer, cause_of};

/// The messages that lines of JSON show.
pub struct BuiltMessages {
    /// A capture or a stream.
    pub bytes: Vec<u8>,
    /// True if a line has an error.
    pub has_wrong: bool,
}

/// What is made of an input with these first bytes: a capture of lines of JSON with a time, a stream of other lines of JSON.
/// `None` for another input.
#[must_use]
pub fn encoding_by(first: &[u8]) -> Option<Encoding> {
    match first {
        [b'{', b'"', b't', b'i', ..] => Some(Encoding::Capture),
        [b'{', ..] => Some(Encoding::Stream),
        _ => None,
    }
}

/// The names of interfaces in the head of a save, by their indices. The first bytes of the save were read; more are, to the end of its first line,
/// but at most a MiB.
pub(crate) fn names_in_head<R: Read>(input: &mut Input, reader: &mut R) -> Result<Vec<(u32, String)>, Stop> {
    while input.rest().len() < MOST_PIECE && !input.rest().contains(&b'\n') {
        if !input.more(reader)? {
            break;
        }
    }
    let line = input.rest().split(|byte| *byte == b'\n').next().unwrap_or_default();
    Ok(read_json(line).map(|head| names_of(&head)).unwrap_or_default())
}

// The names in the head of a save. Another line has none.
fn names_of(head: &Value) -> Vec<(u32, String)> {
    let members = head.get("names").and_then(Value::as_object).filter(|_| is_head(head));
    let name = |(index, name): (&String, &Value)| Some((index.parse().ok()?, name.as_str()?.to_owned()));
    members.into_iter().flatten().filter_map(name).collect()
}

/// Makes the messages of all lines of JSON. Errors in lines, and why reading failed, are written to `errors`, after the name of the input.
///
/// # Errors
///
/// A [`Stop`].
pub fn made_of<R: Read>(
    name: &str,
    encoding: Encoding,
    reader: R,
    errors: &mut dyn Write,
) -> Result<BuiltMessages, Stop> {
    let forms = Forms { table: TcTables, tc: TC_MESSAGE, action: ACTION_MESSAGE };
    let maker = MessageMaker { forms, making: Making::Checked };
    let mut reader = BufReader::new(Reader::new(reader));
    let mut writer = Writer::new(Vec::new());
    let mut say =
        |number: u64, text: &dyn std::fmt::Display| say_of(errors, name, format_args!("line {number}: {text}"));
    let ended = run(&maker, encoding, &mut reader, &mut writer, &mut say);
    if let (Err(_), Some(error)) = (ended.outcome, reader.get_ref().failure()) {
        say_of(errors, name, cause_of(error));
    }
    ended.outcome.map(|()| BuiltMessages { bytes: writer.into_inner(), has_wrong: ended.has_refused })
}
