//! The message that is built from a line.

use crate::forms_json::Tables;
use crate::forms_text::{Difference, ReadError, read_json};
use crate::make::lines::NetlinkHeader;
use crate::make::messages::error::LineError;
use crate::make::messages::given::{given_of, is_answer, line_in};
use crate::make::messages::making::Making;
use crate::make::messages::message::{Forms, Message, message_of};
use crate::make::messages::save::is_of_save;
use serde_json::Value;

/// A message that is built from a line, with the netlink header that the line describes.
pub struct BuiltMessage {
    pub given: NetlinkHeader,
    pub bytes: Vec<u8>,
    /// The places that settling changed.
    pub settled: Vec<Difference>,
}

/// The message of a line, which is freed once it is read. An answer of the kernel, and the first and the last line of a save, have none.
///
/// # Errors
///
/// Why none is made of it.
pub fn made_of<T: Tables>(forms: Forms<T>, line: Vec<u8>, making: Making) -> Result<Option<BuiltMessage>, LineError> {
    let json = json_in(line)?;
    if is_answer(&json) || is_of_save(&json) {
        return Ok(None);
    }
    made_of_json(forms, &json, making).map(Some)
}

/// The JSON of a line, which is freed.
///
/// # Errors
///
/// Why it isn't read.
pub fn json_in(line: Vec<u8>) -> Result<Value, LineError> {
    read_json(&line).map_err(|error| match error {
        ReadError::OutOfMemory => LineError::NoMemory,
        ReadError::NotJson { .. } if is_one_part(&line) => LineError::OnePart,
        error => LineError::Read(error),
    })
}

/// The message of JSON that isn't an answer of the kernel, nor the first or the last line of a save.
///
/// # Errors
///
/// A [`LineError`].
pub fn made_of_json<T: Tables>(forms: Forms<T>, json: &Value, making: Making) -> Result<BuiltMessage, LineError> {
    let line = line_in(json)?;
    let shown = json.get("message").unwrap_or(json);
    let given = given_of(&line, shown)?;
    let Message { bytes, settled } = message_of(forms, making, given.holds, &line, shown)?;
    Ok(BuiltMessage { given, bytes, settled })
}

// True of a line of JSON that is written on several lines: a bracket alone, or what is indented.
fn is_one_part(line: &[u8]) -> bool {
    matches!(line.trim_ascii(), b"{" | b"}" | b"}," | b"[" | b"]" | b"],")
        || matches!(line, [b' ', b' ', ..] | [b'\t', ..])
}
