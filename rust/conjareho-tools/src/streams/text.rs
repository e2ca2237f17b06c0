//! Texts for a terminal.

use std::io::{Error, Write};

use super::{Stop, write_all};
use crate::tc_texts::put_escaped_byte;

/// Writes a text as a terminal gets it: printable ASCII and line feeds as they are, and each other byte as `\x1b`.
///
/// # Errors
///
/// As [`write_all`].
pub fn write_text<W: Write>(writer: &mut W, text: &str) -> Result<(), Stop> {
    let mut out = Vec::with_capacity(text.len());
    for byte in text.bytes() {
        match byte {
            b'\n' => out.push(byte),
            _ => put_escaped_byte(&mut out, byte)?,
        }
    }
    write_all(writer, &out)
}

/// What an error of the system says, without its number: `No such file or directory`.
#[must_use]
pub fn cause_of(error: &Error) -> String {
    let text = error.to_string();
    let number = error.raw_os_error().map(|number| format!(" (os error {number})"));
    number.and_then(|number| text.strip_suffix(&number).map(String::from)).unwrap_or(text)
}
