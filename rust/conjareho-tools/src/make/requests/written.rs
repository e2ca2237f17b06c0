//! Requests and remarks, written.

use std::io::Write;

use crate::make::lines::{Encoding, Output};
use crate::make::requests::lines::{Remark, RemarkKind, Source};
use crate::make::requests::order::LineRequest;
use crate::streams::{Stop, write_text};

/// Writes the remarks on lines. That a dump needs no request is written with `verbose` only.
pub fn write_remarks(remarks: &[Remark], verbose: bool, plans: bool, mut errors: &mut dyn Write) {
    for Remark { source, number, kind, text } in remarks {
        let place = match source {
            Source::Wanted => "line",
            Source::Now if plans => "--plan, line",
            Source::Now => "--now, line",
        };
        if *kind != RemarkKind::Made || verbose {
            let _ = write_text(&mut errors, &format!("tcmake: {place} {number}: {text}\n"));
        }
    }
}

/// Writes requests in order, and complaints about those that can't be written. True if there is one.
///
/// # Errors
///
/// Writing them failed.
pub fn write_requests<W: Write>(
    encoding: Encoding,
    requests: &[LineRequest],
    writer: &mut W,
    mut errors: &mut dyn Write,
) -> Result<bool, Stop> {
    let (mut output, mut has_refused) = (Output::new(encoding), false);
    for request in requests {
        if let Err(why) = output.put(&request.given, &request.bytes) {
            let _ = write_text(&mut errors, &format!("tcmake: line {}: {why}\n", request.number));
            has_refused = true;
        }
        output.write(writer)?;
    }
    output.end();
    output.write(writer)?;
    Ok(has_refused)
}
