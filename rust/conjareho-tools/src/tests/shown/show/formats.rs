//! The same messages in each format.

use crate::user::prelude::*;

use crate::show::program::options::OutputFormat;
use crate::tests::data::{FORMATS, Format, messages};
use crate::tests::shown::show::runs::{all_in, file_of_first, lines_of, shown};
use crate::user::Fail;
use core::str;

// True if a line is the one that is wanted, but for the number of its packet.
fn is_same(line: &str, want: &str) -> bool {
    match line.split_once("\"packet\":") {
        Some((front, number)) => match number.split_once(",") {
            Some((_, after)) => want.strip_prefix(front) == Some(after),
            None => false,
        },
        None => line == want,
    }
}

// True if a line of JSON is the one that is wanted, but for the time at its front.
fn is_untimed(line: &str, want: &str) -> bool {
    match want.strip_prefix("{\"time\":\"1700000000.123456000\",") {
        Some(rest) => line.strip_prefix("{") == Some(rest),
        None => line.is_empty() && want.is_empty(),
    }
}

// True if all lines are so.
fn are_same(text: &str, want: &str, has_times: bool) -> bool {
    let mut lines = want.split('\n');
    for line in text.split('\n') {
        match lines.next() {
            Some(want) if has_times && is_same(line, want) => {}
            Some(want) if !has_times && is_untimed(line, want) => {}
            _ => return false,
        }
    }
    lines.next().is_none()
}

// True if this is shown of an input, but for the numbers of packets, and the times where it has none.
fn is_shown(form: OutputFormat, input: &[u8], has_times: bool, want: &[u8]) -> bool {
    let run = shown(&all_in(form), input);
    let text = core::str::from_utf8(&run.written).unwrap_or("");
    let want = core::str::from_utf8(want).unwrap_or("");
    run.status == 0 && run.errors.is_empty() && are_same(text, want, has_times)
}

// The same of all messages in a format.
fn is_format_shown(form: OutputFormat, format: (Format, bool), want: &[u8]) -> Result<bool, Fail> {
    let file = file_of_first(20, format.0, format.1)?;
    Ok(is_shown(form, &file, true, want))
}

// The output for a stream of all messages.
fn of_stream(form: OutputFormat) -> Result<Vec<u8>, Fail> {
    let stream = file_of_first(20, Format::Stream, false)?;
    Ok(shown(&all_in(form), &stream).written)
}

// True if the same is shown of all formats, in so many lines at least.
fn are_formats_shown(form: OutputFormat) -> Result<bool, Fail> {
    let want = of_stream(form)?;
    for format in FORMATS {
        if !is_format_shown(form, format, &want)? {
            return Ok(false);
        }
    }
    let lines = lines_of(&want);
    Ok(lines == 20 || form == OutputFormat::Outline && 20 < lines)
}

// Lines of objects are left out: their verbs differ between a file of rtmon and a capture.
#[test]
fn each_format_is_shown_the_same() -> Result<(), Fail> {
    for form in [OutputFormat::Outline, OutputFormat::Json] {
        assert!(are_formats_shown(form)?);
    }
    Ok(())
}

static DIGITS: [u8; 16] = *b"0123456789abcdef";

fn put_byte(text: &mut Vec<u8>, byte: u8) -> Result<(), AllocError> {
    let (high, low) = (byte / 16, byte % 16);
    text.try_extend(&[DIGITS[high as usize], DIGITS[low as usize], b' '])
}

fn put_line(text: &mut Vec<u8>, message: &[u8]) -> Result<(), AllocError> {
    text.try_extend(b" \t")?;
    for byte in message {
        put_byte(text, *byte)?;
    }
    text.try_extend(b"# ab\r\n")
}

// Lines of hex, with blanks and comments.
fn hex_of(messages: &[Vec<u8>]) -> Result<Vec<u8>, AllocError> {
    let mut text = b"# messages\n\n".try_to_vec()?;
    for message in messages {
        put_line(&mut text, message)?;
    }
    Ok(text)
}

fn hex_of_all() -> Result<Vec<u8>, Fail> {
    let all = messages()?;
    Ok(hex_of(&all)?)
}

#[test]
fn hex_is_shown_the_same() -> Result<(), Fail> {
    let want = of_stream(OutputFormat::Json)?;
    let text = hex_of_all()?;
    assert!(is_shown(OutputFormat::Json, &text, false, &want));
    Ok(())
}
