//! Streams that fail, that are interrupted, and that are closed.

use crate::user::prelude::*;

use crate::host::io::ErrorKind;
use crate::show::program::options::OutputFormat;
use crate::show::program::program::serve;
use crate::streams::{Reader, Writer};
use crate::tests::data::Format;
use crate::tests::data::FORMATS;
use crate::tests::data::streams::{ByBytes, Stream, calls, slowly};
use crate::tests::shown::show::runs::{Outcome, all_in, file_of_first, is_front, shown};
use crate::user::Fail;

// A run over streams of so many calls.
fn run(file: &[u8], reader: Stream, writer: Stream) -> Outcome {
    let mut from = slowly(file, reader);
    let mut to = slowly(Vec::new(), writer);
    let mut errors = Vec::new();
    let options = all_in(OutputFormat::Lines(false));
    let ended = serve(&options, "input", &mut Reader::new(&mut from), &mut Writer::new(&mut to), &mut errors);
    Outcome { status: ended.status(), written: to.inner, errors }
}

// A file, and the output for it.
struct Answered {
    file: Vec<u8>,
    written: Vec<u8>,
}

// True if a run over such streams writes the front of what is written, and ends with this status and complaint.
fn ends(whole: &Answered, streams: (Stream, Stream), end: (u8, &str)) -> bool {
    let run = run(&whole.file, streams.0, streams.1);
    run.status == end.0 && is_front(&run.written, &whole.written) && run.errors.as_slice() == end.1.as_bytes()
}

// True if a run writes all whose streams are interrupted as often as they may be.
fn is_whole(whole: &Answered) -> bool {
    let run = run(&whole.file, calls(reads_of(whole), 1023), calls(999, 1023));
    run.status == 0 && run.written == whole.written
}

// How many reads take all of a file and find its end.
fn reads_of(whole: &Answered) -> usize {
    (whole.file.len() / 7).saturating_add(2)
}

// A stream of two messages.
fn stored() -> core::result::Result<Answered, Fail> {
    let file = file_of_first(2, Format::Stream, false)?;
    let written = shown(&all_in(OutputFormat::Lines(false)), &file).written;
    Ok(Answered { file, written })
}

static READ_FAILED: (u8, &str) = (3, "tcshow: input: timed out\n");

static WRITE_FAILED: (u8, &str) = (3, "tcshow: standard output: timed out\n");

#[test]
fn each_read_fails() -> core::result::Result<(), Fail> {
    let whole = stored()?;
    for count in 0..reads_of(&whole) {
        let streams = (calls(count, 1), calls(999, 1));
        assert!(ends(&whole, streams, READ_FAILED), "{count} reads");
    }
    assert!(is_whole(&whole));
    // interrupted too often
    let streams = (calls(reads_of(&whole), 1024), calls(999, 0));
    assert!(ends(&whole, streams, READ_FAILED));
    Ok(())
}

#[test]
fn each_write_fails() -> core::result::Result<(), Fail> {
    let whole = stored()?;
    for count in 0..4usize {
        let streams = (calls(999, 0), calls(count, 0));
        assert!(ends(&whole, streams, WRITE_FAILED), "{count} writes");
        // one that is closed is no failure
        let closed = (calls(999, 0), (count, 0, ErrorKind::BrokenPipe));
        assert!(ends(&whole, closed, (0, "")), "{count} writes");
    }
    // interrupted too often
    let streams = (calls(reads_of(&whole), 0), calls(999, 1024));
    assert!(ends(&whole, streams, WRITE_FAILED));
    Ok(())
}

// A run whose input ends with an error after so many bytes, or whose output does.
fn run_by_bytes(form: OutputFormat, file: &[u8], reads: usize, (writes, fault): (usize, ErrorKind)) -> Outcome {
    let mut from = ByBytes { inner: file, left: reads, fault: ErrorKind::TimedOut };
    let mut to = ByBytes { inner: Vec::new(), left: writes, fault };
    let mut errors = Vec::new();
    let ended = serve(&all_in(form), "input", &mut Reader::new(&mut from), &mut Writer::new(&mut to), &mut errors);
    Outcome { status: ended.status(), written: to.inner, errors }
}

// Forms of which a run writes what it has read before it fails.
const FORMS: [OutputFormat; 3] = [OutputFormat::Lines(false), OutputFormat::Json, OutputFormat::Outline];

const MANY: usize = 1 << 20;

#[test]
fn each_byte_of_an_input_fails() -> core::result::Result<(), Fail> {
    for (format, is_big) in FORMATS {
        let file = file_of_first(2, format, is_big)?;
        let forms = if matches!(format, Format::Stream) { &FORMS[..] } else { &FORMS[..1] };
        for form in forms.iter().copied() {
            let whole = shown(&all_in(form), &file).written;
            for count in 0..=file.len() {
                let run = run_by_bytes(form, &file, count, (MANY, ErrorKind::TimedOut));
                assert!(run.status == 3 && is_front(&run.written, &whole), "{format:?} {count}: {}", run.status);
                assert!(run.errors.as_slice() == READ_FAILED.1.as_bytes(), "{format:?} {count}");
            }
        }
    }
    Ok(())
}

#[test]
fn each_byte_of_an_output_fails() -> core::result::Result<(), Fail> {
    let file = file_of_first(2, Format::Stream, false)?;
    for form in FORMS {
        let whole = shown(&all_in(form), &file).written;
        for count in 0..whole.len() {
            let run = run_by_bytes(form, &file, MANY, (count, ErrorKind::TimedOut));
            assert!((run.status, run.errors.as_slice()) == (3, WRITE_FAILED.1.as_bytes()), "{count}");
            assert!(run.written == whole[..count], "{count}");
            // one that is closed is no failure
            let run = run_by_bytes(form, &file, MANY, (count, ErrorKind::BrokenPipe));
            assert!((run.status, run.errors.is_empty()) == (0, true) && run.written == whole[..count], "{count}");
        }
    }
    Ok(())
}
