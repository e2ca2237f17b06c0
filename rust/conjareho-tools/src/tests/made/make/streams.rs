//! Streams that fail, that are interrupted, and that are closed.

use crate::user::prelude::*;

use std::io::{BufReader, ErrorKind, Result};
use crate::make::program::arguments::Options;
use crate::make::program::program::serve;
use crate::streams::{Reader, Writer};
use crate::tests::data::streams::{ByBytes, Stream, calls, slowly};
use crate::tests::made::make::runs::{FORMS, HEX, Outcome, PCAP, made};

static LINES: &str = r#"{"packet":1,"type":"RTM_NEWQDISC","seq":5,"message":{"header":{"family":"Unspec","index":2,"handle":"1:","parent":"root","info":0},"attributes":[{"Kind":"fq_codel"}]}}
{"packet":2,"type":"RTM_NEWQDISC","seq":6,"message":{"header":{"family":"Unspec","index":2,"handle":"1:","parent":"root","info":0},"attributes":[{"Kind":"fq_codel"}]}}
"#;

// A run over lines, by such streams.
fn run(options: &Options, lines: &str, reader: Stream, writer: Stream) -> Result<Outcome> {
    let from = slowly(lines.as_bytes(), reader);
    let mut from = BufReader::with_capacity(64, Reader::new(from));
    let mut to = Writer::new(slowly(Vec::new(), writer));
    let mut errors = Vec::new();
    let ended = serve(FORMS, options, &mut from, &mut to, &mut errors);
    Ok(Outcome { status: ended.status(), written: to.into_inner().inner, errors })
}

// True if these bytes are the front of what is written of lines where no stream fails.
fn is_front(options: &Options, lines: &str, bytes: &[u8]) -> bool {
    made(options, lines.as_bytes()).written.starts_with(bytes)
}

// How many bytes a run over such streams writes. None if they aren't the front of what is written where no stream fails, or if it ends with
// another status or complaint.
fn written(options: &Options, lines: &str, streams: (Stream, Stream), end: (u8, &str)) -> Option<usize> {
    match run(options, lines, streams.0, streams.1) {
        Ok(run) => {
            let is_so = run.status == end.0
                && run.errors.as_slice() == end.1.as_bytes()
                && is_front(options, lines, &run.written);
            if is_so { Some(run.written.len()) } else { None }
        }
        Err(_) => None,
    }
}

// How many bytes are so written of a capture of two messages.
fn captured(reader: Stream, writer: Stream, end: (u8, &str)) -> Option<usize> {
    written(&PCAP, LINES, (reader, writer), end)
}

// How many reads take all lines and find their end.
fn reads_of_all() -> usize {
    (LINES.len().saturating_add(6) / 7).saturating_add(1)
}

static READ_FAILED: (u8, &str) = (3, "tcmake: standard input: timed out\n");

static WRITE_FAILED: (u8, &str) = (3, "tcmake: standard output: timed out\n");

#[test]
fn each_read_fails() {
    let all = reads_of_all();
    for count in 0..all {
        let written = captured(calls(count, 1), calls(999, 1), READ_FAILED);
        assert!(written.is_some(), "{count} reads");
    }
    // interrupted as often as they may be
    let written = captured(calls(all, 1023), calls(999, 1023), (0, ""));
    assert!(written == Some(24 + 2 * 84));
    // interrupted too often
    assert!(captured(calls(all, 1024), calls(999, 0), READ_FAILED).is_some());
}

#[test]
fn each_write_fails() {
    let all = calls(999, 0);
    for count in 0..4usize {
        let written = captured(all, calls(count, 0), WRITE_FAILED);
        assert!(written.is_some(), "{count} writes");
        // one that is closed is no failure
        let written = captured(all, (count, 0, ErrorKind::BrokenPipe), (0, ""));
        assert!(written.is_some(), "{count} writes");
    }
    // interrupted too often
    let reads = calls(reads_of_all(), 0);
    assert!(captured(reads, calls(999, 1024), WRITE_FAILED).is_some());
}

static WRONG_LINE: &str = r#"{"type":"RTM_NEWACTION","seq":"2","message":{"raw":"00"}}
{"type":"RTM_GETACTION","message":{"header":{"family":"Unspec"},"attributes":[]}}
"#;

static WRONG: &str = "tcmake: line 1: /seq: found \"2\", wanted a number from 0 to 4294967295\n";

// A closed output is no failure, and what was wrong before it is said.
#[test]
fn a_closed_output() {
    let streams = (calls(999, 0), (0, 0, ErrorKind::BrokenPipe));
    assert!(written(&HEX, WRONG_LINE, streams, (1, WRONG)) == Some(0));
}

// A run whose input ends with an error after so many bytes, or whose output does.
fn run_by_bytes(options: &Options, reads: usize, (writes, fault): (usize, ErrorKind)) -> Result<Outcome> {
    let from = ByBytes { inner: LINES.as_bytes(), left: reads, fault: ErrorKind::TimedOut };
    let mut from = BufReader::with_capacity(64, Reader::new(from));
    let mut to = Writer::new(ByBytes { inner: Vec::new(), left: writes, fault });
    let mut errors = Vec::new();
    let ended = serve(FORMS, options, &mut from, &mut to, &mut errors);
    Ok(Outcome { status: ended.status(), written: to.into_inner().inner, errors })
}

#[test]
fn each_byte_fails() -> Result<()> {
    for options in [&HEX, &PCAP] {
        let whole = made(options, LINES.as_bytes()).written;
        for count in 0..=LINES.len() {
            let run = run_by_bytes(options, count, (1 << 20, ErrorKind::TimedOut))?;
            assert!((run.status, run.errors.as_slice()) == (3, READ_FAILED.1.as_bytes()), "{count} read");
            assert!(whole.starts_with(&run.written), "{count} read");
        }
        for count in 0..whole.len() {
            let run = run_by_bytes(options, 1 << 20, (count, ErrorKind::TimedOut))?;
            assert!((run.status, run.errors.as_slice()) == (3, WRITE_FAILED.1.as_bytes()), "{count} written");
            assert!(run.written == whole[..count], "{count} written");
            // one that is closed is no failure
            let run = run_by_bytes(options, 1 << 20, (count, ErrorKind::BrokenPipe))?;
            assert!((run.status, run.errors.is_empty()) == (0, true) && run.written == whole[..count], "{count} written");
        }
    }
    Ok(())
}
