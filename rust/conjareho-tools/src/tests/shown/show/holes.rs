//! Packets that a capture holds a part of, that are too long, and lines that are no hex.

use crate::user::prelude::*;

use crate::show::program::options::OutputFormat;
use crate::tc_capture::MessageType;
use crate::tests::data::{Format, beginning, put_packet};
use crate::tests::shown::show::runs::{Written, all_in, alone_in, gives};
use crate::user::Fail;

// The first 20 bytes of an RTM_NEWQDISC of 56 bytes.
#[rustfmt::skip]
static FRONT: [u8; 20] = [56, 0, 0, 0, 36, 0, 0, 6, 1, 0, 0, 0, 0, 0, 0, 0, 0, 0, 0, 0];

// An RTM_NEWQDISC with a header of zeros.
#[rustfmt::skip]
static WHOLE: [u8; 36] = [
    36, 0, 0, 0, 36, 0, 0, 6, 2, 0, 0, 0, 0, 0, 0, 0,
    0, 0, 0, 0, 0, 0, 0, 0, 0, 0, 0, 0, 0, 0, 0, 0, 0, 0, 0, 0,
];

// A packet of which 20 of 56 bytes are kept; one of which the first message is kept; a whole one; and one that is 20 bytes of a message.
fn snapped() -> Result<Vec<u8>, AllocError> {
    let mut file = beginning(Format::Microseconds, true)?;
    put_all(&mut file)?;
    Ok(file)
}

fn put_all(file: &mut Vec<u8>) -> Result<(), AllocError> {
    put_packet(file, Format::Microseconds, true, &FRONT, 36)?;
    put_packet(file, Format::Microseconds, true, &WHOLE, 20)?;
    put_packet(file, Format::Microseconds, true, &WHOLE, 0)?;
    put_packet(file, Format::Microseconds, true, &FRONT, 0)
}

static SNAPPED: [&str; 5] = [
    "{\"note\":\"truncated: 56 bytes needed, 20 left\",\"at\":56}",
    "{\"time\"",
    "{\"note\":\"truncated: the capture has only the first bytes of this packet\",\"at\":144}",
    "{\"time\"",
    "{\"note\":\"malformed:",
];

#[test]
fn a_snapped_packet_is_cut() -> Result<(), Fail> {
    let file = snapped()?;
    let lines = Written::BeginsWithLines(&SNAPPED);
    assert!(gives(&all_in(OutputFormat::Json), &file, 1, lines, ""));
    Ok(())
}

// A message of 1 MiB and 16 bytes in a stream, and one after it.
fn long_stream() -> Result<Vec<u8>, AllocError> {
    let mut stream = fallible::filled(0u8, 1_048_592)?;
    let (header, _) = stream.split_at_mut(16);
    header.copy_from_slice(&[16, 0, 16, 0, 36, 0, 0, 0, 0, 0, 0, 0, 0, 0, 0, 0]);
    stream.try_extend(&WHOLE)?;
    Ok(stream)
}

static STREAM_LINES: [&str; 2] = ["byte 0: skipped: 1048592 bytes", "new qdisc - "];

#[test]
fn long_messages_are_skipped() -> Result<(), Fail> {
    let stream = long_stream()?;
    let lines = Written::BeginsWithLines(&STREAM_LINES);
    assert!(gives(&all_in(OutputFormat::Lines(false)), &stream, 0, lines, ""));
    Ok(())
}

// Lines that are no hex, that are too long, that are messages without a header.
fn long_text() -> Result<Vec<u8>, AllocError> {
    let mut text = b"0g\n00\n".try_to_vec()?;
    for _ in 0..33_000u32 {
        text.try_extend(&[b'0'; 100])?;
    }
    text.try_extend(b"\n00000000 # an action message\n0")?;
    Ok(text)
}

static TEXT_LINES: [&str; 5] = [
    "byte 0: not hex",
    "- action - - raw=00 malformed: 1 byte, 4 expected, at header (byte 0)",
    "byte 6: skipped: ",
    "- action - -",
    "byte 3300036: not hex",
];

#[test]
fn long_lines_are_skipped() -> Result<(), Fail> {
    let text = long_text()?;
    let options = alone_in(OutputFormat::Lines(false), MessageType::Action);
    let lines = Written::BeginsWithLines(&TEXT_LINES);
    assert!(gives(&options, &text, 1, lines, ""));
    let end = Written::Ends("\n- action - -\nbyte 3300036: not hex\n");
    assert!(gives(&options, &text, 1, end, ""));
    Ok(())
}
