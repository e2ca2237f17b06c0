//! Hex as it is pasted: the same netlink message as xxd, hexdump, tcpdump 4.99 and tshark 4.0 print it, and plain.

use crate::user::prelude::*;

use crate::read::select::{digits_of_line, dump_line, end_of_dump, is_asterisk, push_hex};
use crate::tests::data::dumps::{HEXDUMP, PLAIN, TCPDUMP, TCPDUMP_TEXT, TSHARK, XXD, XXD_SINGLE};

// Its bytes.
#[rustfmt::skip]
static BYTES: [u8; 56] = [
    0x38, 0x00, 0x00, 0x00, 0x24, 0x00, 0x05, 0x06, 0x81, 0xf1, 0x24, 0x69, 0x00, 0x00, 0x00, 0x00,
    0x00, 0x00, 0x00, 0x00, 0x04, 0x00, 0x00, 0x00, 0x00, 0x00, 0xff, 0xff, 0xff, 0xff, 0xff, 0xff,
    0x00, 0x00, 0x00, 0x00, 0x0a, 0x00, 0x01, 0x00, 0x62, 0x66, 0x69, 0x66, 0x6f, 0x00, 0x00, 0x00,
    0x08, 0x00, 0x02, 0x00, 0xb8, 0x0b, 0x00, 0x00,
];

// Appends the bytes of a line of a dump; false where it isn't one, at their offset.
fn push_line(bytes: &mut Vec<u8>, line: &str) -> bool {
    match dump_line(line.as_bytes()) {
        Some(line) => line.offset == bytes.len() as u64 && push_hex(bytes, line.columns),
        None => false,
    }
}

fn push_dump(bytes: &mut Vec<u8>, dump: &str) -> bool {
    for line in dump.split('\n') {
        if !push_line(bytes, line) {
            return false;
        }
    }
    true
}

// True if a dump, each line of which is at its offset, is of these bytes.
fn is_dump(dump: &str, want: &[u8]) -> bool {
    let mut bytes = Vec::new();
    push_dump(&mut bytes, dump) && bytes.as_slice() == want
}

// True if a text is plain hex of these bytes.
fn is_plain(text: &str, want: &[u8]) -> bool {
    let mut bytes = Vec::new();
    push_hex(&mut bytes, text.as_bytes()) && bytes.as_slice() == want
}

// True if a text isn't hex.
fn is_no_hex(text: &str) -> bool {
    let mut bytes = Vec::new();
    !push_hex(&mut bytes, text.as_bytes())
}

static DUMPS: [&str; 5] = [XXD, XXD_SINGLE, TCPDUMP, TCPDUMP_TEXT, TSHARK];

// The lines of `hexdump -C`, and the offset after them.
fn is_hexdump(dump: &str, want: &[u8]) -> bool {
    match dump.rsplit_once('\n') {
        Some((lines, end)) => is_dump(lines, want) && end_of_dump(end.as_bytes()) == Some(want.len() as u64),
        None => false,
    }
}

#[test]
fn hexdump() {
    assert!(is_hexdump(HEXDUMP, &BYTES));
    assert!(is_asterisk(b"*") && is_asterisk(b"* \r"));
    assert!(!is_asterisk(b"") && !is_asterisk(b"**") && !is_asterisk(b" *"));
    assert!(digits_of_line(b"00112 ") == 5 && digits_of_line(b"0011g") == 0);
    assert!(end_of_dump(b"038").is_none() && end_of_dump(b"00000038 00").is_none());
}

#[test]
fn dumps() {
    assert!(is_plain(PLAIN, &BYTES));
    for dump in &DUMPS {
        assert!(is_dump(dump, &BYTES), "{dump}");
    }
}

// Hex as it is pasted, and its bytes.
static PASTED: [(&str, &[u8]); 7] = [
    ("", &[]),
    ("0a01ff", &[0x0a, 0x01, 0xff]),
    ("0a:01:ff", &[0x0a, 0x01, 0xff]),
    ("0x0a01FF", &[0x0a, 0x01, 0xff]),
    ("0x0a 0x01 0xff", &[0x0a, 0x01, 0xff]),
    (" 0a 01\tff\r", &[0x0a, 0x01, 0xff]),
    ("0A:0 1:ff", &[0x0a, 0x01, 0xff]),
];

static NO_HEX: [&str; 5] = ["0a01f", "0a01fg", "x0a", "0a,01", "0x0"];

#[test]
fn pasted() {
    for (text, bytes) in &PASTED {
        assert!(is_plain(text, bytes), "{text}");
        assert!(dump_line(text.as_bytes()).is_none(), "{text}");
    }
    for text in &NO_HEX {
        assert!(is_no_hex(text), "{text}");
    }
}

static NO_OFFSETS: [&str; 7] = ["", "000: 00", "0000:00", "0000 00", "000g: 00", "10000000000000000: 00", PLAIN];

#[test]
fn no_offsets() {
    for line in &NO_OFFSETS {
        assert!(dump_line(line.as_bytes()).is_none(), "{line}");
    }
}
