//! Dumps: netlink messages as xxd, hexdump, tcpdump 4.99 and tshark 4.0 print them, and plain.

use crate::user::prelude::*;

use crate::show::program::hint::lacks_header;
use crate::show::program::options::OutputFormat;
use crate::tests::data::dumps::{
    HEXDUMP, PLAIN, TCPDUMP, TCPDUMP_TEXT, TSHARK, XXD, XXD_PLAIN, XXD_SINGLE, ZEROS, ZEROS_HEXDUMP, ZEROS_HEXDUMP_ALL,
    ZEROS_XXD, ZEROS_XXD_PLAIN,
};
use crate::tests::shown::show::runs::{Written, all_in, gives, shown, writes};
use crate::user::Fail;
use core::str;

// The same with the cooked header of nlmon: tcpdump -xx, tshark -x, and plain.
const TCPDUMP_FRAME: &str = "\t0x0000:  0004 0338 0000 0000 0000 0000 0000 0000
\t0x0010:  3800 0000 2400 0506 81f1 2469 0000 0000
\t0x0020:  0000 0000 0400 0000 0000 ffff ffff ffff
\t0x0030:  0000 0000 0a00 0100 6266 6966 6f00 0000
\t0x0040:  0800 0200 b80b 0000";

const TSHARK_FRAME: &str = "0000  00 04 03 38 00 00 00 00 00 00 00 00 00 00 00 00   ...8............
0010  38 00 00 00 24 00 05 06 81 f1 24 69 00 00 00 00   8...$.....$i....
0020  00 00 00 00 04 00 00 00 00 00 ff ff ff ff ff ff   ................
0030  00 00 00 00 0a 00 01 00 62 66 69 66 6f 00 00 00   ........bfifo...
0040  08 00 02 00 b8 0b 00 00                           ........";

const PLAIN_FRAME: &str = "00040338000000000000000000000000380000002400050681f12469000000000000000004000000\
0000ffffffffffff000000000a000100626669666f00000008000200b80b0000";

// Plain, as it is pasted.
const PASTED: &str = "0x38 0x00 0x00 0x00 2400:0506 81f12469 00000000 # a bfifo
# on one line: 38:00:00:00:24:00:05:06:81:F1:24:69
38:00:00:00:24:00:05:06:81:F1:24:69:00:00:00:00:00:00:00:00:04:00:00:00:00:00:ff:ff:ff:ff:ff:ff:00:00:00:00:0a:00:01:00:62:66:69:66:6f:00:00:00:08:00:02:00:b8:0b:00:00";

// The outline of the message.
static ONE: &str = r#"{"type":"RTM_NEWQDISC","flags":1541,"seq":1764028801,"fits":true,"settled":true,"canonical":true,"message":{"header":{"family":"Unspec","index":4,"handle":"ffff:","parent":"root","info":0},"attributes":[{"Kind":"bfifo"},{"Options":{"limit":3000}}]}}
"#;

// Appends texts, on lines of their own.
fn put_all(all: &mut String, texts: &[&str]) -> Result<(), AllocError> {
    for text in texts {
        all.try_push_str(text)?;
        all.try_push_str("\n")?;
    }
    Ok(())
}

// True if this is the output for texts, each after the one before.
fn are_shown(texts: &[&str], status: u8, written: Written<'_>) -> bool {
    let mut all = String::new();
    put_all(&mut all, texts).is_ok() && gives(&all_in(OutputFormat::Json), all.as_bytes(), status, written, "")
}

static DUMPS: [&str; 11] = [
    PLAIN,
    XXD,
    XXD_SINGLE,
    XXD_PLAIN,
    HEXDUMP,
    TCPDUMP,
    TCPDUMP_TEXT,
    TSHARK,
    TCPDUMP_FRAME,
    TSHARK_FRAME,
    PLAIN_FRAME,
];

static ALL: [&str; 12] =
    [XXD, TCPDUMP, PLAIN, "", TSHARK, HEXDUMP, XXD_PLAIN, "# text", XXD_PLAIN, HEXDUMP, XXD_SINGLE, PLAIN];

#[test]
fn dumps() {
    for text in &DUMPS {
        assert!(are_shown(&[*text], 0, Written::Is(&[ONE])), "{text}");
    }
    assert!(are_shown(&ALL, 0, Written::Is(&[ONE; 10])));
    assert!(are_shown(&[PASTED], 1, Written::Ends(ONE)));
}

// A line of a dump that isn't there is missed.
static GAP: &str = "00000000: 3800 0000 2400 0506 81f1 2469 0000 0000  8...$.....$i....
00000020: 0000 0000 0a00 0100 6266 6966 6f00 0000  ........bfifo...
";

static GAP_SHOWN: &str =
    "{\"note\":\"malformed: 56 bytes needed, 16 left\",\"at\":0}\n{\"note\":\"not hex\",\"at\":68}\n";

#[test]
fn gaps() {
    assert!(writes(&all_in(OutputFormat::Json), GAP, 1, GAP_SHOWN));
}

// A message with many zeros, of which dumps leave out lines.
static ZERO_DUMPS: [&str; 4] = [ZEROS_HEXDUMP, ZEROS_HEXDUMP_ALL, ZEROS_XXD, ZEROS_XXD_PLAIN];

#[test]
fn lines_left_out() {
    let plain = shown(&all_in(OutputFormat::Json), ZEROS.as_bytes());
    assert!(plain.status == 0);
    let Ok(line) = core::str::from_utf8(&plain.written) else {
        assert!(false);
        return;
    };
    for dump in &ZERO_DUMPS {
        assert!(are_shown(&[*dump], 0, Written::Is(&[line])), "{dump}");
    }
}

// Edits of a dump after which it isn't of the whole message: no asterisk, an offset that lines as the one before don't reach, one that is
// too large, and an end at another offset.
static EDITS: [(&str, &str); 5] = [
    ("*\n", ""),
    ("*\n", "**\n"),
    ("\n00000070", "\n00000071"),
    ("\n00000070", "\n00100010"),
    ("\n00000078", "\n00000079"),
];

// A text with its first `old` replaced.
fn edited(text: &str, old: &str, new: &str) -> Result<String, AllocError> {
    let mut all = String::new();
    if let Some((front, rest)) = text.split_once(old) {
        all.try_push_str(front)?;
        all.try_push_str(new)?;
        all.try_push_str(rest)?;
    }
    Ok(all)
}

#[test]
fn other_lines() -> Result<(), Fail> {
    for (old, new) in &EDITS {
        let text = edited(ZEROS_HEXDUMP, *old, *new)?;
        let outcome = shown(&all_in(OutputFormat::Json), text.as_str().as_bytes());
        assert!(outcome.status == 1, "{text}");
    }
    Ok(())
}

// A message without its netlink header, as xxd prints it.
const BARE_XXD: &str = "00000000: 0000 0000 0200 0000 0000 0100 ffff ffff  ................";

// Texts, and whether their messages have no netlink header.
static BARE: [(&str, bool); 10] = [
    ("000000000200000000000100ffffffff000000000d00010066715f636f64656c00000000\n", true),
    ("02 00 00 00 02 00 00 00 # a family\n02", true),
    (BARE_XXD, true),
    (PLAIN, false),
    (XXD, false),
    (PLAIN_FRAME, false),
    (TCPDUMP_FRAME, false),
    ("10000000", false),
    ("000000", false),
    ("# text\n00000000", false),
];

#[test]
fn a_missing_header_is_noticed() {
    for (text, is_missing) in &BARE {
        let lacks = lacks_header(text.as_bytes());
        assert!(lacks == *is_missing, "{text}");
    }
}
