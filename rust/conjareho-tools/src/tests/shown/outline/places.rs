//! Refused messages: the fault, its numbers and its place.

use crate::user::prelude::*;

use crate::show::columns::{KindColumns, Root};
use crate::show::outline::{Layout, Page, outline};
use crate::tc_faults::{Fault, What, locate};
use core::str;

// The object that a message describes, its bytes in hex, and its last line.
static REFUSED: [(What, &str, &str); 18] = [
    // no whole header
    (What::Qdisc, "0000", "refused BufferTooSmall len 2 needed 20 offset 0 path /header"),
    // no whole header of an action message
    (What::Action, "000000", "refused BufferTooSmall len 3 needed 4 offset 0 path /header"),
    // a limit of three bytes, after a target
    (
        What::Qdisc,
        "00000000000000000000000000000000000000000d00010066715f636f64656c00000000140002000800010001000000\
0700020000280000",
        "refused WrongLength expected 4 got 3 offset 52 path /attributes/1/Options/1/FqCodel/Limit",
    ),
    // cut in the last option
    (
        What::Qdisc,
        "00000000000000000000000000000000000000000d00010066715f636f64656c000000000c000200080002000028",
        "refused FrameTooLong length 12 left 10 offset 36 path /attributes/1",
    ),
    // an option that is longer than the options
    (
        What::Qdisc,
        "00000000000000000000000000000000000000000d00010066715f636f64656c000000000c0002000900020000280000",
        "refused FrameTooLong length 9 left 8 offset 40 path /attributes/1/Options/0",
    ),
    // two bytes after the header
    (
        What::Qdisc,
        "00000000000000000000000000000000000000000800",
        "refused FrameHeaderShort left 2 offset 20 path /attributes/0",
    ),
    // a length that does not cover its header
    (
        What::Filter,
        "0000000000000000000000000000000000000000080001007533320003000200",
        "refused FrameTooShort length 3 offset 28 path /attributes/1",
    ),
    // a kind that is no text
    (
        What::Chain,
        "000000000000000000000000000000000000000006000100ff000000",
        "refused NotUtf8 offset 24 path /attributes/0/Kind",
    ),
    // the second action has no kind
    (
        What::Filter,
        "00000000000000000000000000000000000000000b000100666c6f7765720000200002001c0003000c00010008000100\
6e6174000c0002000800030005000000",
        "refused MissingKind offset 56 path /attributes/1/Options/0/Flower/Actions/1",
    ),
    // an action with two kinds
    (
        What::Action,
        "000000001800010014000100080001006e617400080001006e617400",
        "refused DuplicateKind offset 12 path /attributes/0/Actions/0",
    ),
    // a broken frame in an action without a kind
    (
        What::Action,
        "00000000100001000c0001000900030005000000",
        "refused FrameTooLong length 9 left 8 offset 12 path /attributes/0/Actions/0/attributes/0",
    ),
    // an index and a kind that is no text
    (
        What::Action,
        "000000001800010014000100080003000500000008000100ff617400",
        "refused NotUtf8 offset 24 path /attributes/0/Actions/0/attributes/1/Kind",
    ),
    // a record that is short
    (
        What::Action,
        "00000000200001001c0001000b0001006d697272656400000c0002800800020001000000",
        "refused BufferTooSmall len 4 needed 28 offset 32 path /attributes/0/Actions/0/attributes/1/Options/0/Mirror/Parms",
    ),
    // a selector without its keys
    (
        What::Filter,
        "000000000000000000000000000000000000000008000100753332001800020014000500010002000000000000000000\
00000000",
        "refused SelectorShort len 16 needed 48 offset 36 path /attributes/1/Options/0/U32/Selector",
    ),
    // statistics of fq_codel of two bytes
    (
        What::Qdisc,
        "00000000000000000000000000000000000000000d00010066715f636f64656c000000000600040000000000",
        "refused XstatsShort len 2 offset 40 path /attributes/1/Xstats",
    ),
    // statistics of fq_codel that are short
    (
        What::Class,
        "00000000000000000000000000000000000000000d00010066715f636f64656c00000000100007000c00040000000000\
01000000",
        "refused BufferTooSmall len 4 needed 36 offset 44 path /attributes/1/Stats2/0/App",
    ),
    // a label stack entry of two bytes
    (
        What::Filter,
        "00000000000000000000000000000000000000000b000100666c6f776572000014000200100063800c00018006000200\
01020000",
        "refused WrongLength expected 1 got 2 offset 48 path /attributes/1/Options/0/Flower/MplsOpts/0/Lse/0/LseTtl",
    ),
    // an attribute after the options is broken
    (
        What::Filter,
        "000000000000000000000000000000000000000008000100753332000c000200080002000500000009000b0000000000",
        "refused FrameTooLong length 9 left 8 offset 40 path /attributes/2",
    ),
];

// The last line of a text.
fn last_line(text: &str) -> &str {
    match text.rsplit_once('\n') {
        Some((_, last)) => last,
        None => text,
    }
}

fn root_of(what: What) -> Root {
    match what {
        What::Action => Root::Action,
        What::Chain => Root::Chain,
        What::Filter => Root::Filter,
        What::Class => Root::Class,
        What::Qdisc => Root::Qdisc,
    }
}

// True if a page ends with this line.
fn ends_with(page: &[u8], last: &str) -> bool {
    match core::str::from_utf8(page) {
        Ok(text) => last_line(text) == last,
        Err(_) => false,
    }
}

// True if the fault of a message is found where it is shown.
fn is_found(bytes: &[u8], what: What, shown: Option<Fault>) -> bool {
    match (locate(bytes, what), shown) {
        (Some(found), Some(shown)) => found.offset == shown.offset && found.error == shown.error,
        _ => false,
    }
}

// True if this is the last line of a message that is refused.
fn is_refused(what: What, bytes: &[u8], last: &str) -> bool {
    let mut page = Page::new(Layout::Lines);
    let columns = KindColumns { root: root_of(what), interfaces: &[], links: None, all: false };
    match outline(&mut page, bytes, columns) {
        Ok(fault) => ends_with(page.bytes(), last) && is_found(bytes, what, fault),
        Err(_) => false,
    }
}

fn is_refused_in_hex(what: What, digits: &str, last: &str) -> bool {
    match crate::hex::decode(digits) {
        Ok(bytes) => is_refused(what, &bytes, last),
        Err(_) => false,
    }
}

#[test]
fn refused_messages() {
    for (what, digits, last) in &REFUSED {
        assert!(is_refused_in_hex(*what, digits, last), "{last}");
    }
}
