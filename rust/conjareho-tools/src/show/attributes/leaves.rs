//! The values of leaves, each after a blank.

use crate::user::prelude::*;

use crate::hex::FromHex;
use crate::itoa::Buffer;
use crate::show::attributes::column::{Columns, Display, InfoOf};
use crate::show::units::{
    Name, Unit, name_of, number_of, put_decimal, put_flags, put_named, put_number, put_signed as put_signed_number,
    put_verdict,
};
use crate::tc_texts::{handle_from_tc_text, handle_text, put_escaped_byte};

// True for a letter, a digit, or one of `-`, `.`, `:` and `_`.
fn is_plain(b: u8) -> bool {
    (48 <= b && b <= 58) || (65 <= b && b <= 90) || (97 <= b && b <= 122) || b == 45 || b == 46 || b == 95
}

// True if all bytes are plain.
fn are_plain(text: &[u8]) -> bool {
    text.iter().all(|byte| is_plain(*byte))
}

// True if a text needs no quotes.
fn is_word(text: &[u8]) -> bool {
    text.len() > 0 && are_plain(text)
}

// Appends a byte of a quoted text.
fn put_quoted_byte(out: &mut Vec<u8>, b: u8) -> Result<(), AllocError> {
    if b == 34 || b == 92 {
        return out.try_extend(&[92, b]);
    }
    put_escaped_byte(out, b)
}

// Appends the bytes of a quoted text.
fn put_quoted_bytes(out: &mut Vec<u8>, text: &[u8]) -> Result<(), AllocError> {
    for b in text {
        put_quoted_byte(out, *b)?;
    }
    Ok(())
}

// Appends a text, in quotes unless it is a word.
fn put_quoted(out: &mut Vec<u8>, text: &[u8]) -> Result<(), AllocError> {
    if is_word(text) {
        return out.try_extend(text);
    }
    out.try_extend(&[34])?;
    put_quoted_bytes(out, text)?;
    out.try_extend(&[34])
}

// Appends two blanks per level.
fn put_indent(out: &mut Vec<u8>, depth: usize) -> Result<(), AllocError> {
    if depth == 0 {
        return Ok(());
    }
    out.try_extend(b"  ")?;
    put_indent(out, depth - 1)?;
    Ok(())
}

// Appends a line feed and two blanks per level.
#[inline(always)]
fn put_margin(out: &mut Vec<u8>, depth: usize) -> Result<(), AllocError> {
    match depth {
        0 => out.try_extend(b"\n"),
        1 => out.try_extend(b"\n  "),
        2 => out.try_extend(b"\n    "),
        3 => out.try_extend(b"\n      "),
        4 => out.try_extend(b"\n        "),
        5 => out.try_extend(b"\n          "),
        6 => out.try_extend(b"\n            "),
        _ => {
            out.try_extend(b"\n")?;
            put_indent(out, depth)
        }
    }
}

/// Appends the beginning of a line: line feed, indentation and name.
pub(crate) fn put_line(out: &mut Vec<u8>, depth: usize, name: &[u8]) -> Result<(), AllocError> {
    put_margin(out, depth)?;
    out.try_extend(name)
}

/// The name of 0 at a place with only that name.
pub(crate) fn name_at<C: Columns>(columns: &C, place: usize) -> &'static str {
    match name_of(columns.names(place), 0) {
        Some(name) => name,
        None => "",
    }
}

// Appends an interface index, with the interface's name if known.
fn put_interface<C: Columns>(columns: &C, out: &mut Vec<u8>, n: u64) -> Result<(), AllocError> {
    put_decimal(out, n)?;
    put_called(out, columns.interface(n))
}

// Appends a name in parentheses, if there is one.
fn put_called(out: &mut Vec<u8>, name: Option<&str>) -> Result<(), AllocError> {
    let name = match name {
        Some(name) => name,
        None => return Ok(()),
    };
    out.try_extend(b" (")?;
    put_quoted(out, name.as_bytes())?;
    out.try_extend(b")")
}

// Appends `tcm_info` of a filter: priority and protocol, which is big-endian in the lower half.
fn put_pref(out: &mut Vec<u8>, names: &[Name<'_>], n: u64) -> Result<(), AllocError> {
    out.try_extend(b" pref ")?;
    put_decimal(out, n / 0x10000)?;
    out.try_extend(b" protocol ")?;
    put_named(out, Unit::LongHex, names, n % 0x100 * 0x100 + n / 0x100 % 0x100)
}

// Appends the handle of a qdisc.
fn put_handle(out: &mut Vec<u8>, n: u64) -> Result<(), AllocError> {
    out.try_extend(handle_text((n % 0x1_0000_0000) as u32).as_str().as_bytes())
}

// Appends `tcm_info`.
fn put_info<C: Columns>(columns: &C, out: &mut Vec<u8>, of: &InfoOf, n: u64) -> Result<(), AllocError> {
    match of {
        InfoOf::Pref(names) => put_pref(out, columns.names(*names), n),
        InfoOf::Leaf => {
            out.try_extend(b" leaf ")?;
            put_handle(out, n)
        }
        InfoOf::Refcnt => {
            out.try_extend(b" refcnt ")?;
            put_decimal(out, n)
        }
    }
}

// Appends a number as its column says.
fn put_number_in<C: Columns>(columns: &C, out: &mut Vec<u8>, display: &Display, n: u64) -> Result<(), AllocError> {
    match display {
        Display::Flags(place) => put_flags(out, columns.names(*place), n),
        Display::To(_) => put_decimal(out, n),
        Display::Info(_) if n == 0 => Ok(()),
        Display::Info(of) => put_info(columns, out, of, n),
        Display::Index(_) => {
            out.try_extend(b" index ")?;
            put_interface(columns, out, n)
        }
        Display::Family(_) => {
            out.try_extend(b" family ")?;
            put_decimal(out, n)
        }
        _ => {
            out.try_extend(b" ")?;
            put_bare_number(columns, out, display, n)
        }
    }
}

// Appends a number as its column says, without the blank.
fn put_bare_number<C: Columns>(columns: &C, out: &mut Vec<u8>, display: &Display, n: u64) -> Result<(), AllocError> {
    match display {
        Display::Number(unit) => put_number(out, *unit, n),
        Display::Named(unit, place) => put_named(out, *unit, columns.names(*place), n),
        Display::Verdict(_) => put_verdict(out, (n % 0x1_0000_0000) as u32),
        Display::Interface => put_interface(columns, out, n),
        Display::From(_) => {
            put_decimal(out, n)?;
            out.try_extend(b"-")
        }
        _ => put_decimal(out, n),
    }
}

// Appends the name for people of a number, and the number; or the text, if it isn't a name in JSON.
fn put_with_number(out: &mut Vec<u8>, names: &[Name<'_>], text: &str, number: Option<u64>) -> Result<(), AllocError> {
    match number {
        Some(n) => put_named(out, Unit::Plain, names, n),
        None => put_quoted(out, text.as_bytes()),
    }
}

// Appends a verdict, or the text if it isn't a name in JSON.
fn put_verdict_or(out: &mut Vec<u8>, text: &str, number: Option<u64>) -> Result<(), AllocError> {
    match number {
        Some(n) => put_verdict(out, (n % 0x1_0000_0000) as u32),
        None => put_quoted(out, text.as_bytes()),
    }
}

// Appends a handle as a number in a unit, or the text if it isn't a handle.
fn put_handle_or(out: &mut Vec<u8>, unit: Unit, text: &str, number: Option<u32>) -> Result<(), AllocError> {
    match number {
        Some(n) => put_number(out, unit, n as u64),
        None => put_quoted(out, text.as_bytes()),
    }
}

// Appends four bytes in hex as a number, or the text if it isn't four bytes.
fn put_count(out: &mut Vec<u8>, text: &str) -> Result<(), AllocError> {
    match <[u8; 4]>::from_hex(text.as_bytes()) {
        Ok(octets) => put_decimal(out, u32::from_le_bytes(octets) as u64),
        Err(_) => put_quoted(out, text.as_bytes()),
    }
}

// Appends an address family, unless it is 0.
fn put_family_or(out: &mut Vec<u8>, names: &[Name<'_>], text: &str, number: Option<u64>) -> Result<(), AllocError> {
    match number {
        Some(0) => Ok(()),
        Some(n) => {
            out.try_extend(b" family ")?;
            put_named(out, Unit::Plain, names, n)
        }
        None => {
            out.try_extend(b" family ")?;
            put_quoted(out, text.as_bytes())
        }
    }
}

// Appends a mask: its prefix length, or a line of its own.
fn put_slash_or(
    out: &mut Vec<u8>,
    depth: usize,
    name: &str,
    text: &str,
    number: Option<u64>,
) -> Result<(), AllocError> {
    match number {
        Some(len) => {
            out.try_extend(b"/")?;
            put_decimal(out, len)
        }
        None => {
            put_line(out, depth, name.as_bytes())?;
            out.try_extend(b" ")?;
            put_quoted(out, text.as_bytes())
        }
    }
}

// Appends a text as its column says.
fn put_text_in<C: Columns>(
    columns: &C,
    out: &mut Vec<u8>,
    depth: usize,
    display: &Display,
    text: &str,
) -> Result<(), AllocError> {
    match display {
        Display::To(_) => put_quoted(out, text.as_bytes()),
        Display::Slash(masks, own) => {
            put_slash_or(out, depth, name_at(columns, *own), text, number_of(columns.names(*masks), text))
        }
        Display::Family(place) => put_family_or(out, columns.names(*place), text, columns.number(*place, text)),
        _ => {
            out.try_extend(b" ")?;
            put_bare_text(columns, out, display, text)
        }
    }
}

// Appends a text as its column says, without the blank.
fn put_bare_text<C: Columns>(columns: &C, out: &mut Vec<u8>, display: &Display, text: &str) -> Result<(), AllocError> {
    match display {
        Display::Text(place) => put_with_number(out, columns.names(*place), text, columns.number(*place, text)),
        Display::Verdict(place) => put_verdict_or(out, text, columns.number(*place, text)),
        Display::Handle(unit) => put_handle_or(out, *unit, text, handle_from_tc_text(text)),
        Display::Count => put_count(out, text),
        Display::From(_) => {
            put_quoted(out, text.as_bytes())?;
            out.try_extend(b"-")
        }
        _ => put_quoted(out, text.as_bytes()),
    }
}

// True for `TCM_IFINDEX_MAGIC_BLOCK`.
pub(crate) fn is_block(n: i64) -> bool {
    n == -1
}

// Appends a negative number.
fn put_negative(out: &mut Vec<u8>, before: &[u8], n: i64) -> Result<(), AllocError> {
    out.try_extend(before)?;
    let mut buffer = Buffer::new();
    out.try_extend(buffer.format(n).as_bytes())
}

// True for padding that isn't displayed.
pub(crate) fn is_hidden(all: bool, display: &Display) -> bool {
    match display {
        Display::Hidden => !all,
        _ => false,
    }
}

/// Appends the leaf of a boolean.
pub(crate) fn put_boolean<C: Columns>(
    columns: &C,
    out: &mut Vec<u8>,
    _depth: usize,
    display: &Display,
    b: bool,
) -> Result<(), AllocError> {
    if is_hidden(columns.all(), display) {
        return Ok(());
    }
    if b { out.try_extend(b" true") } else { out.try_extend(b" false") }
}

/// Appends the leaf of an unsigned number.
pub(crate) fn put_unsigned<C: Columns>(
    columns: &C,
    out: &mut Vec<u8>,
    _depth: usize,
    display: &Display,
    n: u64,
) -> Result<(), AllocError> {
    if is_hidden(columns.all(), display) {
        return Ok(());
    }
    put_number_in(columns, out, display, n)
}

/// Appends the leaf of a signed number.
pub(crate) fn put_signed<C: Columns>(
    columns: &C,
    out: &mut Vec<u8>,
    _depth: usize,
    display: &Display,
    n: i64,
) -> Result<(), AllocError> {
    if is_hidden(columns.all(), display) {
        return Ok(());
    }
    match display {
        Display::Index(_) if is_block(n) => Ok(()),
        Display::Index(_) => put_negative(out, b" index ", n),
        Display::Number(unit) => {
            out.try_extend(b" ")?;
            put_signed_number(out, *unit, n)
        }
        _ => put_negative(out, b" ", n),
    }
}

/// Appends the leaf of a text.
pub(crate) fn put_string<C: Columns>(
    columns: &C,
    out: &mut Vec<u8>,
    depth: usize,
    display: &Display,
    value: &str,
) -> Result<(), AllocError> {
    if is_hidden(columns.all(), display) {
        return Ok(());
    }
    put_text_in(columns, out, depth, display, value)
}

/// Appends the leaf of `null`.
pub(crate) fn put_null<C: Columns>(
    columns: &C,
    out: &mut Vec<u8>,
    _depth: usize,
    display: &Display,
) -> Result<(), AllocError> {
    if is_hidden(columns.all(), display) {
        return Ok(());
    }
    out.try_extend(b" null")
}
