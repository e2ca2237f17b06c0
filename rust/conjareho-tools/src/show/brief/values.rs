//! The value of a leaf, as part of a word.

use crate::user::prelude::*;

use conjareho::kinds::visit::{self, LeftOut, Name, Names, Row, Style};

use crate::show::attributes::Columns;
use crate::show::brief::leaf::{Leaf, Shape, Shown, Value};
use crate::show::brief::numbers::{put_number, put_signed};
use crate::show::columns::KindColumns;
use crate::show::units::{Unit, hex_digit, put_decimal, put_hex, put_verdict};
use crate::tc_texts::ipv6_text;

/// True if a bit is set.
pub(crate) fn is_set(bit: u64, n: u64) -> bool {
    bit > 0 && n / bit % 2 == 1
}

fn put_bar(out: &mut Vec<u8>, first: bool) -> Result<(), AllocError> {
    if first {
        return Ok(());
    }
    out.try_extend(b"|")
}

// Appends the names of the set bits, then the others in hex.
fn put_names(out: &mut Vec<u8>, first: bool, names: &[Name], n: u64) -> Result<(), AllocError> {
    let (name, others) = match names.split_first() {
        Some(parts) => parts,
        None => return put_others(out, first, n),
    };
    let bit = name.number as u64;
    if !is_set(bit, n) {
        return put_names(out, first, others, n);
    }
    put_bar(out, first)?;
    out.try_extend(name.label.as_bytes())?;
    put_names(out, false, others, n - bit)
}

// Appends the bits without a name in hex.
fn put_others(out: &mut Vec<u8>, first: bool, n: u64) -> Result<(), AllocError> {
    if n == 0 {
        return Ok(());
    }
    put_bar(out, first)?;
    put_hex(out, n)
}

// Appends a flag word: the names of its bits with bars between.
fn put_flags(out: &mut Vec<u8>, names: &[Name], n: u64) -> Result<(), AllocError> {
    if n == 0 {
        return out.try_extend(b"0");
    }
    put_names(out, true, names, n)
}

/// The unit of a row's numbers.
fn unit_of(row: &Row) -> Unit {
    match row.unit {
        visit::Unit::Hex => Unit::Hex,
        visit::Unit::LongHex => Unit::LongHex,
        visit::Unit::NetworkHex => Unit::NetworkHex,
        visit::Unit::Bytes => Unit::Bytes,
        visit::Unit::Packets => Unit::Packets,
        visit::Unit::BytesPerSecond => Unit::BytesPerSecond,
        visit::Unit::PacketsPerSecond => Unit::PacketsPerSecond,
        visit::Unit::KilobitsPerSecond => Unit::KilobitsPerSecond,
        visit::Unit::Nanoseconds => Unit::Nanoseconds,
        visit::Unit::Microseconds => Unit::Microseconds,
        visit::Unit::Milliseconds => Unit::Milliseconds,
        visit::Unit::Seconds => Unit::Seconds,
        visit::Unit::Ticks => Unit::Ticks,
        visit::Unit::ClockTicks => Unit::ClockTicks,
        visit::Unit::Percent => Unit::Percent,
        visit::Unit::Probability => Unit::Probability,
        visit::Unit::Power => Unit::Power,
        visit::Unit::U32Handle => Unit::U32Handle,
        _ => Unit::Plain,
    }
}

/// True for the verdicts of actions.
pub(crate) fn is_verdict(leaf: &Leaf<'_>) -> bool {
    matches!(leaf.row.names, Names::Enum([first, ..]) if first.kernel.starts_with("TC_ACT_"))
}

// Appends a number as its row says.
fn put_shown(out: &mut Vec<u8>, leaf: &Leaf<'_>, n: u64) -> Result<(), AllocError> {
    if leaf.shown != Shown::ByRow {
        return put_decimal(out, n);
    }
    match leaf.row.names {
        Names::Numbers(_) => match leaf.row.names.of(n as i64) {
            Some(name) => out.try_extend(name.label.as_bytes()),
            None => put_number(out, unit_of(leaf.row), n),
        },
        Names::Flags(names) => put_flags(out, names, n),
        Names::Enum(_) if is_verdict(leaf) => put_verdict(out, (n % 0x1_0000_0000) as u32),
        Names::None if leaf.style != Style::Range => put_number(out, unit_of(leaf.row), n),
        _ => put_decimal(out, n),
    }
}

fn put_shown_signed(out: &mut Vec<u8>, leaf: &Leaf<'_>, n: i64) -> Result<(), AllocError> {
    let unit = if leaf.shown == Shown::ByRow && leaf.row.names == Names::None { unit_of(leaf.row) } else { Unit::Plain };
    put_signed(out, unit, n)
}

// Appends the name of a number.
fn put_name(out: &mut Vec<u8>, leaf: &Leaf<'_>, name: &Name, n: u64) -> Result<(), AllocError> {
    if is_verdict(leaf) {
        return put_verdict(out, (n % 0x1_0000_0000) as u32);
    }
    out.try_extend(name.label.as_bytes())
}

/// Appends an interface, by its name if known.
pub(crate) fn put_interface(out: &mut Vec<u8>, n: u64, name: Option<&str>) -> Result<(), AllocError> {
    if let Some(name) = name {
        return out.try_extend(name.as_bytes());
    }
    put_decimal(out, n)
}

// Appends bytes in hex.
fn put_bytes(out: &mut Vec<u8>, bytes: &[u8]) -> Result<(), AllocError> {
    for octet in bytes {
        out.try_extend(&[hex_digit(octet / 16), hex_digit(octet % 16)])?;
    }
    Ok(())
}

/// Appends bytes in hex, or their number if there are more than 32.
pub(crate) fn put_hex_bytes(out: &mut Vec<u8>, bytes: &[u8]) -> Result<(), AllocError> {
    if bytes.len() <= 32 {
        out.try_extend(b"0x")?;
        return put_bytes(out, bytes);
    }
    out.try_extend(b"<")?;
    put_decimal(out, bytes.len() as u64)?;
    out.try_extend(b"B>")
}

// Appends bytes; those that are a number as a number.
fn put_plain_bytes(out: &mut Vec<u8>, shown: Shown, bytes: &[u8]) -> Result<(), AllocError> {
    match <[u8; 4]>::try_from(bytes) {
        Ok(octets) if shown == Shown::Count => put_decimal(out, u32::from_le_bytes(octets).into()),
        _ => put_bytes(out, bytes),
    }
}

// Appends malformed bytes in hex.
fn put_raw(out: &mut Vec<u8>, bytes: &[u8]) -> Result<(), AllocError> {
    out.try_extend(b"{raw=")?;
    put_bytes(out, bytes)?;
    out.try_extend(b"}")
}

// Appends what has a text.
fn put_display(out: &mut Vec<u8>, value: impl std::fmt::Display) -> Result<(), AllocError> {
    std::io::Write::write_fmt(out, format_args!("{value}")).map_err(|_| AllocError)
}

/// Appends the value of a leaf, with these names of interfaces.
pub(crate) fn put_value(out: &mut Vec<u8>, columns: &KindColumns<'_>, leaf: &Leaf<'_>) -> Result<(), AllocError> {
    match leaf.value {
        Value::Bool(true) => out.try_extend(b"true"),
        Value::Bool(false) => out.try_extend(b"false"),
        Value::Unsigned(n) => put_shown(out, leaf, n),
        Value::Signed(n) => put_shown_signed(out, leaf, n),
        Value::Handle(it) => put_display(out, it),
        Value::Text(text) => out.try_extend(text.as_bytes()),
        Value::Bytes(bytes) => put_plain_bytes(out, leaf.shown, bytes),
        Value::Mac(it) => put_display(out, it),
        Value::Ipv4(it) => put_display(out, it),
        // As `inet_ntop` writes it, and so JSON and `tc`: `::192.0.2.1`, which Rust writes in hex.
        Value::Ipv6(it) => out.try_extend(ipv6_text(it.octets()).as_str().as_bytes()),
        Value::Named(name, n) => put_name(out, leaf, name, n),
        Value::Raw(bytes) => put_raw(out, bytes),
        Value::Prefix(n) => put_decimal(out, n),
        Value::Interface(n) => put_interface(out, n, columns.interface(n)),
        Value::Attribute(_, bytes) => put_hex_bytes(out, bytes),
        Value::Opens(_) | Value::Closes(_) => Ok(()),
    }
}

// Appends the name of an attribute without a row.
fn put_attribute_name(out: &mut Vec<u8>, word: u16) -> Result<(), AllocError> {
    out.try_extend(b"attr")?;
    if word < 0x4000 {
        return put_decimal(out, word.into());
    }
    put_hex(out, word.into())
}

// Appends a name and an equals sign, unless the name is empty.
fn put_equals(out: &mut Vec<u8>, name: &str) -> Result<(), AllocError> {
    if name.is_empty() {
        return Ok(());
    }
    out.try_extend(name.as_bytes())?;
    out.try_extend(b"=")
}

/// Appends `Name=`, unless the leaf is an item of a list.
pub(crate) fn put_name_of(out: &mut Vec<u8>, leaf: &Leaf<'_>) -> Result<(), AllocError> {
    if let Value::Attribute(word, _) = leaf.value {
        put_attribute_name(out, word)?;
        return out.try_extend(b"=");
    }
    put_equals(out, leaf.key)
}

/// Appends `Name=value`, or only the name if it is true.
pub(crate) fn put_assigned(out: &mut Vec<u8>, columns: &KindColumns<'_>, leaf: &Leaf<'_>) -> Result<(), AllocError> {
    if let Value::Bool(true) = leaf.value {
        return out.try_extend(leaf.key.as_bytes());
    }
    put_name_of(out, leaf)?;
    put_value(out, columns, leaf)
}

/// The number of a value, by which a row leaves it out.
pub(crate) fn number_in(value: &Value<'_>) -> Option<u64> {
    match value {
        Value::Bool(true) => Some(1),
        Value::Bool(false) => Some(0),
        Value::Unsigned(n) | Value::Named(_, n) | Value::Interface(n) | Value::Prefix(n) => Some(*n),
        _ => None,
    }
}

fn left_by(left: LeftOut, value: &Value<'_>) -> bool {
    match left {
        LeftOut::Always => true,
        LeftOut::Equal(n) => match number_in(value) {
            Some(k) => k == n,
            None => false,
        },
        LeftOut::Below(n) => match number_in(value) {
            Some(k) => k < n,
            None => false,
        },
        _ => false,
    }
}

/// True if a line leaves the leaf out.
pub(crate) fn is_left_out(leaf: &Leaf<'_>) -> bool {
    leaf.shown == Shown::Hidden || left_by(leaf.left, &leaf.value)
}

fn put_comma(out: &mut Vec<u8>, first: bool) -> Result<(), AllocError> {
    if first {
        return Ok(());
    }
    out.try_extend(b",")
}

pub(crate) fn put_open(out: &mut Vec<u8>, shape: Shape) -> Result<(), AllocError> {
    match shape {
        Shape::Brackets => out.try_extend(b"["),
        _ => out.try_extend(b"{"),
    }
}

fn put_close(out: &mut Vec<u8>, shape: Shape) -> Result<(), AllocError> {
    match shape {
        Shape::Brackets => out.try_extend(b"]"),
        _ => out.try_extend(b"}"),
    }
}

/// True for a leaf that is left out within a word.
pub(crate) fn is_skipped(leaf: &Leaf<'_>) -> bool {
    match leaf.value {
        Value::Opens(_) | Value::Closes(_) => false,
        _ => is_left_out(leaf) || (is_count(leaf.style) && is_zero(number_in(&leaf.value))),
    }
}

/// True for a number that each line with statistics has.
pub(crate) fn is_count(style: Style) -> bool {
    matches!(style, Style::Count)
}

fn is_zero(number: Option<u64>) -> bool {
    match number {
        Some(n) => n == 0,
        None => false,
    }
}

fn is_closing(value: &Value<'_>) -> bool {
    matches!(value, Value::Closes(_))
}

/// True if nothing is written between an open bracket and the next closing one.
pub(crate) fn is_hollow(leaves: &[Leaf<'_>]) -> bool {
    let mut left = leaves;
    'each: while let [leaf, rest @ ..] = left {
        if !is_skipped(leaf) {
            return is_closing(&leaf.value);
        }
        left = rest;
    }
    false
}

/// Appends one leaf within a word.
pub(crate) fn put_within(out: &mut Vec<u8>, columns: &KindColumns<'_>, first: bool, leaf: &Leaf<'_>) -> Result<(), AllocError> {
    if let Value::Closes(shape) = leaf.value {
        return put_close(out, shape);
    }
    put_comma(out, first)?;
    if let Value::Opens(shape) = leaf.value {
        put_equals(out, leaf.key)?;
        return put_open(out, shape);
    }
    put_assigned(out, columns, leaf)
}

/// True for the beginning of a list or record.
pub(crate) fn is_opening(value: &Value<'_>) -> bool {
    matches!(value, Value::Opens(_))
}

/// How deep in lists and records of one word the leaf after this one is.
pub(crate) fn depth_after(depth: usize, value: &Value<'_>) -> Option<usize> {
    match value {
        Value::Opens(_) => depth.checked_add(1),
        Value::Closes(_) => Some(depth.saturating_sub(1)),
        _ => Some(depth),
    }
}

/// The items of a list: the leaves before its end.
pub(crate) fn items_of<'l, 't>(leaves: &'l [Leaf<'t>]) -> &'l [Leaf<'t>] {
    let mut count = 0;
    for leaf in leaves {
        if is_closing(&leaf.value) {
            return &leaves[..count];
        }
        count += 1;
    }
    leaves
}

fn is_numeric(leaf: &Leaf<'_>) -> bool {
    matches!(leaf.value, Value::Unsigned(_) | Value::Signed(_))
}

fn are_numeric(leaves: &[Leaf<'_>]) -> bool {
    let mut left = leaves;
    'each: while let [leaf, rest @ ..] = left {
        if !is_numeric(leaf) {
            return false;
        }
        left = rest;
    }
    true
}

/// True for a list of more than 32 numbers.
pub(crate) fn is_table(shape: Shape, items: &[Leaf<'_>]) -> bool {
    match shape {
        Shape::Brackets => items.len() > 32 && are_numeric(items),
        _ => false,
    }
}
