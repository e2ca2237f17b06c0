//! Interfaces of a save by their names: the save's indices become the present ones.

use crate::user::prelude::*;

use crate::make::messages::{Actual, LineError};
use crate::make::requests::complaint::Complaint;
use crate::make::requests::interfaces::{META_NUMBER, MetaValue, OF_ATTRIBUTES, OF_HEADERS, OF_META, Side};
use crate::make::requests::save::Names;
use crate::tc_texts::{hex_string, read_hex};
use core::str;

/// The names of then and of now.
#[derive(Clone, Copy)]
pub(crate) struct Interfaces<'a> {
    /// The names when they were saved, by the indices of then.
    pub(crate) saved: &'a Names,
    /// The indices of now, and their names.
    pub(crate) now: &'a [(u32, &'a str)],
}

impl<'a> Interfaces<'a> {
    // The index of now of an interface that had this one.
    fn index_now(&self, index: u32) -> Result<u32, Complaint> {
        for (saved, name) in self.saved {
            if *saved == index {
                return self.index_of(name.as_str());
            }
        }
        Err(Complaint::NoName(index))
    }

    // The index of the interface of this name.
    fn index_of(&self, name: &str) -> Result<u32, Complaint> {
        match self.named(name) {
            Some(index) => Ok(index),
            None => Err(Complaint::NoInterface(fallible::text(name)?)),
        }
    }

    fn named(&self, name: &str) -> Option<u32> {
        for (index, known) in self.now {
            if *known == name {
                return Some(*index);
            }
        }
        None
    }

    /// The index of now of an interface that had this one, if it is there.
    pub(crate) fn present(&self, index: i32) -> Option<i32> {
        for (saved, name) in self.saved {
            if i32::try_from(*saved) == Ok(index) {
                let now = self.named(name.as_str())?;
                return i32::try_from(now).ok();
            }
        }
        None
    }
}

// The header of a message. The names of interfaces that filters have as text (`InDev`, `Indev`) stay as they are.
const HEADER: &[u8] = b"\"header\":{";

// An extended match of the kind meta, and what its sides are.
const META: &[u8] = b"\"Meta\":{";

const LEFT: &[u8] = b"\"left\":{\"kind\":";

const RIGHT: &[u8] = b"\"right\":{\"kind\":";

// What is around a place of a text.
#[derive(Clone, Copy)]
struct Around {
    // True in the header of a message.
    is_header: bool,
    // What the sides of the extended match compare (`tcf_meta_val.kind`), if they were there already.
    left: Option<u32>,
    right: Option<u32>,
}

const NOWHERE: Around = Around { is_header: false, left: None, right: None };

// What is at the front of a text.
#[derive(Clone, Copy)]
enum Front {
    // The name of a member, whose number is the index of an interface.
    Index,
    // The name of a member, whose text is the index of an interface, in hex.
    Word,
    // Something after which this is around.
    Other(Around),
}

/// The compact text of a message, with the present indices instead of the save's. 0 and -1 are no interfaces.
pub(crate) fn mapped(text: &[u8], interfaces: Interfaces<'_>) -> Result<Vec<u8>, Complaint> {
    let mut made = fallible::with_capacity(text.len())?;
    let mut rest = text;
    let mut around = NOWHERE;
    for _ in 0..text.len() {
        let Some((first, _)) = rest.split_first() else {
            break;
        };
        around.is_header = around.is_header && *first != b'}';
        let (front, len) = front_of(rest, around)?;
        let Some((taken, after)) = rest.split_at_checked(len) else {
            break;
        };
        made.try_extend(taken)?;
        rest = match front {
            Front::Index => put_mapped(&mut made, after, interfaces)?,
            Front::Word => put_mapped_word(&mut made, after, interfaces)?,
            Front::Other(new) => {
                around = new;
                after
            }
        };
    }
    Ok(made)
}

// What is at the front of a text, and how long it is.
fn front_of(text: &[u8], around: Around) -> Result<(Front, usize), Complaint> {
    if text.strip_prefix(HEADER).is_some() {
        let new = Around { is_header: true, ..around };
        return Ok((Front::Other(new), HEADER.len()));
    }
    if let Some(len) = column_at(text, around.is_header) {
        return Ok((Front::Index, len));
    }
    meta_at(text, around)
}

// How long the name of the member at the front of a text is, if its number is the index of an interface.
fn column_at(text: &[u8], is_header: bool) -> Option<usize> {
    if is_header { member_among(text, &OF_HEADERS) } else { member_among(text, &OF_ATTRIBUTES) }
}

// How long the name of the member at the front of a text is, if it is one of these.
fn member_among(text: &[u8], names: &[&'static str]) -> Option<usize> {
    for name in names {
        if after_name(text, name).is_some() {
            return Some(name.len() + 3);
        }
    }
    None
}

// What is after this name of a member at the front of a text.
fn after_name<'a>(text: &'a [u8], name: &str) -> Option<&'a [u8]> {
    let text = text.strip_prefix(b"\"")?;
    let text = text.strip_prefix(name.as_bytes())?;
    text.strip_prefix(b"\":")
}

// True if the member of this name is at the front of a text, and is a text itself.
fn is_text(text: &[u8], name: &str) -> bool {
    match after_name(text, name) {
        Some(after) => after.first() == Some(&b'"'),
        None => false,
    }
}

// The same of an extended match of the kind meta. Its values are after what says what they are.
fn meta_at(text: &[u8], around: Around) -> Result<(Front, usize), Complaint> {
    if text.strip_prefix(META).is_some() {
        return Ok((Front::Other(NOWHERE), META.len()));
    }
    if let Some(after) = text.strip_prefix(LEFT) {
        let new = Around { left: kind_at(after), ..around };
        return Ok((Front::Other(new), LEFT.len()));
    }
    if let Some(after) = text.strip_prefix(RIGHT) {
        let new = Around { right: kind_at(after), ..around };
        return Ok((Front::Other(new), RIGHT.len()));
    }
    for value in &OF_META {
        if is_text(text, value.name) {
            return Ok((value_of(value, around)?, value.name.len() + 4));
        }
    }
    Ok((Front::Other(around), 1))
}

// What the value of one side is, by the kinds of both.
fn value_of(value: &MetaValue, around: Around) -> Result<Front, Complaint> {
    let (own, other) = match value.other {
        Side::Left => (around.right, around.left),
        Side::Right => (around.left, around.right),
    };
    match (own, other) {
        (Some(META_NUMBER), Some(kind)) if value.kinds.contains(&kind) => Ok(Front::Word),
        (Some(_), Some(_)) => Ok(Front::Other(around)),
        _ => Err(Complaint::Line(LineError::Member {
            name: "Hdr",
            found: Actual::Nothing,
            wanted: "left and right, each with a number for its kind, before Lvalue and Rvalue",
        })),
    }
}

fn kind_at(text: &[u8]) -> Option<u32> {
    match number_at(text) {
        Some((kind, _)) => Some(kind),
        None => None,
    }
}

// Puts the index of now in place of the number at the front of a text, and returns what is after it.
fn put_mapped<'a>(made: &mut Vec<u8>, text: &'a [u8], interfaces: Interfaces<'_>) -> Result<&'a [u8], Complaint> {
    match number_at(text) {
        Some((index, after)) if index != 0 => {
            let index = interfaces.index_now(index)?;
            put_number(made, index)?;
            Ok(after)
        }
        _ => Ok(text),
    }
}

// The same of a number of four bytes in hex, little-endian, or of eight of which the last four are 0.
fn put_mapped_word<'a>(made: &mut Vec<u8>, text: &'a [u8], interfaces: Interfaces<'_>) -> Result<&'a [u8], Complaint> {
    let Some((digits, after)) = text.split_at_checked(8) else {
        return Ok(text);
    };
    match word_in(digits)? {
        Some(index) if index != 0 => {
            let index = interfaces.index_now(index)?;
            made.try_extend(hex_string(&index.to_le_bytes())?.as_bytes())?;
            Ok(after)
        }
        _ => Ok(text),
    }
}

fn word_in(digits: &[u8]) -> Result<Option<u32>, AllocError> {
    let Ok(digits) = core::str::from_utf8(digits) else {
        return Ok(None);
    };
    match read_hex(digits)? {
        Some(bytes) => match bytes.as_slice() {
            [a, b, c, d] => Ok(Some(u32::from_le_bytes([*a, *b, *c, *d]))),
            _ => Ok(None),
        },
        None => Ok(None),
    }
}

fn put_number(made: &mut Vec<u8>, number: u32) -> Result<(), AllocError> {
    let digits = crate::user::formatted(format_args!("{number}"))?;
    made.try_extend(digits.as_bytes())
}

// The number at the front of a text, and what is after it.
fn number_at(text: &[u8]) -> Option<(u32, &[u8])> {
    let len = text.iter().take_while(|c| c.is_ascii_digit()).count();
    let (digits, after) = text.split_at_checked(len)?;
    let number = core::str::from_utf8(digits).ok()?.parse::<u32>().ok()?;
    Some((number, after))
}
