//! Captures, made of messages.

use crate::user::prelude::*;

use crate::tests::data::input::Form;
use crate::tests::data::row::Row;
use crate::tests::data::rows::captured;
use crate::user::Fail;

/// The time of each packet: seconds and microseconds.
pub const SECONDS: u32 = 1_700_000_000;

pub const MICROSECONDS: u32 = 123_456;

/// A file format.
#[derive(Clone, Copy, Debug)]
pub enum Format {
    Stream,
    Microseconds,
    Nanoseconds,
    Blocks,
}

/// All formats, little-endian and big-endian; a stream has one order.
pub const FORMATS: [(Format, bool); 7] = [
    (Format::Stream, false),
    (Format::Microseconds, false),
    (Format::Microseconds, true),
    (Format::Nanoseconds, false),
    (Format::Nanoseconds, true),
    (Format::Blocks, false),
    (Format::Blocks, true),
];

/// A netlink message with a payload, and its padding.
///
/// # Errors
///
/// A [`AllocError`].
pub fn message(kind: u16, sequence: u32, payload: &[u8]) -> Result<Vec<u8>, AllocError> {
    let [a, b, c, d] = held_of(payload).to_le_bytes();
    let [e, f] = kind.to_le_bytes();
    let [g, h, i, j] = sequence.to_le_bytes();
    let header = [a, b, c, d, e, f, 0, 6, g, h, i, j, 0, 0, 0, 0];
    let mut bytes = header.try_to_vec()?;
    bytes.try_extend(payload)?;
    bytes.try_extend(&[0; 3][..(4 - payload.len() % 4) % 4])?;
    Ok(bytes)
}

// How long a header of sixteen bytes and what follows it are.
fn held_of(bytes: &[u8]) -> u32 {
    bytes.len().min(60_000) as u32 + 16
}

// The message of a row: a qdisc or the like as RTM_NEWQDISC, an action as RTM_NEWACTION.
fn message_of(row: &Row, sequence: u32) -> Result<Vec<u8>, AllocError> {
    let kind = match row.input.form {
        Form::Tc => 36,
        Form::Action => 48,
    };
    message(kind, sequence, &row.input.bytes)
}

// The messages of rows, numbered from 1 on.
fn messages_of(rows: &[Row]) -> Result<Vec<Vec<u8>>, AllocError> {
    let mut all = Vec::new();
    let mut sequence = 0u32;
    for row in rows {
        sequence = sequence.wrapping_add(1);
        all.try_push(message_of(row, sequence)?)?;
    }
    Ok(all)
}

/// The captured messages: qdiscs and the like as RTM_NEWQDISC, actions as RTM_NEWACTION.
///
/// # Errors
///
/// A [`Fail`].
pub fn messages() -> Result<Vec<Vec<u8>>, Fail> {
    let rows = captured()?;
    Ok(messages_of(&rows)?)
}

// What files of classic pcap begin with, in microseconds and in nanoseconds, little-endian and big-endian.
#[rustfmt::skip]
static PCAP: [[u8; 24]; 4] = [
    [0xd4, 0xc3, 0xb2, 0xa1, 2, 0, 4, 0, 0, 0, 0, 0, 0, 0, 0, 0, 0, 0, 4, 0, 253, 0, 0, 0],
    [0xa1, 0xb2, 0xc3, 0xd4, 0, 2, 0, 4, 0, 0, 0, 0, 0, 0, 0, 0, 0, 4, 0, 0, 0, 0, 0, 253],
    [0x4d, 0x3c, 0xb2, 0xa1, 2, 0, 4, 0, 0, 0, 0, 0, 0, 0, 0, 0, 0, 0, 4, 0, 253, 0, 0, 0],
    [0xa1, 0xb2, 0x3c, 0x4d, 0, 2, 0, 4, 0, 0, 0, 0, 0, 0, 0, 0, 0, 4, 0, 0, 0, 0, 0, 253],
];

// What files of pcapng begin with, little-endian and big-endian: a section, and an interface that counts microseconds.
#[rustfmt::skip]
static SECTIONS: [[u8; 60]; 2] = [
    [
        10, 13, 13, 10, 28, 0, 0, 0, 0x4d, 0x3c, 0x2b, 0x1a, 1, 0, 0, 0,
        255, 255, 255, 255, 255, 255, 255, 255, 28, 0, 0, 0,
        1, 0, 0, 0, 32, 0, 0, 0, 253, 0, 0, 0, 0, 0, 0, 0, 9, 0, 1, 0, 6, 0, 0, 0, 0, 0, 0, 0, 32, 0, 0, 0,
    ],
    [
        10, 13, 13, 10, 0, 0, 0, 28, 0x1a, 0x2b, 0x3c, 0x4d, 0, 1, 0, 0,
        255, 255, 255, 255, 255, 255, 255, 255, 0, 0, 0, 28,
        0, 0, 0, 1, 0, 0, 0, 32, 0, 253, 0, 0, 0, 0, 0, 0, 0, 9, 0, 1, 6, 0, 0, 0, 0, 0, 0, 0, 0, 0, 0, 32,
    ],
];

/// The bytes of a file before its packets.
///
/// # Errors
///
/// A [`AllocError`].
pub fn beginning(format: Format, is_big: bool) -> Result<Vec<u8>, AllocError> {
    match format {
        Format::Stream => Ok(Vec::new()),
        Format::Microseconds => PCAP[is_big as usize].try_to_vec(),
        Format::Nanoseconds => PCAP[2 + is_big as usize].try_to_vec(),
        Format::Blocks => SECTIONS[is_big as usize].try_to_vec(),
    }
}

// Appends numbers of four bytes.
fn put_numbers(file: &mut Vec<u8>, is_big: bool, numbers: &[u32]) -> Result<(), AllocError> {
    for number in numbers {
        let bytes = if is_big { number.to_be_bytes() } else { number.to_le_bytes() };
        file.try_extend(&bytes)?;
    }
    Ok(())
}

// Appends messages after the cooked header of LINKTYPE_NETLINK for NETLINK_ROUTE.
fn put_cooked(file: &mut Vec<u8>, messages: &[u8]) -> Result<(), AllocError> {
    file.try_extend(&[0, 4, 3, 0x38, 0, 0, 0, 0, 0, 0, 0, 0, 0, 0, 0, 0])?;
    file.try_extend(messages)
}

// Appends a packet of classic pcap, with the fraction of its second.
fn put_record(
    file: &mut Vec<u8>,
    fraction: u32,
    is_big: bool,
    messages: &[u8],
    missing: u16,
) -> Result<(), AllocError> {
    let held = held_of(messages);
    let all = held.wrapping_add(missing as u32);
    put_numbers(file, is_big, &[SECONDS, fraction, held, all])?;
    put_cooked(file, messages)
}

// The time of each packet in microseconds.
const TICKS: u64 = SECONDS as u64 * 1_000_000 + MICROSECONDS as u64;

// Appends a packet of pcapng.
fn put_block(file: &mut Vec<u8>, is_big: bool, messages: &[u8], missing: u16) -> Result<(), AllocError> {
    let (high, low) = ((TICKS >> 32) as u32, (TICKS % 0x1_0000_0000) as u32);
    let held = held_of(messages);
    let all = held.wrapping_add(missing as u32);
    let padding = (4 - held % 4) % 4;
    let length = held.wrapping_add(32 + padding);
    put_numbers(file, is_big, &[6, length, 0, high, low, held, all])?;
    put_cooked(file, messages)?;
    file.try_extend(&[0; 3][..padding as usize])?;
    put_numbers(file, is_big, &[length])
}

/// Appends a packet whose first bytes are in the capture.
///
/// # Errors
///
/// A [`AllocError`].
pub fn put_packet(
    file: &mut Vec<u8>,
    format: Format,
    is_big: bool,
    messages: &[u8],
    missing: u16,
) -> Result<(), AllocError> {
    match format {
        Format::Stream => {
            put_numbers(file, false, &[24, 15, 0, 0, SECONDS, MICROSECONDS])?;
            file.try_extend(messages)
        }
        Format::Microseconds => put_record(file, MICROSECONDS, is_big, messages, missing),
        Format::Nanoseconds => put_record(file, MICROSECONDS * 1000, is_big, messages, missing),
        Format::Blocks => put_block(file, is_big, messages, missing),
    }
}

/// A file of packets of a message each.
///
/// # Errors
///
/// A [`AllocError`].
pub fn file_of(format: Format, is_big: bool, messages: &[Vec<u8>]) -> Result<Vec<u8>, AllocError> {
    let mut file = beginning(format, is_big)?;
    for message in messages {
        put_packet(&mut file, format, is_big, message, 0)?;
    }
    Ok(file)
}
