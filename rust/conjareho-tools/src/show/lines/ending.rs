//! The lines of dumps that end with an error, or were interrupted.

use crate::user::prelude::*;

use crate::itoa::Buffer;
use crate::nla_frames::NlasIterator;
use crate::show::columns::LinkNames;
use crate::show::json::{Message, NetlinkHeader, Origin};
use crate::show::lines::answer::{bytes_of, lines_asked, put_sentence, refused};
use crate::show::lines::begin::begin_with;
use crate::show::lines::past::{Request, Requests, has_flag};
use crate::show::lines::times::TimeFormat;
use crate::tc_capture::{NetlinkMessage, errno_name};

// The types of the message `NLMSG_DONE` and the attribute `NLMSGERR_ATTR_MSG`, and the flag `NLM_F_DUMP_INTR` (`linux/netlink.h`).
const NLMSG_DONE: u16 = 3;

const NLMSGERR_ATTR_MSG: u16 = 1;

const NLM_F_DUMP_INTR: u16 = 16;

// The first four bytes as a number.
fn first_number(bytes: &[u8]) -> u32 {
    u32::from_le_bytes(*bytes.first_chunk().expect("its bytes"))
}

// The error at the end of a dump. 0 for none.
fn end_error(payload: &[u8]) -> u32 {
    if payload.len() < 4 {
        return 0;
    }
    let number = first_number(payload);
    if number < 0x8000_0000 {
        return 0;
    }
    (0x1_0000_0000 - u64::from(number)) as u32
}

fn is_same_dump(message: &NetlinkMessage<'_>, header: &NetlinkHeader) -> bool {
    header.sequence == message.sequence && header.port == message.port
}

fn is_any(message: &NetlinkMessage<'_>, headers: &[NetlinkHeader]) -> bool {
    let mut left = headers;
    'each: while let [header, rest @ ..] = left {
        if is_same_dump(message, header) {
            return true;
        }
        left = rest;
    }
    false
}

// True if one of the messages of a dump has `NLM_F_DUMP_INTR`.
fn is_interrupted(past: &Requests, message: &NetlinkMessage<'_>) -> bool {
    has_flag(message.flags, NLM_F_DUMP_INTR) || is_any(message, past.interrupted.as_slice())
}

// True for a request to dump, to which the end of a dump belongs.
fn is_dumped_by(message: &NetlinkMessage<'_>, request: &Request) -> bool {
    request.header.kind % 4 == 2
        && (request.header.sequence == message.sequence
            && (request.header.port == message.port || request.header.port == 0))
}

fn last_dumped<'r>(requests: &'r [Request], message: &NetlinkMessage<'_>) -> Option<&'r Request> {
    let mut found = None;
    let mut left = requests;
    'each: while let [request, rest @ ..] = left {
        if is_dumped_by(message, request) {
            found = Some(request);
        }
        left = rest;
    }
    found
}

// The request of a dump that ends with an error or was interrupted.
fn ended_dump<'r>(past: &'r Requests, message: &NetlinkMessage<'_>) -> Option<&'r Request> {
    if message.kind != NLMSG_DONE {
        return None;
    }
    if end_error(message.payload) == 0 && !is_interrupted(past, message) {
        return None;
    }
    last_dumped(past.requests.as_slice(), message)
}

// A request without its bytes, at the time of its end.
fn request_at<'r>(origin: Origin, request: &Request) -> Message<'r> {
    Message { origin, header: Some(request.header), holds: request.holds, payload: &[] }
}

/// The request of a dump that ends with an error or was interrupted. `None` if it ended well, or its request isn't known.
#[must_use]
pub fn dump_of<'r>(past: &'r Requests, origin: Origin, message: &NetlinkMessage<'_>) -> Option<Message<'r>> {
    let request = ended_dump(past, message)?;
    let found = request_at(origin, request);
    match bytes_of(request) {
        Some(payload) => Some(Message { payload, ..found }),
        None => Some(found),
    }
}

// The last text in the attributes of an extended acknowledgement.
fn last_text(bytes: &[u8]) -> Option<&[u8]> {
    let mut text = None;
    for frame in NlasIterator::new(bytes) {
        match frame {
            Ok(frame) => {
                if frame.kind() == NLMSGERR_ATTR_MSG {
                    text = Some(frame.value());
                }
            }
            Err(_) => return text,
        }
    }
    text
}

// The kernel's sentence about the error at the end of a dump.
fn end_sentence<'m>(message: &NetlinkMessage<'m>) -> Option<&'m [u8]> {
    if message.payload.len() < 4 || end_error(message.payload) == 0 {
        return None;
    }
    let (_, attributes) = message.payload.split_at(4);
    last_text(attributes)
}

// The time, how a dump ends, and the kernel's sentence about it.
fn end_text(
    past: &Requests,
    format: TimeFormat<'_>,
    origin: &Origin,
    message: &NetlinkMessage<'_>,
) -> Result<Vec<u8>, AllocError> {
    let mut text = ending(past, format, origin, message)?;
    put_sentence(&mut text, end_sentence(message))?;
    Ok(text)
}

// The time, and how a dump ends.
fn ending(
    past: &Requests,
    format: TimeFormat<'_>,
    origin: &Origin,
    message: &NetlinkMessage<'_>,
) -> Result<Vec<u8>, AllocError> {
    let error = end_error(message.payload);
    if error == 0 {
        return begin_with(past, format, &origin.time, b"interrupted");
    }
    let mut buffer = Buffer::new();
    refused(past, format, &origin.time, name_of(error, &mut buffer))
}

// The name of an error, or its number.
fn name_of<'b>(error: u32, buffer: &'b mut Buffer) -> &'b str {
    match errno_name(error) {
        Some(name) => name,
        None => buffer.format(error),
    }
}

/// The line of a dump that ends with an error or was interrupted, after these messages: `refused`, the error and the kernel's sentence, or `interrupted`, then
/// the line of its request. Nothing if it ended well, or its request isn't known.
///
/// # Errors
///
/// A [`AllocError`].
pub fn lines_of_end(
    interfaces: &[(u32, &str)],
    links: &LinkNames,
    past: &Requests,
    statistics: bool,
    format: TimeFormat<'_>,
    origin: Origin,
    message: &NetlinkMessage<'_>,
) -> Result<Vec<u8>, AllocError> {
    let request = match ended_dump(past, message) {
        Some(request) => request,
        None => return Ok(Vec::new()),
    };
    let begin = end_text(past, format, &origin, message)?;
    let asked = request_at(origin, request);
    lines_asked(interfaces, links, begin, statistics, &asked, bytes_of(request))
}
