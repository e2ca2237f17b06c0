//! The lines of the kernel's answers.

use crate::user::prelude::*;

use crate::itoa::Buffer;
use crate::nla_frames::strip_nul;
use crate::show::brief::{put_byte, put_word};
use crate::show::columns::LinkNames;
use crate::show::json::{Message, NetlinkHeader, Reply};
use crate::show::lines::begin::{begin_with, put_verb};
use crate::show::lines::fault::put_place;
use crate::show::lines::line::{Lines, line_without_bytes, lines_said};
use crate::show::lines::past::{Request, Requests};
use crate::show::lines::times::TimeFormat;
use crate::show::lines::verb::{asked_verb, object_in};
use crate::tc_capture::{NLMSG_HEADER_LEN, Time};

// Appends a byte of the kernel's sentence after another.
fn put_sentence_byte(out: &mut Vec<u8>, last: u8, byte: u8) -> Result<(), AllocError> {
    if byte == 32 && last != 32 {
        return out.try_extend(b" ");
    }
    put_byte(out, byte)
}

// Appends the bytes of the kernel's sentence.
fn put_sentence_bytes(out: &mut Vec<u8>, text: &[u8]) -> Result<(), AllocError> {
    let mut last = 32;
    let mut left = text;
    'each: while let [byte, rest @ ..] = left {
        put_sentence_byte(out, last, *byte)?;
        last = *byte;
        left = rest;
    }
    Ok(())
}

/// Appends the kernel's sentence, if it has one.
pub(crate) fn put_sentence(out: &mut Vec<u8>, text: Option<&[u8]>) -> Result<(), AllocError> {
    match text {
        Some(text) => {
            out.try_extend(b" \"")?;
            put_sentence_bytes(out, strip_nul(text))?;
            out.try_extend(b"\"")
        }
        None => Ok(()),
    }
}

// Appends an offset of a request, and the names of the attributes on the way to it.
fn put_place_at(out: &mut Vec<u8>, request: &Message<'_>, offset: u64) -> Result<(), AllocError> {
    let path = request.path_at(offset)?;
    match path {
        Some(path) => put_place(out, Some(path.names.as_bytes()), offset),
        None => put_place(out, None, offset),
    }
}

// The offset of the fault in the request, from the end of the netlink header.
fn offset_in(reply: &Reply<'_>) -> Option<u64> {
    match reply.answer.offset {
        Some(offset) => Some(u64::from(offset).saturating_sub(NLMSG_HEADER_LEN as u64)),
        None => None,
    }
}

// Appends the place in the request, if the kernel names one.
fn put_place_of(out: &mut Vec<u8>, request: &Message<'_>, reply: &Reply<'_>) -> Result<(), AllocError> {
    match offset_in(reply) {
        Some(offset) => put_place_at(out, request, offset),
        None => Ok(()),
    }
}

/// The first words of a line: the time, `refused` and the name of an error.
pub(crate) fn refused(
    past: &Requests,
    format: TimeFormat<'_>,
    time: &Option<Time>,
    errno: &str,
) -> Result<Vec<u8>, AllocError> {
    let mut text = begin_with(past, format, time, b"refused")?;
    put_word(&mut text, errno.as_bytes())?;
    Ok(text)
}

// The time, and what the kernel says.
fn told(past: &Requests, format: TimeFormat<'_>, reply: &Reply<'_>) -> Result<Vec<u8>, AllocError> {
    let time = &reply.request.origin.time;
    if reply.answer.error == 0 {
        let word = taken_word(reply);
        return begin_with(past, format, time, word);
    }
    let mut buffer = Buffer::new();
    let errno = reply.errno(&mut buffer);
    refused(past, format, time, errno)
}

// What the kernel says of a request that it took.
fn taken_word(reply: &Reply<'_>) -> &'static [u8] {
    match reply.answer.text {
        Some(_) => b"warned",
        None => b"ok",
    }
}

// What the line of an answer begins with, up to the verb of its request.
fn told_text(
    past: &Requests,
    format: TimeFormat<'_>,
    request: &Message<'_>,
    reply: &Reply<'_>,
) -> Result<Vec<u8>, AllocError> {
    let mut text = told(past, format, reply)?;
    put_sentence(&mut text, reply.answer.text)?;
    put_place_of(&mut text, request, reply)?;
    Ok(text)
}

// True if a request has the type and the sequence number of a header.
fn is_like(header: &NetlinkHeader, request: &Request) -> bool {
    request.header.kind == header.kind && request.header.sequence == header.sequence
}

// The last request like one with this header.
fn last_like<'r>(requests: &'r [Request], header: &NetlinkHeader) -> Option<&'r Request> {
    let mut found = None;
    let mut left = requests;
    'each: while let [request, rest @ ..] = left {
        if is_like(header, request) {
            found = Some(request);
        }
        left = rest;
    }
    found
}

/// The bytes of a request, if they were kept.
pub(crate) fn bytes_of(request: &Request) -> Option<&[u8]> {
    match &request.payload {
        Some(bytes) => Some(bytes.as_slice()),
        None => None,
    }
}

fn bytes_like<'r>(requests: &'r [Request], header: &Option<NetlinkHeader>) -> Option<&'r [u8]> {
    match header {
        Some(header) => match last_like(requests, header) {
            Some(request) => bytes_of(request),
            None => None,
        },
        None => None,
    }
}

// The bytes of the request, from the answer or from the capture.
fn asked_bytes<'r>(past: &'r Requests, reply: &Reply<'r>) -> Option<&'r [u8]> {
    if reply.answer.is_capped {
        return bytes_like(past.requests.as_slice(), &reply.request.header);
    }
    Some(reply.request.payload)
}

// Appends the verb of a request.
fn put_asked(out: &mut Vec<u8>, request: &Message<'_>) -> Result<(), AllocError> {
    let verb = asked_verb(object_in(request.root()), &request.header);
    put_verb(out, verb)
}

// The lines of a request whose bytes are known, after this text.
fn lines_of_bytes(
    interfaces: &[(u32, &str)],
    links: &LinkNames,
    mut begin: Vec<u8>,
    statistics: bool,
    request: &Message<'_>,
) -> Result<Vec<u8>, AllocError> {
    put_asked(&mut begin, request)?;
    let lines = lines_said(interfaces, links, begin.as_slice(), statistics, 0, request)?;
    let Lines { text, .. } = lines;
    Ok(text)
}

/// The lines of a request after this text, given its bytes if they are known.
pub(crate) fn lines_asked(
    interfaces: &[(u32, &str)],
    links: &LinkNames,
    mut begin: Vec<u8>,
    statistics: bool,
    request: &Message<'_>,
    bytes: Option<&[u8]>,
) -> Result<Vec<u8>, AllocError> {
    match bytes {
        Some(payload) => {
            let whole = Message { payload, ..*request };
            lines_of_bytes(interfaces, links, begin, statistics, &whole)
        }
        None => {
            put_asked(&mut begin, request)?;
            line_without_bytes(begin.as_slice(), statistics, request)
        }
    }
}

// A message with these bytes, if they are known.
fn with_bytes<'r>(request: &Message<'r>, bytes: Option<&'r [u8]>) -> Message<'r> {
    match bytes {
        Some(payload) => Message { payload, ..*request },
        None => *request,
    }
}

/// The request of an answer after these messages, with its bytes if they are known.
#[must_use]
pub fn request_of<'r>(past: &'r Requests, reply: &Reply<'r>) -> Message<'r> {
    with_bytes(&reply.request, asked_bytes(past, reply))
}

/// The lines of an answer after these messages: `refused` and the error, `warned` or `ok`, the kernel's sentence and the place that it names, then the
/// lines of the request.
///
/// # Errors
///
/// A [`AllocError`].
pub fn lines_of_reply(
    interfaces: &[(u32, &str)],
    links: &LinkNames,
    past: &Requests,
    statistics: bool,
    format: TimeFormat<'_>,
    reply: &Reply<'_>,
) -> Result<Vec<u8>, AllocError> {
    let bytes = asked_bytes(past, reply);
    let request = with_bytes(&reply.request, bytes);
    let begin = told_text(past, format, &request, reply)?;
    lines_asked(interfaces, links, begin, statistics, &reply.request, bytes)
}
