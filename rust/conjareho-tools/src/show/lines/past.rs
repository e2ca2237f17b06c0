//! What was in the capture before.

use crate::user::prelude::*;

use crate::show::json::{Message, NetlinkHeader, Origin};
use crate::show::lines::times::is_fine;
use crate::tc_capture::{MessageType, Time};

// The most requests that are kept, and the most headers of interrupted dumps.
const MOST_REQUESTS: usize = 1024;

// The most bytes that are kept of a request. So 4 MiB are kept at most.
const MOST_BYTES: usize = 4096;

// `NLM_F_REQUEST` and `NLM_F_DUMP_INTR` (`linux/netlink.h`).
const NLM_F_REQUEST: u16 = 1;

const NLM_F_DUMP_INTR: u16 = 16;

/// True if a flag is set.
///
/// # Panics
///
/// It may, unless this holds, which the proved sources ask of callers:
///
/// - `0 < bit`
pub(crate) fn has_flag(flags: u16, bit: u16) -> bool {
    flags / bit % 2 == 1
}

/// The four flags whose meaning depends on the type.
pub(crate) fn modifiers(flags: u16) -> u16 {
    flags / 0x100 % 0x10
}

/// The type of requests to get the object of a type.
pub(crate) fn get_of(kind: u16) -> u32 {
    u32::from(kind) / 4 * 4 + 2
}

/// A request: its netlink header, its type, and its bytes, if there are at most 4,096.
pub struct Request {
    pub header: NetlinkHeader,
    pub holds: MessageType,
    pub payload: Option<Vec<u8>>,
}

// The bytes that are kept of a request.
fn bytes_kept(payload: &[u8]) -> Result<Option<Vec<u8>>, AllocError> {
    if payload.len() > MOST_BYTES {
        return Ok(None);
    }
    let mut bytes = fallible::with_capacity(payload.len())?;
    bytes.try_extend(payload)?;
    Ok(Some(bytes))
}

fn request_of(header: &NetlinkHeader, found: &Message<'_>) -> Result<Request, AllocError> {
    let payload = bytes_kept(found.payload)?;
    Ok(Request { header: *header, holds: found.holds, payload })
}

// The first time, unless it isn't known.
fn or_time(time: Option<Time>, other: Option<Time>) -> Option<Time> {
    match time {
        Some(time) => Some(time),
        None => other,
    }
}

fn is_fine_time(time: &Option<Time>) -> bool {
    match time {
        Some(time) => is_fine(time),
        None => false,
    }
}

// True if a time so far, or this one, isn't whole microseconds.
fn fine_with(fine: bool, time: &Option<Time>) -> bool {
    fine || is_fine_time(time)
}

/// The last 1,024 requests with at most 4 MiB in all, which dumps were interrupted, the times of the first message and of the last, and what
/// tells how times are written, and who speaks in a stream.
pub struct Requests {
    pub(crate) requests: Vec<Request>,
    pub(crate) interrupted: Vec<NetlinkHeader>,
    pub(crate) first: Option<Time>,
    pub(crate) last: Option<Time>,
    // A time wasn't whole microseconds.
    pub(crate) fine: bool,
    // The kernel has named interfaces.
    pub(crate) named: bool,
}

impl Requests {
    #[must_use]
    pub fn new() -> Requests {
        Requests { requests: Vec::new(), interrupted: Vec::new(), first: None, last: None, fine: false, named: false }
    }

    /// Keeps a message, if it is a request, and its time.
    ///
    /// # Errors
    ///
    /// A [`AllocError`].
    pub fn note(&mut self, found: &Message<'_>) -> Result<(), AllocError> {
        let request = request_in(self, found)?;
        note_request(&mut self.requests, request)?;
        note_interrupted(&mut self.interrupted, &found.header)?;
        self.first = or_time(self.first, found.origin.time);
        self.last = or_time(found.origin.time, self.last);
        self.fine = fine_with(self.fine, &found.origin.time);
        Ok(())
    }

    /// Keeps that the kernel has named an interface.
    pub fn note_name(&mut self) {
        self.named = true;
    }
}

// True for a request to dump all objects of a type (`NLM_F_DUMP`).
fn is_dump(request: &Request) -> bool {
    modifiers(request.header.flags) == 3
}

// True for a request of this type with the message's sequence number, and its port id or 0. Dumps may count, or not.
fn is_before(kind: u32, dumps: bool, header: &NetlinkHeader, request: &Request) -> bool {
    u32::from(request.header.kind) == kind
        && ((dumps || !is_dump(request))
            && (request.header.sequence == header.sequence
                && (request.header.port == header.port || request.header.port == 0)))
}

/// True if one of the requests was of this type.
pub(crate) fn was_sent(before: &[Request], kind: u32, dumps: bool, header: &NetlinkHeader) -> bool {
    let mut left = before;
    'each: while let [request, rest @ ..] = left {
        if is_before(kind, dumps, header, request) {
            return true;
        }
        left = rest;
    }
    false
}

// True if one of the requests was of the message's type, or to get its object.
fn was_asked(before: &[Request], header: &NetlinkHeader) -> bool {
    was_sent(before, u32::from(header.kind), true, header) || was_sent(before, get_of(header.kind), true, header)
}

// True for messages in a file of rtmon, and in a stream in which the kernel has named interfaces.
fn is_of_kernel(past: &Requests, origin: &Origin) -> bool {
    !origin.packet.is_some() && (origin.time.is_some() || past.named)
}

/// True for a request. The kernel copies `NLM_F_REQUEST` and the sequence number of one into a notification.
pub(crate) fn is_request(past: &Requests, origin: &Origin, header: &NetlinkHeader) -> bool {
    has_flag(header.flags, NLM_F_REQUEST)
        && (!is_of_kernel(past, origin)
            && (header.port == 0 || (origin.packet.is_some() && !was_asked(past.requests.as_slice(), header))))
}

// A message as a request, if it is one.
fn request_in(past: &Requests, found: &Message<'_>) -> Result<Option<Request>, AllocError> {
    match &found.header {
        Some(header) => headed_in(past, header, found),
        None => Ok(None),
    }
}

// A message with this header as a request, if it is one.
fn headed_in(past: &Requests, header: &NetlinkHeader, found: &Message<'_>) -> Result<Option<Request>, AllocError> {
    if !is_request(past, &found.origin, header) {
        return Ok(None);
    }
    let request = request_of(header, found)?;
    Ok(Some(request))
}

// Keeps a request, if there is one.
fn note_request(requests: &mut Vec<Request>, request: Option<Request>) -> Result<(), AllocError> {
    match request {
        Some(request) => keep_request(requests, request),
        None => Ok(()),
    }
}

// Removes the first if there are 1,024.
fn make_room<T>(all: &mut Vec<T>) {
    if all.len() >= MOST_REQUESTS {
        let _ = all.remove(0);
    }
}

// Keeps one more.
fn keep<T>(all: &mut Vec<T>, one: T) -> Result<(), AllocError> {
    make_room(all);
    all.try_push(one)?;
    Ok(())
}

fn keep_request(requests: &mut Vec<Request>, request: Request) -> Result<(), AllocError> {
    keep(requests, request)
}

fn keep_header(headers: &mut Vec<NetlinkHeader>, header: NetlinkHeader) -> Result<(), AllocError> {
    keep(headers, header)
}

// Keeps the header of a message of an interrupted dump.
fn note_interrupted(interrupted: &mut Vec<NetlinkHeader>, header: &Option<NetlinkHeader>) -> Result<(), AllocError> {
    match header {
        Some(header) => note_header(interrupted, header),
        None => Ok(()),
    }
}

fn note_header(interrupted: &mut Vec<NetlinkHeader>, header: &NetlinkHeader) -> Result<(), AllocError> {
    if !has_flag(header.flags, NLM_F_DUMP_INTR) {
        return Ok(());
    }
    keep_header(interrupted, *header)
}
