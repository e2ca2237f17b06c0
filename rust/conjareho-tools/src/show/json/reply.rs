//! The kernel's answers (`NLMSG_ERROR`) to traffic control requests.

use crate::user::prelude::*;

use crate::itoa::Buffer;
use crate::line::{AnswerLine, Reason};
use crate::nla_frames::strip_nul;
use crate::paths::Path;
use crate::show::json::line::{header_of as line_header, json_of, packet_of};
use crate::show::json::message::{Message, NetlinkHeader, Origin, header_of};
use crate::show::json::pages::{show_numbers, show_time_of, show_word, text_of};
use crate::show::outline::Page;
use crate::tc_capture::{Answer, NLMSG_HEADER_LEN, NetlinkMessage, answer_in, errno_name};
use crate::tc_texts::put_escaped_byte;

/// An answer of the kernel to a traffic control request: an error, a warning or an acknowledgement.
#[derive(Clone, Copy)]
pub struct Reply<'a> {
    pub header: NetlinkHeader,
    pub answer: Answer<'a>,
    /// The request. Its payload is empty if the answer is capped (`NLM_F_CAPPED`).
    pub request: Message<'a>,
}

impl<'a> Reply<'a> {
    /// The answer in a netlink message. `None` if it isn't an answer, or answers another request.
    #[must_use]
    pub fn in_netlink(origin: Origin, message: &NetlinkMessage<'a>) -> Option<Reply<'a>> {
        let answer = answer_in(message)?;
        let request = Message::in_netlink(origin, &answer.request)?;
        Some(Reply { header: header_of("NLMSG_ERROR", message), answer, request })
    }

    /// True for an acknowledgement without a text. With a text it is a warning.
    #[must_use]
    pub fn is_silent(&self) -> bool {
        self.answer.error == 0 && self.answer.text.is_none()
    }

    /// The name of the error, such as `EINVAL`. Its number if it has no name, or `warning` for error 0.
    pub fn errno<'b>(&self, buffer: &'b mut Buffer) -> &'b str {
        if self.answer.error == 0 {
            return "warning";
        }
        match errno_name(self.answer.error) {
            Some(name) => name,
            None => buffer.format(self.answer.error),
        }
    }

    // The kernel's text, escaped.
    fn text(&self) -> Result<Option<String>, AllocError> {
        let text = self.answer.text.map(strip_nul).filter(|text| !text.is_empty());
        text.map(escaped).transpose()
    }

    // Offset of the fault in the request, in bytes from the end of the netlink header.
    fn offset(&self) -> Option<u64> {
        match self.answer.offset {
            Some(offset) => Some(u64::from(offset).saturating_sub(NLMSG_HEADER_LEN as u64)),
            None => None,
        }
    }
}

// A text with each byte that isn't printable ASCII as `\x1b`.
fn escaped(text: &[u8]) -> Result<String, AllocError> {
    let mut escaped = Vec::with_capacity(text.len());
    for byte in text {
        put_escaped_byte(&mut escaped, *byte)?;
    }
    Ok(String::from_utf8_lossy(&escaped).into_owned())
}

/// Writes the outline of a request, indented.
///
/// # Errors
///
/// A [`AllocError`].
pub fn put_request(page: &mut Page, request: Page) -> Result<(), AllocError> {
    put_indented(page, text_of(&request))
}

// Writes lines indented; on a page of one line, in braces.
fn put_indented(page: &mut Page, text: &str) -> Result<(), AllocError> {
    for line in text.split('\n') {
        page.begin(1)?;
        page.text(line)?;
    }
    page.end()
}

/// Writes the line of an answer: time, error, netlink header, text and place of the fault.
///
/// # Errors
///
/// A [`AllocError`].
pub fn show_reason(page: &mut Page, reply: &Reply<'_>) -> Result<(), AllocError> {
    begin_answer(page, reply)?;
    if let Some(text) = reply.answer.text {
        page.blank()?;
        page.quoted(strip_nul(text))?;
    }
    match reply.offset() {
        Some(offset) => show_fault_at(page, offset, reply),
        None => Ok(()),
    }
}

fn begin_answer(page: &mut Page, reply: &Reply<'_>) -> Result<(), AllocError> {
    show_time_of(page, &reply.request.origin)?;
    page.text(reply.header.name)?;
    page.blank()?;
    page.text(reply.errno(&mut Buffer::new()))?;
    show_numbers(page, &reply.header)
}

// Writes the offset and the path of the fault.
fn show_fault_at(page: &mut Page, offset: u64, reply: &Reply<'_>) -> Result<(), AllocError> {
    page.text(" at ")?;
    page.number(offset)?;
    match path_of(reply)? {
        Some(path) => show_word(page, path.pointer.as_str()),
        None => Ok(()),
    }
}

/// Writes the JSON line of an answer, without a line feed.
///
/// # Errors
///
/// A [`AllocError`].
pub fn reply_line(reply: &Reply<'_>) -> Result<String, AllocError> {
    let reason = Reason {
        errno: reply.errno(&mut Buffer::new()).to_owned(),
        text: reply.text()?,
        offset: reply.offset(),
        path: path_of(reply)?.map(|path| path.pointer),
    };
    let request = &reply.request;
    let quoted = request.header.as_ref().map(line_header).unwrap_or_default();
    let message = (!reply.answer.is_capped).then_some((request.holds, request.payload));
    json_of(&AnswerLine::new(packet_of(&request.origin), line_header(&reply.header), reason, quoted, message))
}

// The path of the attribute at fault, if the answer has its offset.
fn path_of(reply: &Reply<'_>) -> Result<Option<Path>, AllocError> {
    match reply.offset() {
        Some(offset) => reply.request.path_at(offset),
        None => Ok(None),
    }
}
