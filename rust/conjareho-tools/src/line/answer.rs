//! The line of an answer of the kernel (`NLMSG_ERROR`). It is written, and of no use to who reads messages.

use serde::Serialize;

use super::{Header, Origin, shown};
use crate::forms_json::Shown;
use crate::forms_kinds::TcTables;
use crate::tc_capture::MessageType;

/// Error, text and place in an answer of the kernel.
#[derive(Serialize)]
pub(crate) struct Reason {
    /// The name of the error, such as `EINVAL`. Its number if it has no name.
    pub(crate) errno: String,
    /// The kernel's text, with each byte that isn't printable ASCII as `\x1b`.
    #[serde(skip_serializing_if = "Option::is_none")]
    pub(crate) text: Option<String>,
    /// The offset of the fault in the request (`NLMSGERR_ATTR_OFFS`), in bytes from the end of the netlink header.
    #[serde(skip_serializing_if = "Option::is_none")]
    pub(crate) offset: Option<u64>,
    /// The path of the fault in the request.
    #[serde(skip_serializing_if = "Option::is_none")]
    pub(crate) path: Option<String>,
}

/// The line of an answer of the kernel.
#[derive(Serialize)]
pub(crate) struct AnswerLine<'a> {
    #[serde(flatten)]
    origin: Origin,
    #[serde(flatten)]
    header: Header,
    #[serde(flatten)]
    reason: Reason,
    request: Quoted<'a>,
}

/// The request that an answer quotes; without its message if the kernel quotes the header alone (`NLM_F_CAPPED`).
#[derive(Serialize)]
struct Quoted<'a> {
    #[serde(flatten)]
    header: Header,
    #[serde(skip_serializing_if = "Option::is_none")]
    message: Option<Shown<'a, TcTables>>,
}

impl<'a> AnswerLine<'a> {
    /// `message` is that of the request, if it is quoted.
    pub(crate) fn new(
        origin: Origin,
        header: Header,
        reason: Reason,
        request: Header,
        message: Option<(MessageType, &'a [u8])>,
    ) -> AnswerLine<'a> {
        let message = message.map(|(holds, payload)| shown(holds, payload));
        AnswerLine { origin, header, reason, request: Quoted { header: request, message } }
    }
}
