//! Notices: places in an input that hold no message.

use crate::user::prelude::*;

use crate::tc_capture::CaptureError;
use ::serde::Serialize;

/// Why a place in an input holds no message.
#[derive(Clone, Copy)]
pub enum Notice {
    /// The capture ends there, or holds only the first bytes of a packet.
    Cut(CaptureError),
    /// The capture holds only the first bytes of a packet, and they are whole messages.
    Snapped,
    /// Longer than the limit, with its length in bytes.
    Skipped(u64),
    /// Bytes that can't be read as the format says.
    Broken(CaptureError),
    /// A line that isn't hex.
    NoHex,
}

impl Notice {
    /// The notice in words.
    ///
    /// # Errors
    ///
    /// A [`AllocError`].
    pub fn text(&self) -> Result<String, AllocError> {
        match self {
            Notice::Cut(fault) => crate::user::formatted(format_args!("truncated: {fault}")),
            Notice::Snapped => {
                crate::user::formatted(format_args!("truncated: the capture has only the first bytes of this packet"))
            }
            Notice::Skipped(length) => crate::user::formatted(format_args!("skipped: {length} bytes")),
            Notice::Broken(fault) => crate::user::formatted(format_args!("malformed: {fault}")),
            Notice::NoHex => crate::user::formatted(format_args!("not hex")),
        }
    }
}

/// The JSON line of a notice.
#[derive(Serialize)]
pub struct NoticeLine<'a> {
    /// The notice in words.
    pub note: &'a str,
    /// Offset in the input, in bytes.
    pub at: u64,
}
