//! Handles as `tc` writes and reads them.

use crate::fallible::prelude::*;

use crate::tc_records::TcHandle;
use crate::tc_texts::{ArrayString, HANDLE_TEXT_LEN, handle_from_tc_text, handle_text};

/// A value that `tc` writes and reads as a text.
pub trait TcText: Sized {
    /// The text that `tc` writes.
    #[must_use]
    fn tc_text(self) -> ArrayString<HANDLE_TEXT_LEN>;

    /// The value of a text, or `None` if `tc` doesn't read it.
    #[must_use]
    fn from_tc_text(text: &str) -> Option<Self>;
}

impl TcText for TcHandle {
    /// The handle as `tc` writes it: `1:10`, `1:`, `root`, in hex. 0 is `0:0`.
    fn tc_text(self) -> ArrayString<HANDLE_TEXT_LEN> {
        handle_text(u32::from(self))
    }

    /// The handle that a text names: `1:10`, `1:`, `:10`, `root`, `none`, `ingress`, `clsact`. Digits are hex, in either case.
    /// A number without a colon is `None`.
    fn from_tc_text(text: &str) -> Option<TcHandle> {
        match handle_from_tc_text(text) {
            Some(number) => Some(TcHandle::from(number)),
            None => None,
        }
    }
}
