//! Where a message is refused, by the proved walk over its attributes and the tables of forms.

use crate::DecodeError;
use crate::forms_kinds::{ACTION_MESSAGE, TC_MESSAGE};
use crate::tc_faults::{self, Path, What};
use crate::paths::path_in;
use alloc::string::String;
use core::fmt;

/// Why a message is refused, and where.
#[derive(Clone, PartialEq, Eq, Hash, Debug)]
pub struct Located {
    /// What is wrong.
    pub error: DecodeError,
    /// The offset of the fault in the message without its netlink header, in bytes: of a broken attribute its first byte, of a value the
    /// first byte of the value.
    pub offset: usize,
    /// The place of the fault as a JSON pointer into the JSON of [`forms`](crate::forms), such as
    /// `/attributes/1/Options/0/Flower/Actions/1`, or `/header` if the header is short.
    pub path: String,
}

impl fmt::Display for Located {
    fn fmt(&self, f: &mut fmt::Formatter<'_>) -> fmt::Result {
        write!(f, "{}, offset {}, path {}", self.error, self.offset, self.path)
    }
}

impl core::error::Error for Located {}

fn text_of(path: &Path) -> String {
    let mut text = String::new();
    // Without memory it is shorter.
    _ = path.put(&mut text);
    text
}

fn locate(bytes: &[u8], what: What) -> Option<Located> {
    let fault = tc_faults::locate(bytes, what)?;
    Some(Located { path: text_of(&fault.path), offset: fault.offset, error: fault.error })
}

/// The first fault of a message without its netlink header: why [`TcMessage::parse`](crate::ParseableBytes::parse) refuses it, and where.
/// `None` if it can be read, such as a message whose options are of a kind without types in [`tc`](crate::tc).
#[must_use]
pub fn locate_tc(bytes: &[u8]) -> Option<Located> {
    locate(bytes, What::Qdisc)
}

/// The same of an action message.
#[must_use]
pub fn locate_action(bytes: &[u8]) -> Option<Located> {
    locate(bytes, What::Action)
}

/// The path of the attribute that begins at this offset in a message of this type without its netlink header.
#[must_use]
pub fn path_at(bytes: &[u8], message_type: u16, offset: usize) -> Option<String> {
    let (form, header) = match What::of_type(message_type)? {
        What::Action => (ACTION_MESSAGE, 4),
        _ => (TC_MESSAGE, 20),
    };
    Some(path_in(form, header, bytes, offset).ok()??.pointer)
}
