//! Names of interfaces in link messages.

use crate::user::prelude::*;

use crate::read::select::{RTM_NEWLINK, link_of_message};
use crate::tc_capture::NetlinkMessage;

/// The index and the name of the interface in an `RTM_NEWLINK` message. `None` for a request, which the kernel may refuse, and for a
/// name that isn't UTF-8.
#[must_use]
pub fn link_in<'a>(message: &NetlinkMessage<'a>) -> Option<(u32, &'a str)> {
    if message.kind != RTM_NEWLINK || message.flags % 2 != 0 {
        return None;
    }
    match link_of_message(message.payload) {
        Some(link) => link.text(),
        None => None,
    }
}
