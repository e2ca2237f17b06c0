//! Fields of the header of a traffic control message.

use super::kinds::{after_header, frames};
use crate::tc_capture::MessageType;

// The offsets of the fields of `struct tcmsg`, and its length.
const IFINDEX: usize = 4;
const HANDLE: usize = 8;
const PARENT: usize = 12;
const INFO: usize = 16;
pub(crate) const TCMSG_LEN: usize = 20;

// `TCA_CHAIN` of `linux/rtnetlink.h`.
const TCA_CHAIN: u16 = 11;

/// The interface number of a message. `None` for an action message.
#[must_use]
pub fn interface_in(holds: MessageType, message: &[u8]) -> Option<u32> {
    number_at(IFINDEX, holds, message)
}

/// The handle of a message. `None` for an action message.
#[must_use]
pub fn handle_in(holds: MessageType, message: &[u8]) -> Option<u32> {
    number_at(HANDLE, holds, message)
}

/// The parent of a message. `None` for an action message.
#[must_use]
pub fn parent_in(holds: MessageType, message: &[u8]) -> Option<u32> {
    number_at(PARENT, holds, message)
}

/// The priority of a filter. `None` for any other message.
#[must_use]
pub fn priority_in(rtm: Option<u16>, holds: MessageType, message: &[u8]) -> Option<u32> {
    number_at(INFO, holds, message).filter(|_| may_be_filter(rtm)).map(|info| info >> 16)
}

/// The chain of a filter, or the chain itself: the number in the last `TCA_CHAIN` of four bytes, or 0. `None` for any other message.
#[must_use]
pub fn chain_in(rtm: Option<u16>, holds: MessageType, message: &[u8]) -> Option<u32> {
    if !(may_be_filter(rtm) || may_be_chain(rtm)) || holds != MessageType::Tc || message.len() < TCMSG_LEN {
        return None;
    }
    let chains = frames(after_header(TCMSG_LEN, message)).filter(|frame| frame.kind() == TCA_CHAIN);
    let numbers = chains.filter_map(|frame| Some(u32::from_le_bytes(frame.value().try_into().ok()?)));
    Some(numbers.last().unwrap_or(0))
}

// True for `RTM_NEWTFILTER` to `RTM_GETTFILTER`, and for a message without a netlink header.
fn may_be_filter(rtm: Option<u16>) -> bool {
    rtm.is_none_or(|number| (44..=46).contains(&number))
}

// True for `RTM_NEWCHAIN` to `RTM_GETCHAIN`, and for a message without a netlink header.
fn may_be_chain(rtm: Option<u16>) -> bool {
    rtm.is_none_or(|number| (100..=102).contains(&number))
}

/// The number in four bytes at an offset, little-endian.
pub(crate) fn little_at(at: usize, bytes: &[u8]) -> Option<u32> {
    bytes.get(at..)?.first_chunk().map(|four| u32::from_le_bytes(*four))
}

// The number in four bytes at an offset of a traffic control message, if it is long enough.
fn number_at(at: usize, holds: MessageType, message: &[u8]) -> Option<u32> {
    if holds == MessageType::Tc { little_at(at, message) } else { None }
}
