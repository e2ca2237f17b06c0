//! Traffic control messages, with the packet and the netlink header they came in.

use crate::user::prelude::*;

use crate::nla_frames::{DecodeError, NLA_HEADER_SIZE, NlasIterator, strip_nul};
use crate::paths::{Path, fault_path_in, path_in};
use crate::read::select::{is_filter_kind, kind_of};
use crate::show::columns::Root;
use crate::line::form_of;
use crate::show::outline::what_of;
use crate::tc_capture::{MessageType, NetlinkMessage, Time, rtm_of};
use crate::tc_faults::{Fault, What, locate};

/// A netlink header (`struct nlmsghdr`) without its length.
#[derive(Clone, Copy)]
pub struct NetlinkHeader {
    /// `nlmsg_type`.
    pub kind: u16,
    /// Name of the message type, such as `RTM_NEWQDISC`.
    pub name: &'static str,
    /// `nlmsg_flags`.
    pub flags: u16,
    /// `nlmsg_seq`.
    pub sequence: u32,
    /// `nlmsg_pid`.
    pub port: u32,
}

/// The packet that a message came in.
#[derive(Clone, Copy)]
pub struct Origin {
    /// Time of capture.
    pub time: Option<Time>,
    /// Its number in the capture, from 1.
    pub packet: Option<u64>,
    /// Packet type of its cooked header, unless that is 4 (`PACKET_OUTGOING`).
    pub packet_type: Option<u16>,
}

/// The origin of a message in a stream without times, or on a line of hex: nothing is known.
pub const NO_ORIGIN: Origin = Origin { time: None, packet: None, packet_type: None };

/// A traffic control message: the payload of a netlink message.
#[derive(Clone, Copy)]
pub struct Message<'a> {
    /// The packet it came in.
    pub origin: Origin,
    /// The netlink header. `None` for a line of hex without one.
    pub header: Option<NetlinkHeader>,
    pub holds: MessageType,
    pub payload: &'a [u8],
}

impl<'a> Message<'a> {
    /// The traffic control message in a netlink message. `None` if its type is another.
    #[must_use]
    pub fn in_netlink(origin: Origin, message: &NetlinkMessage<'a>) -> Option<Message<'a>> {
        let rtm = rtm_of(message.kind)?;
        Some(Message { origin, header: Some(header_of(rtm.name, message)), holds: rtm.holds, payload: message.payload })
    }

    /// A message on a line of hex, without a netlink header.
    #[must_use]
    pub fn without_header(holds: MessageType, payload: &'a [u8]) -> Message<'a> {
        Message { origin: NO_ORIGIN, header: None, holds, payload }
    }

    /// The object that it describes: by its type, or without a netlink header by its kind.
    #[must_use]
    pub fn root(&self) -> Root {
        match &self.header {
            Some(header) => root_by_type(header, self.payload),
            None => root_by_kind(self.holds, self.payload),
        }
    }

    /// The object that it describes, whatever its columns.
    #[must_use]
    pub fn what(&self) -> What {
        what_of(self.root())
    }

    /// The path of the attribute that begins at an offset in its bytes. `None` if none begins there.
    ///
    /// # Errors
    ///
    /// A [`AllocError`].
    pub fn path_at(&self, offset: u64) -> Result<Option<Path>, AllocError> {
        path_in(form_of(self.holds), header_length(self.holds), self.payload, offset as usize)
    }

    /// Its first fault. `None` if the codec reads it.
    #[must_use]
    pub fn first_fault(&self) -> Option<Fault> {
        locate(self.payload, self.what())
    }

    /// The path of a fault at an offset in its bytes: that of its frame. `None` if no frame begins there.
    ///
    /// # Errors
    ///
    /// A [`AllocError`].
    pub fn path_to(&self, error: &DecodeError, offset: usize) -> Result<Option<Path>, AllocError> {
        if offset < header_length(self.holds) {
            return Ok(Some(header_path()?));
        }
        fault_path_in(form_of(self.holds), header_length(self.holds), self.payload, frame_at(error, offset))
    }

    /// Name of the message type. Empty without a netlink header.
    #[must_use]
    pub fn name(&self) -> &'static str {
        match &self.header {
            Some(header) => header.name,
            None => "",
        }
    }

    /// The kind: the last `TCA_KIND` of a qdisc, class, filter or chain, or the first action's kind of an action message.
    /// Empty if there is none.
    #[must_use]
    pub fn kind(&self) -> &'a [u8] {
        kind_in(self.holds, self.payload)
    }
}

/// The header of a netlink message whose type has this name.
#[must_use]
pub fn header_of(name: &'static str, message: &NetlinkMessage<'_>) -> NetlinkHeader {
    NetlinkHeader { kind: message.kind, name, flags: message.flags, sequence: message.sequence, port: message.port }
}

// The length of a message's header.
fn header_length(holds: MessageType) -> usize {
    match holds {
        MessageType::Tc => 20,
        MessageType::Action => 4,
    }
}

// The path of a short header.
fn header_path() -> Result<Path, AllocError> {
    Ok(Path { names: fallible::text("header")?, pointer: fallible::text("/header")? })
}

// The offset of the frame of a fault: a malformed frame's own, or that of the attribute with the value.
fn frame_at(error: &DecodeError, offset: usize) -> usize {
    match error {
        DecodeError::FrameHeaderShort { .. } | DecodeError::FrameTooLong { .. } | DecodeError::FrameTooShort { .. } => {
            offset
        }
        _ => offset.saturating_sub(NLA_HEADER_SIZE),
    }
}

// The object of messages of this type.
fn root_by_type(header: &NetlinkHeader, payload: &[u8]) -> Root {
    match header.kind {
        36..=38 => Root::Qdisc,
        40..=42 => Root::Class,
        44..=46 => filter_root(kind_of(payload)),
        100..=102 => Root::Chain,
        _ => action_root(header),
    }
}

fn filter_root(kind: &[u8]) -> Root {
    if kind == "u32".as_bytes() { Root::U32Filter } else { Root::Filter }
}

// A flush is `RTM_DELACTION` with `NLM_F_ROOT`.
fn action_root(header: &NetlinkHeader) -> Root {
    if header.kind == 49 && header.flags / 0x100 % 2 == 1 { Root::Flush } else { Root::Action }
}

// The object of a message without a netlink header.
fn root_by_kind(holds: MessageType, payload: &[u8]) -> Root {
    match holds {
        MessageType::Tc => root_of_kind(kind_of(payload)),
        MessageType::Action => Root::Action,
    }
}

fn root_of_kind(kind: &[u8]) -> Root {
    if is_filter_kind(kind) { filter_root(kind) } else { Root::Qdisc }
}

fn kind_in(holds: MessageType, payload: &[u8]) -> &[u8] {
    match holds {
        MessageType::Tc => kind_of(payload),
        MessageType::Action => first_action_kind(after_header(4, payload)),
    }
}

// The bytes after the message's header.
fn after_header(header: usize, payload: &[u8]) -> &[u8] {
    let (_, rest) = payload.split_at(header.min(payload.len()));
    rest
}

// The kind of the first action that has one (`TCA_ACT_KIND`), in the first list of actions.
fn first_action_kind(bytes: &[u8]) -> &[u8] {
    let actions = first_value(bytes, 1);
    for action in NlasIterator::new(actions) {
        match action {
            Ok(action) => {
                let kind = first_value(action.value(), 1);
                if !kind.is_empty() {
                    return strip_nul(kind);
                }
            }
            Err(_) => return &[],
        }
    }
    &[]
}

// The payload of the first attribute of a type; empty if there is none.
fn first_value(bytes: &[u8], number: u16) -> &[u8] {
    for frame in NlasIterator::new(bytes) {
        match frame {
            Ok(frame) => {
                if frame.kind() == number {
                    return frame.value();
                }
            }
            Err(_) => return &[],
        }
    }
    &[]
}
