//! Whole netlink messages: `struct nlmsghdr` and a message of traffic control.

use crate::bytes::bytes_after;
use crate::capture::{CaptureError, MessageType, NLMSG_HEADER_LEN, rtm_of};
use crate::requests::{Object, Verb};
use crate::tc::{TcActionMessage, TcMessage};
use crate::tc_capture::message::next_message;
use crate::{DecodeError, ParseableBytes, RewriteError};
use alloc::vec::Vec;
use core::fmt;

/// A netlink message of traffic control, with its header.
#[derive(Clone, PartialEq, Eq, Hash, Debug, Default)]
pub struct Netlink {
    /// `nlmsg_type`, such as 36, `RTM_NEWQDISC`.
    pub message_type: u16,
    /// `nlmsg_flags`, the `NLM_F_` bits.
    pub flags: u16,
    /// `nlmsg_seq`.
    pub sequence: u32,
    /// `nlmsg_pid`, the port of the sender or 0.
    pub port: u32,
    /// What follows the header.
    pub payload: Payload,
}

/// What a netlink message of traffic control holds.
#[derive(Clone, PartialEq, Eq, Hash, Debug)]
pub enum Payload {
    /// `struct tcmsg` and its attributes: a qdisc, a class, a filter or a chain.
    Tc(TcMessage),
    /// `struct tcamsg` and its attributes: actions.
    Action(TcActionMessage),
}

impl Default for Payload {
    fn default() -> Self {
        Payload::Tc(TcMessage::default())
    }
}

/// Why bytes are no netlink message of traffic control.
#[derive(Clone, PartialEq, Eq, Hash, Debug)]
pub enum NetlinkError {
    /// The header is short or broken, or the message is cut.
    Header(CaptureError),
    /// A message of another type: an answer such as `NLMSG_ERROR` or `NLMSG_DONE`, or another family of route netlink.
    OtherType(u16),
    /// The payload can't be read.
    Payload(DecodeError),
}

impl fmt::Display for NetlinkError {
    fn fmt(&self, f: &mut fmt::Formatter<'_>) -> fmt::Result {
        match self {
            NetlinkError::Header(e) => e.fmt(f),
            NetlinkError::OtherType(number) => write!(f, "message type {number} is none of traffic control"),
            NetlinkError::Payload(e) => e.fmt(f),
        }
    }
}

impl core::error::Error for NetlinkError {}

impl Netlink {
    /// A request for an object, with the type and the flags that iproute2 sends.
    #[must_use]
    pub fn request(object: Object, verb: Verb, sequence: u32, message: TcMessage) -> Netlink {
        let payload = Payload::Tc(message);
        Netlink { message_type: verb.message_type(object), flags: verb.flags(object), sequence, port: 0, payload }
    }

    /// A request for actions, with the type and the flags that iproute2 sends.
    #[must_use]
    pub fn action_request(verb: Verb, sequence: u32, message: TcActionMessage) -> Netlink {
        let payload = Payload::Action(message);
        Netlink { message_type: verb.action_type(), flags: verb.action_flags(), sequence, port: 0, payload }
    }

    /// The message at the front of the bytes, and what follows it and its padding.
    ///
    /// [`capture::Messages`](crate::capture::Messages) goes over messages of any type, and [`answers`](crate::answers) reads the kernel's answers.
    ///
    /// # Errors
    ///
    /// `Header` if the message is cut, `OtherType` if it is of another type, `Payload` if the codec refuses it.
    pub fn parse(bytes: &[u8]) -> Result<(Netlink, &[u8]), NetlinkError> {
        let (message, rest) = next_message(bytes).map_err(NetlinkError::Header)?;
        let holds = rtm_of(message.kind).ok_or(NetlinkError::OtherType(message.kind))?.holds;
        let payload = match holds {
            MessageType::Tc => TcMessage::parse(message.payload).map(Payload::Tc),
            MessageType::Action => TcActionMessage::parse(message.payload).map(Payload::Action),
        };
        let netlink = Netlink {
            message_type: message.kind,
            flags: message.flags,
            sequence: message.sequence,
            port: message.port,
            payload: payload.map_err(NetlinkError::Payload)?,
        };
        Ok((netlink, rest))
    }

    /// Its bytes, header first.
    ///
    /// # Errors
    ///
    /// `DoesNotFit` if it can't be written, or has 4 GiB or more. `OutOfMemory` if there is no memory.
    pub fn to_bytes(&self) -> Result<Vec<u8>, RewriteError> {
        let mut bytes = match &self.payload {
            Payload::Tc(message) => bytes_after(NLMSG_HEADER_LEN, message)?,
            Payload::Action(message) => bytes_after(NLMSG_HEADER_LEN, message)?,
        };
        let len = u32::try_from(bytes.len()).map_err(|_| RewriteError::DoesNotFit)?;
        bytes[..4].copy_from_slice(&len.to_le_bytes());
        bytes[4..6].copy_from_slice(&self.message_type.to_le_bytes());
        bytes[6..8].copy_from_slice(&self.flags.to_le_bytes());
        bytes[8..12].copy_from_slice(&self.sequence.to_le_bytes());
        bytes[12..16].copy_from_slice(&self.port.to_le_bytes());
        Ok(bytes)
    }
}
