#![doc = include_str!("../README.md")]
#![deny(missing_docs)]

use conjareho::constants::{RTM_GETACTION, RTM_NEWACTION};
use conjareho::kinds::{ActionMessage, Message};
use conjareho::requests::{Object, Verb};
use conjareho::{DecodeError, RewriteError};
use netlink_packet_core::{NetlinkDeserializable, NetlinkHeader, NetlinkMessage, NetlinkPayload, NetlinkSerializable};

/// A message of traffic control, written, with its type.
#[derive(Clone, PartialEq, Eq, Hash, Debug)]
pub struct Packet {
    message_type: u16,
    bytes: Vec<u8>,
}

impl Packet {
    /// A message about a qdisc, class, filter or chain.
    ///
    /// # Errors
    ///
    /// Those of [`Message::to_bytes`].
    pub fn new(message: &Message, message_type: u16) -> Result<Self, RewriteError> {
        Ok(Packet { message_type, bytes: message.to_bytes()? })
    }

    /// A message about actions.
    ///
    /// # Errors
    ///
    /// Those of [`ActionMessage::to_bytes`].
    pub fn of_actions(message: &ActionMessage, message_type: u16) -> Result<Self, RewriteError> {
        Ok(Packet { message_type, bytes: message.to_bytes()? })
    }

    /// A request for an object, with the flags that iproute2 sends.
    ///
    /// # Errors
    ///
    /// Those of [`Message::to_bytes`].
    pub fn request(message: &Message, object: Object, verb: Verb) -> Result<NetlinkMessage<Packet>, RewriteError> {
        let packet = Packet::new(message, verb.message_type(object))?;
        let header = NetlinkHeader { flags: verb.flags(object), ..NetlinkHeader::default() };
        Ok(NetlinkMessage::new(header, NetlinkPayload::InnerMessage(packet)))
    }

    /// `nlmsg_type`.
    #[must_use]
    pub fn message_type(&self) -> u16 {
        self.message_type
    }

    /// The message, unless it is one about actions.
    ///
    /// # Errors
    ///
    /// Those of [`Message::parse`].
    pub fn message(&self) -> Result<Message, DecodeError> {
        Message::parse(&self.bytes)
    }

    /// The message about actions.
    ///
    /// # Errors
    ///
    /// Those of [`ActionMessage::parse`].
    pub fn action_message(&self) -> Result<ActionMessage, DecodeError> {
        ActionMessage::parse(&self.bytes)
    }
}

impl NetlinkSerializable for Packet {
    fn message_type(&self) -> u16 {
        self.message_type
    }

    fn buffer_len(&self) -> usize {
        self.bytes.len()
    }

    fn serialize(&self, buffer: &mut [u8]) {
        buffer[..self.bytes.len()].copy_from_slice(&self.bytes);
    }
}

impl NetlinkDeserializable for Packet {
    type Error = DecodeError;

    fn deserialize(header: &NetlinkHeader, payload: &[u8]) -> Result<Self, DecodeError> {
        let packet = Packet { message_type: header.message_type, bytes: payload.to_vec() };
        match header.message_type {
            RTM_NEWACTION..=RTM_GETACTION => packet.action_message().map(drop)?,
            _ => packet.message().map(drop)?,
        }
        Ok(packet)
    }
}

impl From<Packet> for NetlinkPayload<Packet> {
    fn from(packet: Packet) -> Self {
        NetlinkPayload::InnerMessage(packet)
    }
}
