//! The netlink header and the packet of a message.

use crate::tc_capture::{MessageType, Time};

/// The netlink header and the packet of a message, from its line.
#[derive(Clone, Copy)]
pub struct NetlinkHeader {
    pub holds: MessageType,
    /// `nlmsg_type`. `None` if the line has only the message.
    pub kind: Option<u16>,
    /// `nlmsg_flags`.
    pub flags: u16,
    /// `nlmsg_seq`.
    pub sequence: u32,
    /// `nlmsg_pid`.
    pub port: u32,
    pub packet: PacketOf,
}

/// The packet of a message.
#[derive(Clone, Copy)]
pub struct PacketOf {
    /// Its number. `None` for a packet with only this message.
    pub number: Option<u64>,
    pub time: Time,
    /// The packet type of the cooked header.
    pub packet_type: u16,
}

/// The packet type `PACKET_OUTGOING` (`linux/if_packet.h`).
pub const OUTGOING: u16 = 4;

/// An outgoing packet with one message.
#[must_use]
pub fn packet_at(time: Time) -> PacketOf {
    PacketOf { number: None, time, packet_type: OUTGOING }
}

impl PacketOf {
    /// True if messages are of one packet: same number, time and type.
    pub(crate) fn is_same(&self, other: &PacketOf) -> bool {
        let time = |packet: &PacketOf| (packet.time.seconds, packet.time.nanoseconds);
        self.number.is_some()
            && self.number == other.number
            && time(self) == time(other)
            && self.packet_type == other.packet_type
    }
}
