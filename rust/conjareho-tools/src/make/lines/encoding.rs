//! How messages are written, and their headers.

use std::fmt;

use crate::make::lines::netlink::NetlinkHeader;
use crate::tc_capture::Time;

/// How messages are written.
#[derive(Clone, Copy, PartialEq, Eq, Debug)]
pub enum Encoding {
    /// A line of hex for each message, with its netlink header.
    Hex,
    /// A line of hex for each message, without a netlink header.
    Bare,
    /// A stream of netlink messages.
    Stream,
    /// A capture (pcap).
    Capture,
}

/// Why a message can't be written.
#[derive(Clone, Copy, PartialEq, Eq, Debug)]
pub enum Unwritable {
    /// The line has no type for the netlink header.
    NoType,
    /// The time, in seconds, doesn't fit into a capture.
    Late(u64),
    /// The length doesn't fit into a header, or exceeds the packets that `tcshow` reads.
    TooLong,
}

impl fmt::Display for Unwritable {
    fn fmt(&self, f: &mut fmt::Formatter<'_>) -> fmt::Result {
        match self {
            Unwritable::NoType => {
                f.write_str("/type: found nothing, wanted a message type for the netlink header, or --no-header")
            }
            Unwritable::Late(seconds) => write!(f, "/time: found {seconds}, wanted seconds up to {}", u32::MAX),
            Unwritable::TooLong => f.write_str("the message is too long to be written"),
        }
    }
}

impl std::error::Error for Unwritable {}

/// The most bytes of messages in a packet: with its headers 1 MiB, the largest packet that `tcshow` reads.
pub(crate) const MOST_MESSAGES: usize = 0x10_0000 - 32;

/// The header of a capture: pcap in little-endian order, times with nanoseconds, packets of 1 MiB at most, link type 253
/// (`LINKTYPE_NETLINK`).
pub(crate) const FILE_HEADER: [u8; 24] =
    [0x4d, 0x3c, 0xb2, 0xa1, 2, 0, 4, 0, 0, 0, 0, 0, 0, 0, 0, 0, 0, 0, 0x10, 0, 253, 0, 0, 0];

/// The length of a netlink header (`struct nlmsghdr`).
const NLMSG_HEADER: usize = 16;

/// The length of a cooked header, which a packet of link type 253 begins with.
const COOKED_HEADER: usize = 16;

/// `ARPHRD_NETLINK` (`linux/if_arp.h`).
const ARPHRD_NETLINK: u16 = 824;

/// A message with its netlink header.
pub(crate) fn with_header(given: &NetlinkHeader, bytes: &[u8]) -> Result<Vec<u8>, Unwritable> {
    let kind = given.kind.ok_or(Unwritable::NoType)?;
    let len = bytes.len().saturating_add(NLMSG_HEADER);
    let length = u32::try_from(len).map_err(|_| Unwritable::TooLong)?;
    let mut whole = Vec::with_capacity(len);
    whole.extend(length.to_le_bytes());
    whole.extend(kind.to_le_bytes());
    whole.extend(given.flags.to_le_bytes());
    whole.extend(given.sequence.to_le_bytes());
    whole.extend(given.port.to_le_bytes());
    whole.extend(bytes);
    Ok(whole)
}

/// The header of a packet in a capture, and the cooked header: the packet type, `ARPHRD_NETLINK`, no address, `NETLINK_ROUTE`. `len` are the
/// bytes of the packet's messages.
pub(crate) fn packet_header(time: Time, len: usize, packet_type: u16) -> Result<Vec<u8>, Unwritable> {
    let seconds = u32::try_from(time.seconds).map_err(|_| Unwritable::Late(time.seconds))?;
    let length = u32::try_from(len.saturating_add(COOKED_HEADER)).map_err(|_| Unwritable::TooLong)?;
    let mut header: Vec<u8> =
        [seconds, time.nanoseconds, length, length].into_iter().flat_map(u32::to_le_bytes).collect();
    header.extend(packet_type.to_be_bytes());
    header.extend(ARPHRD_NETLINK.to_be_bytes());
    header.extend([0; 12]);
    Ok(header)
}

/// Appends zeros up to a multiple of four.
pub(crate) fn pad(bytes: &mut Vec<u8>) {
    bytes.resize(bytes.len().next_multiple_of(4), 0);
}
