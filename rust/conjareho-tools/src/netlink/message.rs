//! Netlink messages: `struct nlmsghdr` and what follows it, in the byte order of the machine.

use super::fault::Fault;

/// The length of `struct nlmsghdr`.
pub const HEADER: usize = 16;
/// The length of `struct tcmsg`.
pub const TCMSG: usize = 20;

pub const NLMSG_NOOP: u16 = 1;
pub const NLMSG_ERROR: u16 = 2;
pub const NLMSG_DONE: u16 = 3;
pub const NLMSG_OVERRUN: u16 = 4;
/// The first type that isn't netlink's own.
pub const NLMSG_MIN_TYPE: u16 = 16;

pub const NLM_F_REQUEST: u16 = 1;
pub const NLM_F_ACK: u16 = 4;
pub const NLM_F_DUMP_INTR: u16 = 0x10;
pub const NLM_F_DUMP: u16 = 0x300;
/// Flags of an acknowledgement: without the request, and with attributes.
pub const NLM_F_CAPPED: u16 = 0x100;
pub const NLM_F_ACK_TLVS: u16 = 0x200;

pub const RTM_NEWLINK: u16 = 16;
pub const RTM_GETLINK: u16 = 18;
pub const RTM_NEWQDISC: u16 = 36;
pub const RTM_DELQDISC: u16 = 37;
pub const RTM_GETQDISC: u16 = 38;
pub const RTM_NEWTCLASS: u16 = 40;
pub const RTM_GETTCLASS: u16 = 42;
pub const RTM_NEWTFILTER: u16 = 44;
pub const RTM_GETTFILTER: u16 = 46;
pub const RTM_NEWACTION: u16 = 48;
pub const RTM_DELACTION: u16 = 49;
pub const RTM_GETACTION: u16 = 50;
pub const RTM_NEWCHAIN: u16 = 100;
pub const RTM_GETCHAIN: u16 = 102;

/// `struct nlmsghdr`.
#[derive(Clone, Copy, PartialEq, Eq, Debug)]
pub struct Header {
    /// `nlmsg_len`: of the whole message, in bytes.
    pub len: usize,
    /// `nlmsg_type`.
    pub kind: u16,
    /// `nlmsg_flags`.
    pub flags: u16,
    /// `nlmsg_seq`.
    pub sequence: u32,
    /// `nlmsg_pid`: in an answer the port id of whom it answers, in a notification of who made the change (0: the kernel).
    pub port: u32,
}

/// The header of a message; `None` if it is cut.
pub fn header_of(message: &[u8]) -> Option<Header> {
    Some(Header {
        len: u32_at(message, 0)? as usize,
        kind: u16_at(message, 4)?,
        flags: u16_at(message, 6)?,
        sequence: u32_at(message, 8)?,
        port: u32_at(message, 12)?,
    })
}

/// The 16-bit number at an offset; `None` if it isn't all there.
pub fn u16_at(bytes: &[u8], at: usize) -> Option<u16> {
    Some(u16::from_ne_bytes(bytes.get(at..at.checked_add(2)?)?.try_into().ok()?))
}

/// The 32-bit number at an offset; `None` if it isn't all there.
pub fn u32_at(bytes: &[u8], at: usize) -> Option<u32> {
    Some(u32::from_ne_bytes(bytes.get(at..at.checked_add(4)?)?.try_into().ok()?))
}

/// True for the types of qdiscs, classes, filters and chains, whose body begins with `struct tcmsg`.
pub fn is_tc(kind: u16) -> bool {
    (RTM_NEWQDISC..=RTM_GETTFILTER).contains(&kind) || (RTM_NEWCHAIN..=RTM_GETCHAIN).contains(&kind)
}

/// True for the types of actions, whose body begins with `struct tcamsg`.
pub fn is_action(kind: u16) -> bool {
    (RTM_NEWACTION..=RTM_GETACTION).contains(&kind)
}

/// `struct tcmsg`.
#[derive(Clone, Copy, PartialEq, Eq, Debug, Default)]
pub struct Tcmsg {
    /// `tcm_ifindex`; -1 (`TCM_IFINDEX_MAGIC_BLOCK`) for what is in a block that interfaces share.
    pub index: i32,
    /// `tcm_handle`.
    pub handle: u32,
    /// `tcm_parent`; the number of the block if `index` is -1.
    pub parent: u32,
    /// `tcm_info`.
    pub info: u32,
}

/// `TCM_IFINDEX_MAGIC_BLOCK`.
pub const MAGIC_BLOCK: i32 = -1;

/// The `struct tcmsg` of a message; `None` if it has another body, or is cut.
pub fn tcmsg_of(message: &[u8]) -> Option<Tcmsg> {
    if !is_tc(header_of(message)?.kind) {
        return None;
    }
    Some(Tcmsg {
        index: u32_at(message, HEADER + 4)? as i32,
        handle: u32_at(message, HEADER + 8)?,
        parent: u32_at(message, HEADER + 12)?,
        info: u32_at(message, HEADER + 16)?,
    })
}

/// A request: `flags` besides `NLM_F_REQUEST`; the sequence number and the port id are set as it is sent.
pub fn request(kind: u16, flags: u16, body: &[u8]) -> Vec<u8> {
    let mut message = vec![0; HEADER];
    message.extend_from_slice(body);
    message[4..6].copy_from_slice(&kind.to_ne_bytes());
    message[6..8].copy_from_slice(&(flags | NLM_F_REQUEST).to_ne_bytes());
    let len = message.len() as u32;
    message[..4].copy_from_slice(&len.to_ne_bytes());
    message
}

/// A request whose body is a `struct tcmsg`.
pub fn tc_request(kind: u16, flags: u16, tcmsg: Tcmsg) -> Vec<u8> {
    let mut body = vec![0; 4];
    body.extend_from_slice(&tcmsg.index.to_ne_bytes());
    for word in [tcmsg.handle, tcmsg.parent, tcmsg.info] {
        body.extend_from_slice(&word.to_ne_bytes());
    }
    request(kind, flags, &body)
}

/// The messages of a datagram or of a stream, each as long as its header says.
#[derive(Clone, Debug)]
pub struct Messages<'a> {
    rest: &'a [u8],
}

impl<'a> Messages<'a> {
    pub fn of(bytes: &'a [u8]) -> Messages<'a> {
        Messages { rest: bytes }
    }

    /// The bytes that weren't read yet.
    pub fn rest(&self) -> &'a [u8] {
        self.rest
    }
}

/// Ends after an error.
impl<'a> Iterator for Messages<'a> {
    type Item = Result<(Header, &'a [u8]), Fault>;

    fn next(&mut self) -> Option<Self::Item> {
        if self.rest.is_empty() {
            return None;
        }
        let rest = std::mem::take(&mut self.rest);
        let whole = header_of(rest)
            .filter(|header| header.len >= HEADER)
            .and_then(|header| Some((header, rest.get(..header.len)?)));
        let Some((header, message)) = whole else {
            return Some(Err(Fault::Broken("no whole message")));
        };
        self.rest = rest.get(header.len.next_multiple_of(4)..).unwrap_or(&[]);
        Some(Ok((header, message)))
    }
}
