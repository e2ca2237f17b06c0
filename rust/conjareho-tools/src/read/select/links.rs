//! Interface names, from lines of text and from link messages.

use super::digits::number_of;
use super::dump::{is_blank, split, without_blanks};
use super::header::little_at;
use super::kinds::frames;
use crate::nla_frames::strip_nul;

/// `RTM_NEWLINK` of `linux/rtnetlink.h`: a message with the number and the name of an interface.
pub const RTM_NEWLINK: u16 = 16;

// `IFLA_IFNAME` of `linux/if_link.h`.
const IFLA_IFNAME: u16 = 3;

// The length of `struct ifinfomsg`, and the offset of its `ifi_index`.
const IFINFOMSG_LEN: usize = 16;
const IFI_INDEX: usize = 4;

/// The forms of a line with an interface name, for error messages.
pub const LINK_FORMS: &str = "a line is a number and a name, such as '7 eth0', or one of 'ip -o link'";

/// An interface number and name.
#[derive(Clone, Copy, Debug)]
pub struct NamedLink<'a> {
    /// Its number.
    pub index: u32,
    /// Its name.
    pub name: &'a [u8],
}

impl<'a> NamedLink<'a> {
    fn new(index: u32, name: &'a [u8]) -> Option<NamedLink<'a>> {
        (!name.is_empty()).then_some(NamedLink { index, name })
    }

    /// The index and the name, if the name is UTF-8.
    #[must_use]
    pub fn text(self) -> Option<(u32, &'a str)> {
        Some((self.index, std::str::from_utf8(self.name).ok()?))
    }
}

/// Parses a line with an interface: a number and a name, as in `7 eth0`, or a line of `ip -o link`.
#[must_use]
pub fn link_of_line(line: &[u8]) -> Option<NamedLink<'_>> {
    let (digits, rest) = split(without_blanks(line), |byte| byte.is_ascii_hexdigit());
    let rest = without_blanks(rest.strip_prefix(b":").unwrap_or(rest));
    let (name, _) = split(rest, |byte| !(is_blank(byte) || byte == b':' || byte == b'@'));
    let index = number_of(10, u64::from(u32::MAX), std::str::from_utf8(digits).ok()?)?;
    NamedLink::new(u32::try_from(index).ok()?, name)
}

/// The interface in the payload of an `RTM_NEWLINK` message: its last `IFLA_IFNAME`.
#[must_use]
pub fn link_of_message(message: &[u8]) -> Option<NamedLink<'_>> {
    let (header, attributes) = message.split_at_checked(IFINFOMSG_LEN)?;
    let name = frames(attributes).filter(|frame| frame.kind() == IFLA_IFNAME).last()?;
    NamedLink::new(little_at(IFI_INDEX, header)?, strip_nul(name.value()))
}
