//! Options of netlink sockets that netlink-sys has from version 0.8.6 on. Debian 12 has 0.8.3, so `rust/conjareho-tools` takes them from here: one
//! `unsafe` call.

use std::io;
use std::os::fd::AsRawFd;

/// An option of `SOL_NETLINK` that is on or off.
#[derive(Clone, Copy, PartialEq, Eq, Debug)]
pub enum NetlinkOption {
    /// `NETLINK_EXT_ACK`: acknowledgements have the kernel's text, and the offset of the attribute at fault.
    ExtendedAcknowledgements,
    /// `NETLINK_GET_STRICT_CHK`: requests for dumps are checked, and filter what is dumped.
    StrictChecks,
}

/// Turns an option of a netlink socket on. Fails if the kernel doesn't know it, or if this is no netlink socket.
pub fn turn_on(socket: &impl AsRawFd, option: NetlinkOption) -> io::Result<()> {
    let number = match option {
        NetlinkOption::ExtendedAcknowledgements => libc::NETLINK_EXT_ACK,
        NetlinkOption::StrictChecks => 12,
    };
    let on: libc::c_int = 1;
    // SAFETY: the kernel reads four bytes at the address of `on`, which lives until the call has returned.
    let ended = unsafe { libc::setsockopt(socket.as_raw_fd(), libc::SOL_NETLINK, number, (&raw const on).cast(), 4) };
    if ended == 0 { Ok(()) } else { Err(io::Error::last_os_error()) }
}
