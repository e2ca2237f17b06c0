//! A socket of route netlink.

use super::transport::Transport;
use netlink_options::{NetlinkOption, turn_on};
use netlink_sys::{SocketAddr, protocols::NETLINK_ROUTE};
use nix::errno::Errno;
use nix::libc::{MSG_DONTWAIT, MSG_TRUNC};
use nix::poll::{PollFd, PollFlags, poll};
use nix::sys::socket::{getsockopt, setsockopt, sockopt};
use std::io;
use std::os::fd::AsRawFd;
use std::time::Duration;

/// `RTNLGRP_TC`: what changes in qdiscs, classes, filters, chains and actions.
pub const RTNLGRP_TC: u32 = 4;
/// The size of the buffers for datagrams that are received and sent, in bytes.
const BUFFER: usize = 4 << 20;
/// The longest datagram that is received, in bytes: far longer than any that the kernel makes.
const LONGEST: usize = 1 << 20;
/// What the kernel needs of the buffer for itself when a datagram is sent.
const SEND_OVERHEAD: usize = 32;

/// A socket of route netlink, connected to the kernel of its network namespace.
pub struct Socket {
    socket: netlink_sys::Socket,
    port: u32,
}

impl Socket {
    /// A socket for requests and dumps.
    pub fn open() -> io::Result<Socket> {
        let mut socket = netlink_sys::Socket::new(NETLINK_ROUTE)?;
        if_known(turn_on(&socket, NetlinkOption::ExtendedAcknowledgements))?;
        if_known(turn_on(&socket, NetlinkOption::StrictChecks))?;
        if_known(socket.set_cap_ack(true))?;
        let fd = socket.as_raw_fd();
        // With the rights for it as much as is wanted; else as much as the machine's limits allow.
        if setsockopt(fd, sockopt::RcvBufForce, &BUFFER).is_err() {
            setsockopt(fd, sockopt::RcvBuf, &BUFFER)?;
        }
        if setsockopt(fd, sockopt::SndBufForce, &BUFFER).is_err() {
            setsockopt(fd, sockopt::SndBuf, &BUFFER)?;
        }
        let port = socket.bind_auto()?.port_number();
        Ok(Socket { socket, port })
    }

    /// A socket that hears what changes in traffic control.
    pub fn listening() -> io::Result<Socket> {
        let mut socket = Socket::open()?;
        socket.socket.add_membership(RTNLGRP_TC)?;
        Ok(socket)
    }

    // The next datagram; `WouldBlock` if there is none.
    fn receive_now(&mut self, into: &mut Vec<u8>) -> io::Result<u32> {
        into.clear();
        into.reserve(LONGEST);
        let (received, sender) = self.socket.recv_from(into, MSG_DONTWAIT | MSG_TRUNC)?;
        if received != into.len() {
            return Err(io::Error::new(io::ErrorKind::InvalidData, "a datagram was cut"));
        }
        Ok(sender.port_number())
    }

    fn is_ready(&self, wait: Option<Duration>) -> io::Result<bool> {
        let milliseconds = wait.map_or(-1, |wait| i32::try_from(wait.as_millis()).unwrap_or(i32::MAX));
        Ok(poll(&mut [PollFd::new(self.socket.as_raw_fd(), PollFlags::POLLIN)], milliseconds)? > 0)
    }
}

// Older kernels lack some options; without them, a refusal has no text.
fn if_known(set: io::Result<()>) -> io::Result<()> {
    match set {
        Err(error) if error.raw_os_error() == Some(Errno::ENOPROTOOPT as i32) => Ok(()),
        set => set,
    }
}

impl Transport for Socket {
    fn port(&self) -> u32 {
        self.port
    }

    fn most(&self) -> usize {
        getsockopt(self.socket.as_raw_fd(), sockopt::SndBuf).map_or(0, |size: usize| size.saturating_sub(SEND_OVERHEAD))
    }

    fn room(&self) -> usize {
        getsockopt(self.socket.as_raw_fd(), sockopt::RcvBuf).unwrap_or(0)
    }

    fn send(&mut self, datagram: &[u8]) -> io::Result<usize> {
        self.socket.send_to(datagram, &SocketAddr::new(0, 0), 0)
    }

    fn receive(&mut self, into: &mut Vec<u8>, wait: Option<Duration>) -> io::Result<u32> {
        loop {
            // Most answers are there when a request returns, so it waits only if there is none.
            match self.receive_now(into) {
                Err(error) if error.kind() == io::ErrorKind::WouldBlock => {}
                received => return received,
            }
            if wait == Some(Duration::ZERO) || !self.is_ready(wait)? {
                return Err(io::ErrorKind::TimedOut.into());
            }
        }
    }
}
