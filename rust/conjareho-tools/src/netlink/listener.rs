//! Notifications of what changes in traffic control.

use super::fault::Fault;
use super::kernel::not_interrupted;
use super::message::{MAGIC_BLOCK, Messages, is_action, is_tc, tcmsg_of};
use super::socket::Socket;
use super::transport::Transport;
use std::collections::BTreeSet;
use std::time::Duration;

/// A notification.
#[derive(Clone, PartialEq, Eq, Debug)]
pub struct Notice {
    /// The port id of who made the change; 0 for what the kernel does without a request.
    pub port: u32,
    /// The type of the message.
    pub kind: u16,
    /// The message, with its header.
    pub message: Vec<u8>,
}

impl Notice {
    /// True if it is about one of these interfaces, or about what is in one of these shared blocks.
    pub fn concerns(&self, interfaces: &[u32], blocks: &[u32]) -> bool {
        match tcmsg_of(&self.message) {
            Some(tcmsg) if tcmsg.index == MAGIC_BLOCK => blocks.contains(&tcmsg.parent),
            Some(tcmsg) => interfaces.contains(&(tcmsg.index as u32)),
            None => false,
        }
    }

    /// True if it is about actions by themselves.
    pub fn is_action(&self) -> bool {
        is_action(self.kind)
    }
}

/// What was heard.
#[derive(Clone, PartialEq, Eq, Debug, Default)]
pub struct Heard {
    pub notices: Vec<Notice>,
    /// True if the kernel dropped some (`ENOBUFS`): anything may have changed.
    pub lost: bool,
}

impl Heard {
    /// True if one of these interfaces, one of these blocks or any action changed, or if that can't be said.
    pub fn is_change(&self, interfaces: &[u32], blocks: &[u32]) -> bool {
        self.lost || self.notices.iter().any(|notice| notice.is_action() || notice.concerns(interfaces, blocks))
    }
}

/// What changed, by notifications.
#[derive(Clone, PartialEq, Eq, Debug, Default)]
pub struct Changes {
    interfaces: BTreeSet<i32>,
    blocks: BTreeSet<u32>,
    has_actions: bool,
    has_lost: bool,
}

impl Changes {
    /// Adds what is heard since the last call.
    pub fn listen<T: Transport>(&mut self, listener: &mut Listener<T>) -> Result<(), Fault> {
        self.listen_shortly(listener, MOST_WAITING)
    }

    /// Adds what is heard since the last call, of so many datagrams at most.
    pub fn listen_shortly<T: Transport>(&mut self, listener: &mut Listener<T>, most: usize) -> Result<(), Fault> {
        self.has_lost |= listener.each(most, |notice| match tcmsg_of(&notice.message) {
            Some(tcmsg) if tcmsg.index == MAGIC_BLOCK => drop(self.blocks.insert(tcmsg.parent)),
            Some(tcmsg) => drop(self.interfaces.insert(tcmsg.index)),
            None => self.has_actions = true,
        })?;
        Ok(())
    }

    /// True if one of these interfaces, one of these blocks or any action changed, or if that can't be said.
    pub fn concern(&self, interfaces: &[u32], blocks: &[u32]) -> bool {
        let has_interface = interfaces.iter().any(|index| self.interfaces.contains(&(*index as i32)));
        self.has_lost || self.has_actions || has_interface || blocks.iter().any(|block| self.blocks.contains(block))
    }
}

/// The most datagrams that the buffer of a socket (8 MiB, as the kernel counts it) can hold: each takes more than 512 bytes of it.
const MOST_WAITING: usize = 1 << 14;

/// A socket that hears notifications, from when it is opened.
pub struct Listener<T = Socket> {
    transport: T,
    datagram: Vec<u8>,
}

impl Listener<Socket> {
    /// Hears what changes in this network namespace.
    pub fn open() -> Result<Listener<Socket>, Fault> {
        Ok(Listener::over(Socket::listening().map_err(|error| Fault::Socket("socket", error))?))
    }
}

impl<T: Transport> Listener<T> {
    pub fn over(transport: T) -> Listener<T> {
        Listener { transport, datagram: Vec::new() }
    }

    /// What was heard since the last call, without waiting.
    pub fn heard(&mut self) -> Result<Heard, Fault> {
        let mut notices = Vec::new();
        let lost = self.each(MOST_WAITING, |notice| notices.push(notice))?;
        Ok(Heard { notices, lost })
    }

    // Takes each notification that waits, of so many datagrams at most, however fast others come. True if the kernel dropped some.
    fn each(&mut self, most: usize, mut take: impl FnMut(Notice)) -> Result<bool, Fault> {
        let mut lost = false;
        for _ in 0..most {
            match self.receive(Some(Duration::ZERO)) {
                Ok(notices) => notices.into_iter().for_each(&mut take),
                Err(Fault::Silent) => break,
                Err(Fault::Lost) => lost = true,
                Err(fault) => return Err(fault),
            }
        }
        Ok(lost)
    }

    /// The notifications of the next datagram; none if it isn't the kernel's. `Fault::Silent` if none came within `wait`, `Fault::Lost` if the
    /// kernel dropped some.
    pub fn receive(&mut self, wait: Option<Duration>) -> Result<Vec<Notice>, Fault> {
        let sender = loop {
            match self.transport.receive(&mut self.datagram, wait) {
                Ok(sender) => break sender,
                Err(error) => not_interrupted(error)?,
            }
        };
        if sender == 0 { notices_in(&self.datagram) } else { Ok(Vec::new()) }
    }
}

fn notices_in(datagram: &[u8]) -> Result<Vec<Notice>, Fault> {
    let mut notices = Vec::new();
    for message in Messages::of(datagram) {
        let (header, message) = message?;
        if is_tc(header.kind) || is_action(header.kind) {
            notices.push(Notice { port: header.port, kind: header.kind, message: message.to_vec() });
        }
    }
    Ok(notices)
}
