//! A conversation with the kernel: requests with their acknowledgements, and dumps.

use super::attributes::{Attributes, text};
use super::fault::{Fault, Refusal};
use super::message::*;
use super::socket::Socket;
use super::transport::Transport;
use nix::errno::Errno;
use std::io;
use std::time::{Duration, Instant};

/// How long an answer may take.
pub const PATIENCE: Duration = Duration::from_secs(10);
/// The most datagrams of an earlier dump that are skipped before the next.
const MOST_LEFT: usize = 1 << 16;

/// The most dumps that are asked for at once.
pub const MOST_AT_ONCE: usize = 64;
/// What an answer of a dump takes of the room for datagrams: the kernel makes one of 32 KiB, and counts what it uses besides. Half of the room is
/// left for the rest.
const ROOM_OF_ONE: usize = (2 * 48) << 10;

const NLMSGERR_ATTR_MSG: u16 = 1;
const NLMSGERR_ATTR_OFFS: u16 = 2;
/// The greatest error that the kernel answers with, `MAX_ERRNO`.
const MAX_ERRNO: u32 = 4095;

/// A conversation with the kernel. Each message is sent once. Answers are matched by sequence number and port id, and datagrams from other senders
/// than the kernel are skipped.
pub struct Kernel<T = Socket> {
    transport: T,
    sequence: u32,
    datagram: Vec<u8>,
    // A dump ended early, so that more of it may come.
    has_left: bool,
    // How many dumps are asked for at once next time, and at most.
    at_once: usize,
    most_at_once: usize,
}

// A dump that was asked for, and what came of it.
#[derive(Default)]
struct Asked {
    sequence: u32,
    dumped: Vec<Vec<u8>>,
    has_ended: bool,
    // The kernel was busy with a dump that was asked for before.
    is_refused: bool,
}

impl Asked {
    // Takes a message of its answer.
    fn take(&mut self, header: Header, message: &[u8], is_first: bool) -> Result<(), Fault> {
        match header.kind {
            NLMSG_NOOP => {}
            NLMSG_OVERRUN => return Err(Fault::Lost),
            NLMSG_DONE | NLMSG_ERROR => {
                self.has_ended = true;
                match ended(header, message) {
                    Ok(()) if header.kind == NLMSG_ERROR => return Err(Fault::Broken("an acknowledgement of a dump")),
                    Err(Fault::Refused(refusal)) if !self.dumped.is_empty() => return Err(Fault::Cut(refusal)),
                    Err(Fault::Refused(refusal)) if !is_first && refusal.is(Errno::EBUSY) => self.is_refused = true,
                    answer => answer?,
                }
            }
            kind if kind >= NLMSG_MIN_TYPE => self.dumped.push(message.to_vec()),
            _ => return Err(Fault::Broken("not an answer to a dump")),
        }
        Ok(())
    }
}

impl Kernel<Socket> {
    /// The kernel of this network namespace.
    pub fn open() -> Result<Kernel<Socket>, Fault> {
        Ok(Kernel::over(Socket::open().map_err(|error| Fault::Socket("socket", error))?))
    }
}

impl<T: Transport> Kernel<T> {
    pub fn over(transport: T) -> Kernel<T> {
        let most_at_once = (transport.room() / ROOM_OF_ONE).clamp(1, MOST_AT_ONCE);
        Kernel { transport, sequence: 0, datagram: Vec::new(), has_left: false, at_once: most_at_once, most_at_once }
    }

    /// Our port id, which notifications of our changes have.
    pub fn port(&self) -> u32 {
        self.transport.port()
    }

    /// The longest message that can be sent, in bytes.
    pub fn most(&self) -> usize {
        self.transport.most()
    }

    /// Sends a request, and returns the answers before its acknowledgement.
    pub fn request(&mut self, message: &[u8]) -> Result<Vec<Vec<u8>>, Fault> {
        let mut datagram = Vec::new();
        let ours = (self.stamp(message, NLM_F_REQUEST | NLM_F_ACK, &mut datagram)?, self.port());
        self.send(&datagram)?;
        let mut answers = Vec::new();
        loop {
            self.receive()?;
            for message in Messages::of(&self.datagram) {
                let (header, message) = message?;
                if (header.sequence, header.port) != ours {
                    continue;
                }
                match header.kind {
                    NLMSG_NOOP => {}
                    NLMSG_ERROR => return ended(header, message).map(|()| answers),
                    NLMSG_OVERRUN => return Err(Fault::Lost),
                    kind if kind >= NLMSG_MIN_TYPE => answers.push(message.to_vec()),
                    _ => return Err(Fault::Broken("not an answer to a request")),
                }
            }
        }
    }

    /// Sends the request of a dump, and returns what is dumped.
    pub fn dump(&mut self, message: &[u8]) -> Result<Vec<Vec<u8>>, Fault> {
        Ok(self.dumps(&[message])?.pop().unwrap_or_default())
    }

    /// Sends requests of dumps, and returns what each of them dumps. Several are sent at once: the kernel answers a dump that has nothing while it
    /// takes the request. Another dump goes on as its answers are read, and until its end the kernel refuses those after it, which are sent again.
    pub fn dumps(&mut self, messages: &[impl AsRef<[u8]>]) -> Result<Vec<Vec<Vec<u8>>>, Fault> {
        let mut dumped = Vec::with_capacity(messages.len());
        while dumped.len() < messages.len() {
            let left = &messages[dumped.len()..];
            let asked = &left[..self.at_once.min(left.len())];
            let found = self.first_dumps(asked)?;
            if found.len() < asked.len() {
                self.at_once = found.len();
            } else if asked.len() == self.at_once {
                self.at_once = (2 * self.at_once).min(self.most_at_once);
            }
            dumped.extend(found);
        }
        Ok(dumped)
    }

    // Sends requests of dumps at once, and returns what is dumped for those that the kernel took, which are the first of them.
    fn first_dumps(&mut self, messages: &[impl AsRef<[u8]>]) -> Result<Vec<Vec<Vec<u8>>>, Fault> {
        self.skip_left()?;
        let mut datagram = Vec::new();
        let mut asked = Vec::new();
        for message in messages {
            asked.push(Asked {
                sequence: self.stamp(message.as_ref(), NLM_F_REQUEST | NLM_F_DUMP, &mut datagram)?,
                ..Asked::default()
            });
        }
        self.send(&datagram)?;
        self.has_left = true;
        let is_interrupted = self.read_dumps(&mut asked)?;
        self.has_left = false;
        if is_interrupted {
            return Err(Fault::Interrupted);
        }
        Ok(asked.into_iter().take_while(|asked| !asked.is_refused).map(|asked| asked.dumped).collect())
    }

    // Reads up to the end of all of these dumps. True if the kernel says that one was interrupted.
    fn read_dumps(&mut self, asked: &mut [Asked]) -> Result<bool, Fault> {
        let mut interrupted = false;
        while asked.iter().any(|asked| !asked.has_ended) {
            self.receive()?;
            for message in Messages::of(&self.datagram) {
                let (header, message) = message?;
                let is_answered = |asked: &Asked| asked.sequence == header.sequence && !asked.has_ended;
                let place = asked.iter().position(is_answered).filter(|_| header.port == self.transport.port());
                if let Some(place) = place {
                    interrupted |= header.flags & NLM_F_DUMP_INTR != 0;
                    asked[place].take(header, message, place == 0)?;
                }
            }
        }
        Ok(interrupted)
    }

    // Adds a message to a datagram, with a sequence number of its own, which is returned.
    fn stamp(&mut self, message: &[u8], flags: u16, datagram: &mut Vec<u8>) -> Result<u32, Fault> {
        let header = header_of(message).filter(|header| header.len == message.len());
        let Some(header) = header else {
            return Err(Fault::Broken("a request of another length than its header says"));
        };
        self.sequence = self.sequence.wrapping_add(1).max(1);
        let begin = datagram.len().next_multiple_of(4);
        datagram.resize(begin, 0);
        datagram.extend_from_slice(message);
        let stamped = &mut datagram[begin..];
        stamped[6..8].copy_from_slice(&(header.flags | flags).to_ne_bytes());
        stamped[8..12].copy_from_slice(&self.sequence.to_ne_bytes());
        stamped[12..16].copy_from_slice(&self.transport.port().to_ne_bytes());
        Ok(self.sequence)
    }

    // Sends a datagram.
    fn send(&mut self, datagram: &[u8]) -> Result<(), Fault> {
        let sent = loop {
            match self.transport.send(datagram) {
                Err(error) if error.kind() == io::ErrorKind::Interrupted => {}
                sent => break sent.map_err(|error| Fault::Socket("send", error))?,
            }
        };
        if sent == datagram.len() { Ok(()) } else { Err(Fault::Broken("a request that was sent in part")) }
    }

    // Receives the next datagram of the kernel.
    fn receive(&mut self) -> Result<(), Fault> {
        let deadline = Instant::now() + PATIENCE;
        while Instant::now() < deadline {
            match self.transport.receive(&mut self.datagram, Some(deadline.saturating_duration_since(Instant::now()))) {
                Ok(0) => return Ok(()),
                Ok(_) => {}
                Err(error) => not_interrupted(error)?,
            }
        }
        Err(Fault::Silent)
    }

    // Skips what is left of a dump that ended early, so that the next one can begin.
    fn skip_left(&mut self) -> Result<(), Fault> {
        for _ in 0..if self.has_left { MOST_LEFT } else { 0 } {
            match self.transport.receive(&mut self.datagram, Some(Duration::ZERO)) {
                Err(error) if error.kind() == io::ErrorKind::TimedOut => {
                    self.has_left = false;
                    break;
                }
                Err(error) => match not_interrupted(error) {
                    Ok(()) | Err(Fault::Lost) => {}
                    Err(fault) => return Err(fault),
                },
                Ok(_) => {}
            }
        }
        Ok(())
    }
}

// What a failed receipt means; nothing if it is to be tried again.
pub(super) fn not_interrupted(error: io::Error) -> Result<(), Fault> {
    match error.kind() {
        io::ErrorKind::Interrupted => Ok(()),
        io::ErrorKind::TimedOut => Err(Fault::Silent),
        _ if error.raw_os_error() == Some(Errno::ENOBUFS as i32) => Err(Fault::Lost),
        _ => Err(Fault::Socket("receive", error)),
    }
}

// How a request or a dump ended, by `NLMSG_ERROR` or `NLMSG_DONE`.
fn ended(header: Header, message: &[u8]) -> Result<(), Fault> {
    let Some(error) = u32_at(message, HEADER) else {
        return Err(Fault::Broken("an acknowledgement without an error number"));
    };
    let errno = (error as i32).unsigned_abs();
    if errno == 0 {
        return Ok(());
    }
    if error as i32 > 0 || errno > MAX_ERRNO {
        return Err(Fault::Broken("no error number of the kernel"));
    }
    let mut refusal = Refusal { errno: errno as i32, text: String::new(), offset: None };
    if header.flags & NLM_F_ACK_TLVS != 0 {
        read_reason(attributes_of(header, message)?, &mut refusal)?;
    }
    Err(Fault::Refused(refusal))
}

// The attributes after the error number and, in an `NLMSG_ERROR`, after the repeated request or its header.
fn attributes_of(header: Header, message: &[u8]) -> Result<&[u8], Fault> {
    let mut at = HEADER + 4;
    if header.kind == NLMSG_ERROR {
        let repeated = u32_at(message, at).map_or(0, |len| len as usize);
        let is_whole = header.flags & NLM_F_CAPPED == 0;
        at += if is_whole { repeated.max(HEADER).next_multiple_of(4) } else { HEADER };
    }
    message.get(at..).ok_or(Fault::Broken("an acknowledgement that is too short"))
}

// What the kernel says of a refusal.
fn read_reason(bytes: &[u8], refusal: &mut Refusal) -> Result<(), Fault> {
    for attribute in Attributes::of(bytes) {
        match attribute? {
            (NLMSGERR_ATTR_MSG, value) => refusal.text = text(value),
            (NLMSGERR_ATTR_OFFS, value) => refusal.offset = u32_at(value, 0),
            _ => {}
        }
    }
    Ok(())
}
