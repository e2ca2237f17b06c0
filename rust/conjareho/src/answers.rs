//! Answers of the kernel.
//!
//! The kernel says why it refuses a request, and at which byte, to sockets with the option `NETLINK_EXT_ACK`:
//! `setsockopt(fd, SOL_NETLINK, 11, &1)`. The crate `rust/netlink-options` of this repository turns it on for a socket of netlink-sys, and
//! `rust/shaper` is a program with such a socket. [`AnswerError::Refused`] has the answer, with text and offset, and with the feature
//! `serde` the path.
//!
//! ```
//! # #[cfg(feature = "kinds")]
//! # fn main() -> Result<(), Box<dyn std::error::Error>> {
//! use conjareho::answers::{AnswerError, Answers};
//! use conjareho::kinds::filters::flower::FlowerAttr;
//! use conjareho::kinds::{Handle, Message, shared::eth_p};
//! use conjareho::requests::{Object, Verb};
//! use std::error::Error;
//!
//! /// Reads the messages that answer a request, which was sent. `receive` returns a datagram that came from port 0, the kernel's.
//! fn answers_to(request: &[u8], mut receive: impl FnMut() -> Vec<u8>) -> Result<Vec<Message>, Box<dyn Error>> {
//!     let (mut answers, mut found) = (Answers::to(request), Vec::new());
//!     while !answers.is_done() {
//!         let datagram = receive();
//!         match answers.read(&datagram) {
//!             Ok(messages) => {
//!                 for message in messages {
//!                     found.push(Message::parse(message.payload)?);
//!                 }
//!             }
//!             Err(AnswerError::Refused(answer)) => {
//!                 // The kernel has no text for some errors, and names an attribute for fewer.
//!                 let text = answer.text.as_deref().unwrap_or("no text");
//!                 eprintln!("{}: {text}", answer.name().unwrap_or("an error without a name"));
//!                 if let Some(path) = &answer.path {
//!                     eprintln!("the attribute is {path}");
//!                 }
//!                 return Err(answer.into());
//!             }
//!             Err(broken) => return Err(broken.into()),
//!         }
//!     }
//!     if let Some(warning) = answers.acknowledgement().and_then(|answer| answer.text.as_ref()) {
//!         eprintln!("warning: {warning}");
//!     }
//!     Ok(found)
//! }
//!
//! // A filter of TCP ports, from a larger one to a smaller one.
//! let ports = FlowerAttr::list().with_eth_type(eth_p::IP).with_ip_proto(6).with_port_src_min(2000).with_port_src_max(1000);
//! let filter = Message::on(2).parent(Handle::INGRESS).filter(10, eth_p::IP).of(ports);
//! let request = filter.request(Object::Filter, Verb::Add, 7)?;
//! # let words = |words: &[u32]| words.iter().flat_map(|word| word.to_le_bytes()).collect::<Vec<u8>>();
//! # let mut datagram = words(&[0, 0x0200_0002, 7, 0, 22u32.wrapping_neg()]);
//! # datagram.extend(&request);
//! # datagram.extend([&[70, 0, 1, 0][..], b"Invalid source port range (min must be strictly smaller than max)\0\0\0"].concat());
//! # datagram.extend(words(&[0x0002_0008, 68]));
//! # datagram[0] = datagram.len() as u8;
//! # let receive = || datagram.clone();
//! let refused = answers_to(&request, receive).expect_err("the ports are reversed");
//! let text = "EINVAL: Invalid source port range (min must be strictly smaller than max), offset 68";
//! # #[cfg(feature = "serde")]
//! assert_eq!(refused.to_string(), format!("{text}, path /attributes/1/Options/2/Flower/PortSrcMin"));
//! # assert!(refused.to_string().starts_with(text));
//! # Ok(()) }
//! # #[cfg(not(feature = "kinds"))]
//! # fn main() {}
//! ```
//!
//! After a dump, [`Answers::is_interrupted`] says whether it should be made again. A payload is what `Message::parse` of [`kinds`](crate#every-kind-typed), or [`TcMessage`](crate::tc::TcMessage), reads.

use crate::NlasIterator;
use crate::capture::{CaptureError, Messages, NetlinkMessage, answer_in, errno_name};
use crate::constants::{
    NLM_F_ACK, NLM_F_ACK_TLVS, NLM_F_DUMP, NLM_F_DUMP_INTR, NLM_F_MULTI, NLMSG_DONE, NLMSG_ERROR, RTM_GETACTION,
};
use alloc::string::String;
use alloc::vec::Vec;
use core::fmt;

/// `NLMSGERR_ATTR_MSG`.
const TEXT: u16 = 1;

/// The outcome of a request: an error of the kernel, or an acknowledgement.
#[derive(Clone, PartialEq, Eq, Hash, Debug, Default)]
pub struct Answer {
    /// The number of the error, such as 22 for `EINVAL`, or 0 of an acknowledgement.
    pub errno: u32,
    /// The text of the extended acknowledgement: of an error its cause, of an acknowledgement a warning.
    pub text: Option<String>,
    /// The offset in the request of the attribute that the kernel refused, in bytes, the netlink header among them.
    pub offset: Option<usize>,
    /// The path of that attribute in the request, as a JSON pointer. Only with the feature `serde`, whose tables have the names.
    pub path: Option<String>,
}

impl Answer {
    /// Reads the answer to a request in `NLMSG_ERROR`, or in `NLMSG_DONE`. `None` if the message is neither.
    ///
    /// An answer may have only the header of the request (`NLM_F_CAPPED`), so the request is read where it was sent from.
    #[must_use]
    pub fn of(message: &NetlinkMessage<'_>, request: &[u8]) -> Option<Answer> {
        let errno = message.payload.first_chunk::<4>().map_or(0, |bytes| u32::from_le_bytes(*bytes).wrapping_neg());
        match message.kind {
            NLMSG_DONE => Some(Answer { errno, text: text_after(message), ..Answer::default() }),
            NLMSG_ERROR => {
                let found = answer_in(message);
                let offset = found.and_then(|it| usize::try_from(it.offset?).ok());
                Some(Answer {
                    errno,
                    text: found.and_then(|it| it.text).map(text_of),
                    offset,
                    path: offset.and_then(|offset| path_in(request, offset)),
                })
            }
            _ => None,
        }
    }

    /// The name of the error, such as `EINVAL`.
    #[must_use]
    pub fn name(&self) -> Option<&'static str> {
        errno_name(self.errno)
    }
}

impl fmt::Display for Answer {
    fn fmt(&self, f: &mut fmt::Formatter<'_>) -> fmt::Result {
        match self.name() {
            _ if self.errno == 0 => f.write_str("done")?,
            Some(name) => f.write_str(name)?,
            None => write!(f, "error {}", self.errno)?,
        }
        self.text.as_ref().map_or(Ok(()), |text| write!(f, ": {text}"))?;
        self.offset.map_or(Ok(()), |offset| write!(f, ", offset {offset}"))?;
        self.path.as_ref().map_or(Ok(()), |path| write!(f, ", path {path}"))
    }
}

impl core::error::Error for Answer {}

fn text_of(bytes: &[u8]) -> String {
    String::from_utf8_lossy(bytes.strip_suffix(&[0]).unwrap_or(bytes)).into_owned()
}

/// The text of an extended acknowledgement in `NLMSG_DONE`, which has attributes after the error.
fn text_after(message: &NetlinkMessage<'_>) -> Option<String> {
    let attributes = message.payload.get(4..).filter(|_| message.flags & NLM_F_ACK_TLVS != 0)?;
    let mut found = NlasIterator::new(attributes).map_while(Result::ok).filter(|nla| nla.kind() & !0xc000 == TEXT);
    found.next().map(|nla| text_of(nla.value()))
}

#[cfg(feature = "serde")]
fn path_in(request: &[u8], offset: usize) -> Option<String> {
    use crate::capture::NLMSG_HEADER_LEN;
    let kind = u16::from_le_bytes([*request.get(4)?, *request.get(5)?]);
    let payload = request.get(NLMSG_HEADER_LEN..)?;
    crate::located::path_at(payload, kind, offset.checked_sub(NLMSG_HEADER_LEN)?)
}

#[cfg(not(feature = "serde"))]
fn path_in(_request: &[u8], _offset: usize) -> Option<String> {
    None
}

/// Why no answer was read: the kernel refused the request, or the datagram is broken.
#[derive(Clone, PartialEq, Eq, Hash, Debug)]
#[non_exhaustive]
pub enum AnswerError {
    /// The kernel refused the request.
    Refused(Answer),
    /// A message is cut, or its length is wrong.
    Broken(CaptureError),
}

impl fmt::Display for AnswerError {
    fn fmt(&self, f: &mut fmt::Formatter<'_>) -> fmt::Result {
        match self {
            AnswerError::Refused(answer) => answer.fmt(f),
            AnswerError::Broken(error) => error.fmt(f),
        }
    }
}

impl core::error::Error for AnswerError {}

/// Reads the answers to one request, which may be several datagrams.
#[derive(Clone, Debug)]
pub struct Answers<'r> {
    request: &'r [u8],
    acknowledgement: Option<Answer>,
    is_done: bool,
    is_interrupted: bool,
}

impl<'r> Answers<'r> {
    /// The answers to this request, of which nothing was read.
    #[must_use]
    pub fn to(request: &'r [u8]) -> Self {
        Answers { request, acknowledgement: None, is_done: false, is_interrupted: false }
    }

    /// Whether the last answer was read: an acknowledgement, an error, `NLMSG_DONE`, or the answer to a request that asks for one object.
    #[must_use]
    pub fn is_done(&self) -> bool {
        self.is_done
    }

    /// The acknowledgement, or the end of a dump, if it was read. Its text is a warning: the kernel did what was asked.
    #[must_use]
    pub fn acknowledgement(&self) -> Option<&Answer> {
        self.acknowledgement.as_ref()
    }

    /// Whether what was dumped changed meanwhile (`NLM_F_DUMP_INTR`), so that the dump should be made again.
    #[must_use]
    pub fn is_interrupted(&self) -> bool {
        self.is_interrupted
    }

    fn number(&self, at: usize) -> u32 {
        let bytes = self.request.get(at..).and_then(|bytes| bytes.first_chunk::<4>());
        bytes.map_or(0, |bytes| u32::from_le_bytes(*bytes))
    }

    /// Reads a datagram: the messages with the sequence number of the request, without [`acknowledgement`](Self::acknowledgement) and
    /// `NLMSG_DONE`.
    ///
    /// # Errors
    ///
    /// `Refused` if the kernel answers with an error, at the end of a dump too. `Broken` if a message is cut.
    pub fn read<'d>(&mut self, datagram: &'d [u8]) -> Result<Vec<NetlinkMessage<'d>>, AnswerError> {
        let (flags, sequence) = ((self.number(4) >> 16) as u16, self.number(8));
        let mut found = Vec::new();
        for message in Messages::new(datagram) {
            let message = message.map_err(AnswerError::Broken)?;
            if message.sequence != sequence || self.is_done {
                continue;
            }
            self.is_interrupted |= message.flags & NLM_F_DUMP_INTR != 0;
            if let Some(answer) = Answer::of(&message, self.request) {
                self.is_done = true;
                if answer.errno != 0 {
                    return Err(AnswerError::Refused(answer));
                }
                self.acknowledgement = Some(answer);
                continue;
            }
            let is_dump = flags & NLM_F_DUMP == NLM_F_DUMP && is_get((self.number(4) & 0xffff) as u16);
            self.is_done = !is_dump && flags & NLM_F_ACK == 0 && message.flags & NLM_F_MULTI == 0;
            found.push(message);
        }
        Ok(found)
    }
}

/// Whether a request of this type asks. The flags of a dump have other meanings in requests that make something.
fn is_get(kind: u16) -> bool {
    kind % 4 == RTM_GETACTION % 4
}
