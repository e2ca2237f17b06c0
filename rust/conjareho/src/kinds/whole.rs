//! Whole messages.

use super::action::ActionAttr;
use super::message::TcAttr;
use super::statistics::StatsAttr;
use super::wire::{DEEPEST, Form, Key, Out, Place, within};
use super::{ActionMessage, ActionOptions, Attrs, Handle, Indexed, Message, Options, Statistics};
use crate::requests::{Object, Verb};
use crate::tc::{TcActionMessage, TcMessage};
use crate::{DecodeError, ParseableBytes, RewriteError};
use alloc::vec::Vec;
use core::cell::Cell;
use core::mem;

/// The room that a message begins with, which holds most of them.
const FIRST: usize = 256;

impl Message {
    /// The kind: the last `TCA_KIND`, or nothing.
    #[must_use]
    pub fn kind(&self) -> &str {
        self.attributes.kind().map_or("", |kind| kind)
    }

    /// The options: the last `TCA_OPTIONS`.
    #[must_use]
    pub fn options(&self) -> Option<&Options> {
        self.attributes.options()
    }

    /// The options, mutable: [`Attrs::set`] of their list changes one.
    pub fn options_mut(&mut self) -> Option<&mut Options> {
        self.attributes
            .iter_mut()
            .rev()
            .find_map(|it| if let TcAttr::Options(options) = it { Some(options) } else { None })
    }

    /// The statistics: the last `TCA_STATS2`. `TCA_STATS` is [`Attrs::stats`] of the attributes.
    #[must_use]
    pub fn stats(&self) -> Option<&Attrs<StatsAttr>> {
        self.attributes.stats2()
    }

    /// The statistics of the kind: `TCA_STATS_APP` in `TCA_STATS2`, or else `TCA_XSTATS`.
    #[must_use]
    pub fn xstats(&self) -> Option<&Statistics> {
        self.stats().and_then(|stats| stats.app()).or_else(|| self.attributes.xstats())
    }

    /// The actions of a filter.
    #[must_use]
    pub fn actions(&self) -> Option<&Indexed<Attrs<ActionAttr>>> {
        self.options().and_then(Options::actions)
    }

    /// A message about the interface with this index.
    #[must_use]
    pub fn on(index: i32) -> Self {
        let mut message = Message::default();
        message.header.index = index;
        message
    }

    /// Sets the handle.
    #[must_use]
    pub fn handle(mut self, handle: Handle) -> Self {
        self.header.handle = handle;
        self
    }

    /// Sets the parent.
    #[must_use]
    pub fn parent(mut self, parent: Handle) -> Self {
        self.header.parent = parent;
        self
    }

    /// Sets the priority of a filter and the protocol that it matches, such as [`eth_p::IP`](super::shared::eth_p::IP).
    #[must_use]
    pub fn filter(mut self, priority: u16, protocol: u16) -> Self {
        self.header.info = u32::from(priority) << 16 | u32::from(protocol.swap_bytes());
        self
    }

    /// The priority of a filter, which [`filter`](Self::filter) sets. 0 lets the kernel choose one.
    #[must_use]
    pub fn priority(&self) -> u16 {
        (self.header.info >> 16) as u16
    }

    /// The protocol that a filter matches, which [`filter`](Self::filter) sets, such as [`eth_p::IP`](super::shared::eth_p::IP).
    #[must_use]
    pub fn protocol(&self) -> u16 {
        (self.header.info as u16).swap_bytes()
    }

    /// Appends an attribute, such as `TcAttr::Chain(7)`.
    #[must_use]
    pub fn with(mut self, attribute: TcAttr) -> Self {
        self.attributes.push(attribute);
        self
    }

    /// Appends a kind.
    #[must_use]
    pub fn with_kind(mut self, kind: &str) -> Self {
        self.attributes.push(TcAttr::Kind(kind.into()));
        self
    }

    /// Appends options. The kind before them has to be theirs: the kernel, and `parse`, read options by the kind. [`of`](Self::of) appends both.
    #[must_use]
    pub fn with_options(mut self, options: impl Into<Options>) -> Self {
        self.attributes.push(TcAttr::Options(options.into()));
        self
    }

    /// Appends the kind that has these options, and the options. Options of an unknown kind need [`with_kind`](Self::with_kind).
    #[must_use]
    pub fn of(self, options: impl Into<Options>) -> Self {
        let options = options.into();
        self.with_kind(options.kind().unwrap_or("")).with_options(options)
    }

    /// The bytes of a request for an object, netlink header first, with the type and the flags that iproute2 sends.
    ///
    /// # Errors
    ///
    /// Those of [`to_bytes`](Self::to_bytes), and `DoesNotFit` if there are 4 GiB or more.
    pub fn request(&self, object: Object, verb: Verb, sequence: u32) -> Result<Vec<u8>, RewriteError> {
        request_of::<Self>(verb.message_type(object), verb.flags(object), sequence, self)
    }
}

/// A netlink header and a message.
fn request_of<M: Form>(kind: u16, flags: u16, sequence: u32, message: &M::Value) -> Result<Vec<u8>, RewriteError> {
    let mut bytes = Vec::with_capacity(FIRST);
    let words = [0, u32::from(kind) | u32::from(flags) << 16, sequence, 0];
    words.iter().for_each(|word| bytes.extend_from_slice(&word.to_le_bytes()));
    write_to::<M>(message, &mut bytes)?;
    let len = u32::try_from(bytes.len()).map_err(|_| RewriteError::DoesNotFit)?;
    bytes[..4].copy_from_slice(&len.to_le_bytes());
    Ok(bytes)
}

impl<const N: usize> From<[ActionOptions; N]> for Indexed<Attrs<ActionAttr>> {
    /// Actions in this order, numbered from 1, each with the kind that has these options.
    fn from(options: [ActionOptions; N]) -> Self {
        let action = |it: ActionOptions| ActionAttr::list().with_kind(it.kind().unwrap_or("")).with_options(it);
        (1..).zip(options.map(action)).collect()
    }
}

impl ActionMessage {
    /// The actions: the last `TCA_ACT_TAB`.
    #[must_use]
    pub fn actions(&self) -> Option<&Indexed<Attrs<ActionAttr>>> {
        self.attributes.actions()
    }

    /// A message with these actions.
    #[must_use]
    pub fn of(actions: impl Into<Indexed<Attrs<ActionAttr>>>) -> Self {
        let mut message = ActionMessage::default();
        message.attributes = message.attributes.with_actions(actions);
        message
    }

    /// The bytes of a request, netlink header first, with the type and the flags that iproute2 sends.
    ///
    /// # Errors
    ///
    /// Those of [`to_bytes`](Self::to_bytes), and `DoesNotFit` if there are 4 GiB or more.
    pub fn request(&self, verb: Verb, sequence: u32) -> Result<Vec<u8>, RewriteError> {
        request_of::<Self>(verb.action_type(), verb.action_flags(), sequence, self)
    }
}

/// Reads a message, and sets `is_broken` if a part isn't of its form.
fn read<M: Form>(bytes: &[u8], is_broken: &Cell<bool>) -> Option<M::Value> {
    within::<M>(bytes, Place { kind: Key::NONE, levels: DEEPEST, is_broken }).map(|(message, _)| message)
}

fn parse<M: Form>(bytes: &[u8], needed: usize) -> Result<M::Value, DecodeError> {
    read::<M>(bytes, &Cell::new(false)).ok_or(DecodeError::BufferTooSmall { len: bytes.len(), needed })
}

/// Appends a message. Bytes that don't fit are taken off again.
fn write_to<M: Form>(message: &M::Value, bytes: &mut Vec<u8>) -> Result<(), RewriteError> {
    let before = bytes.len();
    let mut out = Out { bytes: mem::take(bytes), is_unfit: false };
    M::write(message, &mut out);
    *bytes = out.bytes;
    if out.is_unfit {
        bytes.truncate(before);
        return Err(RewriteError::DoesNotFit);
    }
    Ok(())
}

macro_rules! message {
    ($name:ident, $codec:ident, $len:literal) => {
        impl $name {
            /// Reads a message without its netlink header. What isn't of the tables is kept, and [`to_bytes`](Self::to_bytes) writes it again.
            /// The bytes don't say which of the two types a message has, but `nlmsg_type` does: `RTM_*ACTION` is an [`ActionMessage`].
            ///
            /// **A cut or broken message isn't refused.** An attribute whose length doesn't fit is the [`remainder`](Attrs::remainder) of its
            /// list, a payload that isn't of its form is `Other`, and [`is_whole`](Self::is_whole) returns false. Where a message was cut
            /// between two attributes only the length in the netlink header says so: [`Answers`](crate::answers::Answers) and
            /// [`Messages`](crate::capture::Messages) compare it with the datagram.
            /// # Errors
            ///
            #[doc = concat!("`BufferTooSmall` if there are fewer bytes than the ", $len, " of the header.")]
            pub fn parse(bytes: &[u8]) -> Result<Self, DecodeError> {
                parse::<Self>(bytes, $len)
            }

            /// Whether no attribute is cut or broken, and each payload is of its form, if the tables have one: no list has a
            /// [`remainder`](Attrs::remainder), and only kinds, attributes and forms that the tables lack are `Other`.
            ///
            /// Bytes after a record, which newer kernels send, other flags and padding are whole. Attributes over 16 levels deep aren't, nor is
            /// a message that doesn't fit ([`to_bytes`](Self::to_bytes)). The message is written and read again, which takes time and memory.
            #[must_use]
            pub fn is_whole(&self) -> bool {
                let is_broken = Cell::new(false);
                let read = self.to_bytes().map(|bytes| read::<Self>(&bytes, &is_broken).is_some());
                read == Ok(true) && !is_broken.get()
            }

            /// The bytes of the message, without a netlink header.
            ///
            /// # Errors
            ///
            /// `DoesNotFit` if the payload of an attribute has more than 65531 bytes, or if a number without a name is too large for its place.
            pub fn to_bytes(&self) -> Result<Vec<u8>, RewriteError> {
                let mut bytes = Vec::with_capacity(FIRST);
                self.write_to(&mut bytes)?;
                Ok(bytes)
            }

            /// Appends the bytes of the message, without a netlink header. A buffer that is used again takes no memory each time.
            ///
            /// ```
            #[doc = concat!("use conjareho::kinds::", stringify!($name), ";")]
            ///
            /// let mut buffer = b"before".to_vec();
            #[doc = concat!("let message = ", stringify!($name), "::default();")]
            /// message.write_to(&mut buffer)?;
            /// assert_eq!(buffer[6..], message.to_bytes()?);
            /// # Ok::<(), conjareho::RewriteError>(())
            /// ```
            ///
            /// # Errors
            ///
            /// Those of [`to_bytes`](Self::to_bytes). The buffer is what it was before then.
            pub fn write_to(&self, buffer: &mut Vec<u8>) -> Result<(), RewriteError> {
                write_to::<Self>(self, buffer)
            }
        }

        impl TryFrom<&$name> for $codec {
            type Error = RewriteError;

            /// Writes the message, and reads it with the codec, which refuses some messages that this module reads.
            fn try_from(message: &$name) -> Result<Self, RewriteError> {
                Ok(<$codec>::parse(&message.to_bytes()?)?)
            }
        }

        impl TryFrom<&$codec> for $name {
            type Error = RewriteError;

            /// Writes the message with the codec, and reads it.
            fn try_from(message: &$codec) -> Result<Self, RewriteError> {
                Ok($name::parse(&message.to_bytes()?)?)
            }
        }
    };
}

message! { Message, TcMessage, 20 }
message! { ActionMessage, TcActionMessage, 4 }
