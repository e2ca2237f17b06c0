//! Every value of a message, shown one after the other: without typed values, and without memory.
//!
//! [`Message::visit`](super::Message::visit) and [`ActionMessage::visit`](super::ActionMessage::visit) show the bytes of a message to
//! a [`Visit`]or, each value with its [`Row`]: what the tables say of it. It is for monitors, exporters and printers, which look at
//! each value once. [`Message::parse`](super::Message::parse) is for programs that look some up, or change them.
//!
//! ```
//! use conjareho::kinds::visit::{Row, Unit, Value, Visit};
//! use conjareho::kinds::{Message, qdiscs::fq_codel::FqCodelAttr};
//!
//! /// Prints each number with its name and its unit.
//! struct Printed(String);
//!
//! impl<'b> Visit<'b> for Printed {
//!     fn value(&mut self, row: &'static Row, value: Value<'b>) {
//!         match (value, row.unit) {
//!             (Value::Text(text), _) => self.0 += &format!("{}={text} ", row.name),
//!             (Value::Unsigned(n), Unit::Microseconds) => self.0 += &format!("{}={n}us ", row.name),
//!             (Value::Unsigned(n), _) if !row.kernel.is_empty() => self.0 += &format!("{}={n} ", row.name),
//!             _ => {}
//!         }
//!     }
//! }
//!
//! let options = FqCodelAttr::list().with_target(5000).with_limit(10240);
//! let payload = Message::on(2).of(options).to_bytes()?;
//! let mut printed = Printed(String::new());
//! Message::visit(&payload, &mut printed)?;
//! assert_eq!(printed.0, "Kind=fq_codel Target=5000us Limit=10240 ");
//! # Ok::<(), Box<dyn std::error::Error>>(())
//! ```
//!
//! What a visitor is shown is what the module `forms` shows as JSON, in the same order: bytes that aren't of their form
//! are [`Value::Raw`], at the level at which they fail; an attribute that the table lacks is [`Value::Unknown`]; and what is beside an
//! attribute, such as flags that the table doesn't have, or padding that isn't zeros, is a [`Mark`].

#[macro_use]
mod macros;
mod forms;
mod row;

use super::values::{Handle, Mac};
use super::wire::{DEEPEST, Key, Place};
use super::{ActionMessage, Message};
use crate::DecodeError;
use core::cell::Cell;
use core::net::{Ipv4Addr, Ipv6Addr};
pub(crate) use forms::{Shown, ShownAttr, fits_field, show_field, show_of_kind};
pub use row::{LeftOut, Name, Names, OTHER, PROTOCOLS, Row, Section, Style, Unit};

/// What is shown a message.
pub trait Visit<'b> {
    /// A value: of an attribute, of a field, or of an element of an array, which has the row of its array.
    fn value(&mut self, row: &'static Row, value: Value<'b>);

    /// A group begins. Returns whether to show what is in it; if not, it isn't closed either.
    fn open(&mut self, row: &'static Row, group: Group) -> bool {
        let _ = (row, group);
        true
    }

    /// The innermost group ends, which is of this sort.
    fn close(&mut self, group: Group) {
        let _ = group;
    }

    /// What is beside the last attribute, or at the end of the innermost group.
    fn mark(&mut self, mark: Mark<'b>) {
        let _ = mark;
    }
}

/// A value. Numbers are in the byte order of the machine.
#[derive(Clone, Copy, PartialEq, Eq, Hash, Debug)]
#[non_exhaustive]
pub enum Value<'b> {
    /// An attribute without a payload: what counts is that it is there.
    Flag,
    /// A byte that is 0 or 1.
    Bool(bool),
    /// A number.
    Unsigned(u64),
    /// A signed number.
    Signed(i64),
    /// A handle.
    Handle(Handle),
    /// A text, without the NUL at its end. A kind is one.
    Text(&'b str),
    /// Bytes.
    Bytes(&'b [u8]),
    /// An Ethernet address.
    Mac(Mac),
    /// An address of IPv4.
    Ipv4(Ipv4Addr),
    /// An address of IPv6.
    Ipv6(Ipv6Addr),
    /// Bytes that aren't of their form.
    Raw(&'b [u8]),
    /// An attribute that the table doesn't have: its `nla_type`, with flags, and its payload.
    Unknown(u16, &'b [u8]),
}

/// What holds several values.
#[derive(Clone, Copy, PartialEq, Eq, Hash, Debug)]
#[non_exhaustive]
pub enum Group {
    /// A record: its fields.
    Record,
    /// A list: its attributes.
    List,
    /// An array: its elements.
    Array,
    /// A list of attributes of any type, which are its [`Element`](Self::Element)s: actions, extended matches.
    Indexed,
    /// An element of such a list: its `nla_type`, which is its number. What it holds comes next.
    Element(u16),
    /// One of several forms, by the first bytes or by the kind. What comes next has the row of that form.
    Choice,
}

/// What is beside an attribute, or at the end of a group.
#[derive(Clone, Copy, PartialEq, Eq, Hash, Debug)]
#[non_exhaustive]
pub enum Mark<'b> {
    /// The attribute before is a kind without a NUL at its end.
    Bare,
    /// The `nla_type` of the attribute before, whose flags aren't those of the table.
    Word(u16),
    /// The padding after the attribute before, or after an element, which is cut or isn't zeros.
    Padding(&'b [u8]),
    /// The bytes after the last field, element or attribute of the group.
    Rest(&'b [u8]),
}

/// Shows a message of this form.
fn show<'b, M: Shown>(bytes: &'b [u8], needed: usize, to: &mut impl Visit<'b>) -> Result<(), DecodeError> {
    let is_broken = Cell::new(false);
    let at = Place { kind: Key::NONE, levels: DEEPEST, is_broken: &is_broken };
    let shown = at.below().and_then(|at| M::show(&row::MESSAGE, bytes, at, to));
    shown.map(|_| ()).ok_or(DecodeError::BufferTooSmall { len: bytes.len(), needed })
}

macro_rules! visited {
    ($name:ident, $len:literal) => {
        impl $name {
            /// Shows a visitor every value of a message, given its bytes without a netlink header. [`visit`](crate::kinds::visit) has an
            /// example. It takes no memory, and cut and broken messages aren't refused.
            ///
            /// # Errors
            ///
            #[doc = concat!("`BufferTooSmall` if there are fewer bytes than the ", $len, " of the header.")]
            pub fn visit<'b>(bytes: &'b [u8], to: &mut impl Visit<'b>) -> Result<(), DecodeError> {
                show::<Self>(bytes, $len, to)
            }
        }
    };
}

visited! { Message, 20 }
visited! { ActionMessage, 4 }
