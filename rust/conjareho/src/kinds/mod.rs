//! Typed values of every kind: options, statistics, actions and extended matches.
//!
//! [`Message`] (of qdiscs, classes, filters and chains) and [`ActionMessage`] (of actions, `RTM_*ACTION`) are whole messages. A socket's
//! datagrams are cut into messages by [`answers`](crate::answers), files by [`capture`](crate::capture), and [`Message::request`] writes
//! what a socket sends.
//!
//! ```
//! use conjareho::kinds::qdiscs::fq_codel::FqCodelAttr;
//! use conjareho::kinds::{Message, Options};
//! use conjareho::requests::{Object, Verb};
//!
//! # let options = FqCodelAttr::list().with_target(5000).with_limit(10240);
//! # let payload = Message::on(2).handle("1:".parse()?).parent("root".parse()?).of(options).to_bytes()?;
//! // `payload` is a qdisc, as a socket received it, without its netlink header.
//! let mut message = Message::parse(&payload)?;
//! assert_eq!((message.kind(), message.header.index), ("fq_codel", 2));
//! if let Some(basic) = message.stats().and_then(|stats| stats.basic()) {
//!     println!("{} bytes, {} packets", basic.bytes, basic.packets);
//! }
//! // Half the limit, and a request for this change.
//! if let Some(Options::FqCodel(list)) = message.options_mut() {
//!     let limit = list.limit().copied().unwrap_or(10240);
//!     list.set(FqCodelAttr::Limit(limit / 2));
//! }
//! let request = message.request(Object::Qdisc, Verb::Change, 1)?;
//! # Ok::<(), Box<dyn std::error::Error>>(())
//! ```
//!
//! Each file of the tables has a module, such as [`qdiscs::htb`], with a struct for each record, an enum for each list of attributes,
//! each named number and each choice, and a set of flags for each flag word. The page of a kind's options has an example: of fq_codel
//! it is [`FqCodelAttr`](qdiscs::fq_codel::FqCodelAttr). [`Options`], [`ActionOptions`] and [`Statistics`] are enums by kind, and
//! [`table`] lists all kinds with their types. Names are the kernel's in Rust's case, and the search finds the kernel's own, such as
//! `TCA_HTB_RATE64`. [`Htb`], [`HtbClass`], [`Tbf`] and [`PoliceAction`] compute what `tc` computes.
//!
//! A program that looks at each value once, such as an exporter, needs no typed values: [`visit`] shows them one after the other, with
//! their names, units and `tc`'s words.
//!
//! What tables don't say, the types don't check: `nkeys` of a u32 selector has to be the number of its keys, as
//! [`U32Sel::of`](filters::u32::U32Sel::of) makes it, and a number has the unit that its documentation has. [`Message::is_whole`] tells
//! cut and broken messages, which [`Message::parse`] takes.
//!
//! A generator (`rust/kinds`) writes this module from the tables in `kinds/`. It is tested, and not proved: `rust/check` compares
//! the JSON of typed values with the JSON of the proved forms on all stored messages, and reads and writes a
//! million changed messages, which have to come back byte for byte, and be shown as the forms show them.

#[cfg(kinds_json)]
#[macro_use]
mod json;
#[cfg(not(kinds_json))]
#[macro_use]
mod no_json;
#[cfg(not(test))]
#[macro_use]
mod no_edits;
#[cfg(test)]
#[macro_use]
mod tests;
#[macro_use]
pub mod visit;
#[macro_use]
mod macros;
mod aside;
mod builders;
mod forms;
mod frames;
mod from_options;
mod list;
#[cfg(feature = "serde")]
mod serde;
mod units;
mod values;
mod whole;
mod wire;

use crate::bitflags::{Flag, Flags};
use alloc::string::String;
use alloc::vec::Vec;
pub use builders::{Htb, HtbClass, PoliceAction, Sizes, Tbf, police};
use core::net::{Ipv4Addr, Ipv6Addr};
use forms::{Array, Bare, Be, Code, Coded, Each, Empty, Fixed, Kind, List, Pad, Text, Times, Truth};
use frames::{Attr, Found, Kinds};
pub use from_options::OptionsError;
pub use list::{Attrs, Indexed};
pub use units::{NotAProb, NotARate, NotATime, Rate};
use values::show_flags;
pub use values::{Bytes, Handle, Mac, Nla, NotAHandle, NotAMac, NotHex, NotU32Parts, Prob, Ticks, U32Parts};
use wire::{Form, Key, NLA_TYPE_MASK, Out, Place, Shape, chosen, field, store_field, total, within};

#[cfg(test)]
use tests::{Edit, EditAttr, Edits};

#[cfg(kinds_json)]
use json::{Json, JsonAttr, JsonCode, Seen, hex, object, of_kind, raw, unread, with_rest};

#[doc = include_str!(concat!(env!("OUT_DIR"), "/kinds.md"))]
pub mod table {}

include!(concat!(env!("OUT_DIR"), "/kinds.rs"));
