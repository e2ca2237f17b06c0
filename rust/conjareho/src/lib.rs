#![doc = include_str!("../README.md")]
#![no_std]
#![forbid(unsafe_code)]
#![warn(missing_docs)]
#![allow(rustdoc::redundant_explicit_links)] // generated links have whole paths

#[cfg(not(target_endian = "little"))]
compile_error!("the codec reads and writes little-endian numbers, as little-endian kernels do");
#[cfg(not(any(target_pointer_width = "32", target_pointer_width = "64")))]
compile_error!("lengths have 32 bits in some messages and captures");

extern crate alloc;
#[cfg(test)]
extern crate std;

#[path = "../../erase/shims/bitflags.rs"]
pub mod bitflags;
#[path = "../../erase/shims/fallible.rs"]
mod fallible;
#[cfg(feature = "serde")]
#[path = "../../erase/shims/hex.rs"]
mod hex;
#[cfg(feature = "serde")]
#[path = "../../erase/shims/events.rs"]
mod serde;
#[path = "../../erase/shims/small.rs"]
mod small;
#[cfg(feature = "serde")]
#[path = "../../erase/shims/strict.rs"]
mod strict;
#[cfg(feature = "serde")]
#[path = "../../erase/shims/user.rs"]
#[allow(dead_code)] // what programs and tests use besides
mod user;

pub mod answers;
mod bytes;
pub mod constants;
mod handles;
#[cfg(feature = "kinds")]
pub mod kinds;
#[cfg(feature = "serde")]
mod located;
mod netlink;
mod verb;

#[cfg(feature = "serde")]
use serde::json as serde_json;
use small::{arrayvec, itoa};

#[cfg(feature = "serde")]
#[allow(dead_code, missing_docs, unused_doc_comments, unused_imports, unused_labels, unused_must_use, unused_variables, clippy::complexity, clippy::perf, clippy::style, clippy::manual_unwrap_or_default, clippy::unnecessary_get_then_check, clippy::derived_hash_with_manual_eq, rustdoc::broken_intra_doc_links)]
mod paths;
#[allow(dead_code, missing_docs, unused_doc_comments, unused_imports, unused_labels, unused_must_use, unused_variables, clippy::complexity, clippy::perf, clippy::style, clippy::manual_unwrap_or_default, clippy::unnecessary_get_then_check, clippy::derived_hash_with_manual_eq, rustdoc::broken_intra_doc_links)]
mod restore;
#[allow(dead_code, missing_docs, unused_doc_comments, unused_imports, unused_labels, unused_must_use, unused_variables, clippy::complexity, clippy::perf, clippy::style, clippy::manual_unwrap_or_default, clippy::unnecessary_get_then_check, clippy::derived_hash_with_manual_eq, rustdoc::broken_intra_doc_links)]
mod typed_requests;

// The erased crates, each a private module.
include!(concat!(env!("OUT_DIR"), "/codec.rs"));

pub use bitflags::Flags;
pub use fallible::AllocError;
pub use handles::ParseError;
#[cfg(feature = "serde")]
pub use located::{Located, locate_action, locate_tc};
pub use netlink::{Netlink, NetlinkError, Payload};
pub use tc_wire::{
    AddressFamily, DecodeError, DefaultNla, Emitable, NLA_F_NESTED, NLA_F_NET_BYTEORDER, NLA_HEADER_SIZE,
    NLA_TYPE_MASK, Nla, NlaBuffer, NlasIterator, Parseable, ParseableBytes, ParseableParametrized, RewriteError,
    Settle, SettleBytes,
};

/// Messages of traffic control and their parts, under the names of the module `tc` of netlink-packet-route.
pub mod tc {
    #[doc(hidden)]
    pub use crate::tc_wire::helpers;
    pub use crate::tc_wire::{
        TcAction, TcActionAttribute, TcActionGeneric, TcActionGenericBuffer, TcActionMessage, TcActionMessageAttribute,
        TcActionMessageBuffer, TcActionMessageFlags, TcActionMessageFlagsWithSelector, TcActionMessageHeader,
        TcActionMirror, TcActionMirrorOption, TcActionNat, TcActionNatOption, TcActionOption, TcActionTunnelKey,
        TcActionTunnelKeyOption, TcActionType, TcAttribute, TcBpfFlags, TcFilterBpf, TcFilterBpfOption, TcFilterFlower,
        TcFilterFlowerMplsLseOption, TcFilterFlowerMplsOption, TcFilterFlowerOption, TcFilterMatchAll,
        TcFilterMatchAllOption, TcFilterU32, TcFilterU32Option, TcFqCodelClStats, TcFqCodelClStatsBuffer,
        TcFqCodelQdStats, TcFqCodelQdStatsBuffer, TcFqCodelXstats, TcHandle, TcHeader, TcMessage, TcMessageBuffer,
        TcMirror, TcMirrorActionType, TcMirrorBuffer, TcNat, TcNatBuffer, TcNatFlags, TcOption, TcQdiscFqCodel,
        TcQdiscFqCodelOption, TcQdiscIngress, TcQdiscIngressOption, TcStats, TcStats2, TcStatsBasic,
        TcStatsBasicBuffer, TcStatsBuffer, TcStatsQueue, TcStatsQueueBuffer, TcTunnelKey, TcTunnelKeyBuffer, TcU32Key,
        TcU32KeyBuffer, TcU32OptionFlags, TcU32Selector, TcU32SelectorBuffer, TcU32SelectorFlags, TcXstats, Tcf,
        TcfBuffer, VecTcAttribute, VecTcOption, WholeMessage,
    };
    pub use crate::tc_wire::{
        canon_action, canon_action_options, canon_actions, canon_lse, canon_mpls, canon_options, canon_stats2,
        emit_list, emit_u16, emit_u16_be, emit_u32, emit_u32_be, is_canonical_action, is_canonical_tc, is_known_kind,
        list_fits, list_len, parse_frames_with, parse_ipv4_addr, parse_ipv6_addr, parse_list, parse_list_with,
        parse_mac, parse_string, parse_u8, parse_u16, parse_u16_be, parse_u32, parse_u32_be, put_list, rewrite_action,
        rewrite_tc, settle_action, settle_tc,
    };
}

/// Requests: objects and verbs, and requests of messages of [`tc`].
///
/// A typed message of [`kinds`](crate#every-kind-typed) writes its request itself, for an [`Object`](requests::Object) and a
/// [`Verb`](requests::Verb). The other items build requests with the types of [`tc`], and make dumps into the requests that restore them.
///
/// ```
/// # #[cfg(feature = "kinds")]
/// # fn main() -> Result<(), Box<dyn std::error::Error>> {
/// use conjareho::kinds::{Handle, Message};
/// use conjareho::requests::{Object, Verb};
///
/// // `tc qdisc add dev .. root fq`, and `tc class show dev ..`, for the interface with index 2.
/// let add = Message::on(2).parent(Handle::ROOT).with_kind("fq").request(Object::Qdisc, Verb::Add, 1)?;
/// let show = Message::on(2).request(Object::Class, Verb::Dump, 2)?;
/// # Ok(()) }
/// # #[cfg(not(feature = "kinds"))]
/// # fn main() {}
/// ```
pub mod requests {
    pub use crate::typed_requests::{
        ActionKindOption, FilterOption, OfKind, OptionOf, QdiscOption, RequestError, Target, TcKindOption, TcText,
        action, action_message, chain, filter, plain_qdisc, qdisc, raw_action,
    };
    pub use crate::restore::{
        NEW_FLAGS, Notice, Object, RTM_NEWACTION, Request, RestoreError, RootTable, Use, kind_of_action, notice_of,
        request_of, request_of_actions, root_table, standalone_index, use_of_action,
    };
    pub use crate::verb::Verb;

    /// The old name of [`standalone_index`].
    #[deprecated(since = "0.3.0", note = "renamed to `standalone_index`")]
    pub fn standing_index(action: &crate::tc::TcAction) -> Option<u32> {
        standalone_index(action)
    }
}

/// All attributes of a message, each before those in it, without memory.
pub mod index {
    pub use crate::tc_index::{
        Attribute, Attributes, BrokenFrame, Node, Slot, Table, fill_action, fill_tc, index_action, index_tc, list_in,
    };
}

/// Captures of netlink: pcap, pcapng, files of `rtmon` and streams.
pub mod capture {
    pub use crate::tc_capture::{
        Answer, Capture, CaptureError, Contents, Link, MessageType, Messages, NLMSG_ERROR, NLMSG_HEADER_LEN,
        NLMSG_TSTAMP, NetlinkMessage, Packet, Piece, RtmType, Time, answer_in, errno_name, rtm_of,
    };
    pub use crate::tc_capture::{
        message::next_message, order::Order, pcap::Pcap, pcap::Variant, pcapng::section::Section,
    };

    /// The old name of [`MessageType`].
    #[deprecated(since = "0.3.0", note = "renamed to `MessageType`")]
    pub type Holds = MessageType;
}

/// Any bytes as JSON and back, without loss, by the tables of all kinds that Linux has.
///
/// [`ACTION_MESSAGE`](forms::ACTION_MESSAGE) is the form of action messages.
///
/// ```
/// # fn main() -> Result<(), Box<dyn std::error::Error>> {
/// use conjareho::forms::{Shown, TC_MESSAGE, TcTables, bytes_of_text};
///
/// # let bytes = [0; 20].into_iter().chain([8, 0, 1, 0, b'h', b't', b'b', 0]).collect::<Vec<u8>>();
/// let shown = Shown { table: TcTables, form: TC_MESSAGE, bytes: &bytes };
/// let json = serde_json::to_string(&shown).expect("memory");
/// assert!(json.ends_with(r#""attributes":[{"Kind":"htb"}]}"#));
/// assert_eq!(bytes_of_text(TcTables, TC_MESSAGE, json.as_bytes())?, bytes);
/// # Ok(()) }
/// ```
#[cfg(feature = "serde")]
pub mod forms {
    pub use crate::forms_json::{
        Choice, Field, Form, KindRows, MakeError, Name, Number, Part, Row, Shown, Tables, Wanted, made, send_shown,
    };
    pub use crate::forms_kinds::{ACTION_LIST, ACTION_MESSAGE, PLACES, TC_LIST, TC_MESSAGE, TcTables};
    pub use crate::forms_text::{ReadError, StrictError, TextError, bytes_of_text, made_strictly, read_json};
}
