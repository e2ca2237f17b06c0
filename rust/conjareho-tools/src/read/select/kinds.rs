//! The kinds in a message: its own, and its actions'.

use super::header::TCMSG_LEN;
use crate::nla_frames::{NlaBuffer, NlasIterator, strip_nul};
use crate::tc_capture::MessageType;

// `TCA_KIND` and `TCA_ACT_KIND`; `TCA_OPTIONS`; `TCA_ACT_TAB` (`linux/rtnetlink.h`, `linux/pkt_cls.h`).
const KIND: u16 = 1;
const OPTIONS: u16 = 2;
const ACTIONS: u16 = 1;

// The length of `struct tcamsg`.
const TCAMSG_LEN: usize = 4;

/// The attributes before a malformed one.
pub(crate) fn frames(bytes: &[u8]) -> impl Iterator<Item = NlaBuffer<'_>> {
    NlasIterator::new(bytes).map_while(Result::ok)
}

/// The bytes after a header.
pub(crate) fn after_header(header: usize, message: &[u8]) -> &[u8] {
    message.get(header..).unwrap_or_default()
}

/// True if a message, or one of its actions, has one of these kinds.
pub(crate) fn has_kind(values: &[&str], holds: MessageType, message: &[u8]) -> bool {
    match holds {
        MessageType::Tc => in_message(values, after_header(TCMSG_LEN, message)),
        MessageType::Action => in_frames(values, ACTIONS, after_header(TCAMSG_LEN, message)),
    }
}

/// The kind of a traffic control message: the text of its last `TCA_KIND` before a malformed attribute. Empty if there is
/// none.
#[must_use]
pub fn kind_of(message: &[u8]) -> &[u8] {
    let kinds = frames(after_header(TCMSG_LEN, message)).filter(|frame| frame.kind() == KIND);
    kinds.last().map(|frame| strip_nul(frame.value())).unwrap_or_default()
}

/// True if filters have this kind, and not qdiscs.
#[must_use]
pub fn is_filter_kind(kind: &[u8]) -> bool {
    actions_type(kind).is_some()
}

// The type of the option that holds a filter's actions, according to the filter's kind.
fn actions_type(kind: &[u8]) -> Option<u16> {
    match kind {
        b"bpf" | b"cgroup" => Some(1),
        b"matchall" => Some(2),
        b"basic" | b"flower" => Some(3),
        b"fw" => Some(4),
        b"route" | b"rsvp" | b"rsvp6" => Some(6),
        b"tcindex" | b"u32" => Some(7),
        b"flow" => Some(9),
        _ => None,
    }
}

// True if a traffic control message, or an action of the filter in it, has one of these kinds. Options are those of the kind before them.
fn in_message(values: &[&str], bytes: &[u8]) -> bool {
    let mut kind: &[u8] = &[];
    frames(bytes).any(|frame| match frame.kind() {
        KIND => {
            kind = strip_nul(frame.value());
            is_kind(values, kind)
        }
        OPTIONS => actions_type(kind).is_some_and(|number| in_frames(values, number, frame.value())),
        _ => false,
    })
}

// True if an action in the frames of this type has one of these kinds.
fn in_frames(values: &[&str], number: u16, bytes: &[u8]) -> bool {
    let lists = frames(bytes).filter(|frame| frame.kind() == number);
    let mut parts = lists.flat_map(|list| frames(list.value())).flat_map(|action| frames(action.value()));
    parts.any(|frame| frame.kind() == KIND && is_kind(values, strip_nul(frame.value())))
}

fn is_kind(values: &[&str], kind: &[u8]) -> bool {
    values.iter().any(|value| value.as_bytes() == kind)
}
