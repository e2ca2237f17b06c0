//! Messages: what they are about.

use super::compare::Key;
use crate::make::requests::nested::nested as flagged;
use crate::netlink::attributes::attribute;
use crate::netlink::message::{
    HEADER, NLM_F_ACK, RTM_NEWACTION, RTM_NEWCHAIN, RTM_NEWTFILTER, TCMSG, header_of, is_action, request,
};
use crate::nla_frames::{Emitable as _, ParseableBytes as _};
use crate::restore::{Use, actions_of_filter, kind_of_action, standalone_index, unheld, use_of_action};
use crate::tc_action_messages::{TcActionMessage, TcActionMessageAttribute};
use crate::tc_actions::TcAction;
use crate::tc_capture::MessageType;
use crate::tc_messages::TcMessage;

/// Flags of `linux/netlink.h`.
pub(crate) const NLM_F_REPLACE: u16 = 0x100;
const NLM_F_EXCL: u16 = 0x200;
const NLM_F_CREATE: u16 = 0x400;

const TCA_KIND: u16 = 1;
pub(crate) const TCA_OPTIONS: u16 = 2;
const TCA_CHAIN: u16 = 11;
const TCA_INGRESS_BLOCK: u16 = 13;
const TCA_EGRESS_BLOCK: u16 = 14;

/// The type of a message.
pub(crate) fn type_of(message: &[u8]) -> u16 {
    header_of(message).map_or(0, |header| header.kind)
}

/// True for the request of an action that is there with other parameters.
pub(crate) fn replaces(message: &[u8]) -> bool {
    header_of(message).is_some_and(|header| header.flags & NLM_F_REPLACE != 0)
}

/// A request that makes an object, even if something is in its place.
pub(crate) fn over(message: &[u8]) -> Vec<u8> {
    let mut over = message.to_vec();
    if let (Some(header), Some(place)) = (header_of(message), over.get_mut(6..8)) {
        place.copy_from_slice(&(header.flags & !NLM_F_EXCL | NLM_F_REPLACE).to_ne_bytes());
    }
    over
}

/// True for the request that deletes something. Types go in fours: NEW, DEL, GET and SET.
pub(crate) fn deletes(message: &[u8]) -> bool {
    type_of(message) % 4 == 1
}

/// A request or a notification as if it were that of a new object.
pub(crate) fn as_new(message: &[u8]) -> Vec<u8> {
    let mut as_new = message.to_vec();
    if let Some(place) = as_new.get_mut(4..6) {
        place.copy_from_slice(&(type_of(message) / 4 * 4).to_ne_bytes());
    }
    as_new
}

/// A request with `NLA_F_NESTED` on each nest; `None` if memory runs out.
pub(crate) fn nested(message: &[u8]) -> Option<Vec<u8>> {
    let holds = if is_action(type_of(message)) { MessageType::Action } else { MessageType::Tc };
    let header = message.get(..HEADER)?;
    Some([header, &flagged(holds, payload_of(message)).ok()?].concat())
}

/// True for a request of a chain without a template, which the kernel makes by itself too.
pub(crate) fn is_plain_chain(message: &[u8]) -> bool {
    type_of(message) == RTM_NEWCHAIN && kind_of(message).is_none()
}

/// What follows the netlink header.
pub(crate) fn payload_of(message: &[u8]) -> &[u8] {
    message.get(HEADER..).unwrap_or_default()
}

/// The kind that a message about a qdisc, a class, a filter or a chain has.
pub(crate) fn kind_of(message: &[u8]) -> Option<&[u8]> {
    tca(message, TCA_KIND)?.split(|byte| *byte == 0).next()
}

/// The options of a message about a qdisc, a class or a filter, even empty ones.
pub(crate) fn options_of(message: &[u8]) -> Option<&[u8]> {
    tca(message, TCA_OPTIONS)
}

/// The chain that a filter or a chain names; 0 if it names none.
pub(crate) fn chain_of(message: &[u8]) -> u32 {
    tca(message, TCA_CHAIN).and_then(number_of).unwrap_or_default()
}

/// The blocks that a qdisc names for its sides.
pub(crate) fn blocks_of(message: &[u8]) -> Vec<u32> {
    let both = [TCA_INGRESS_BLOCK, TCA_EGRESS_BLOCK].into_iter();
    both.filter_map(|kind| number_of(tca(message, kind)?)).filter(|number| *number != 0).collect()
}

/// The standalone actions of a message.
pub(crate) fn actions_of(message: &[u8]) -> Vec<Action> {
    let mut actions = listed_in(message);
    actions.retain(|action| standalone_index(&action.parts).is_some());
    actions
}

/// The actions that a filter shares.
pub(crate) fn shared_by(message: &[u8]) -> Vec<Action> {
    let actions = if type_of(message) == RTM_NEWTFILTER { all_actions(message) } else { Vec::new() };
    actions.into_iter().filter(|it| standalone_index(it).is_some()).filter_map(Action::of).collect()
}

/// All numbered actions of a message about actions; filters' own, too.
pub(crate) fn listed_in(message: &[u8]) -> Vec<Action> {
    listed(message).into_iter().filter_map(Action::of).collect()
}

/// The actions of a filter, or of a message about actions.
pub(crate) fn all_actions(message: &[u8]) -> Vec<TcAction> {
    match type_of(message) {
        RTM_NEWTFILTER => {
            let read = TcMessage::parse(payload_of(message)).ok();
            read.and_then(|filter| actions_of_filter(filter).ok()).unwrap_or_default()
        }
        kind if is_action(kind) => listed(message),
        _ => Vec::new(),
    }
}

// The actions of a message of actions.
fn listed(message: &[u8]) -> Vec<TcAction> {
    let lists = TcActionMessage::parse(payload_of(message)).map_or_else(|_| Vec::new(), |read| read.attributes);
    let actions = lists.into_iter().filter_map(|it| match it {
        TcActionMessageAttribute::Actions(actions) => Some(actions),
        _ => None,
    });
    actions.flatten().collect()
}

/// True for a message with an action whose parameters have no number, such as one of iptables: it can't be found again.
pub(crate) fn has_unnumbered_action(message: &[u8]) -> bool {
    all_actions(message).iter().any(|action| use_of_action(action).is_none())
}

/// True for a message that the codec reads.
pub(crate) fn is_read(message: &[u8]) -> bool {
    let payload = payload_of(message);
    if is_action(type_of(message)) {
        TcActionMessage::parse(payload).is_ok()
    } else {
        TcMessage::parse(payload).is_ok()
    }
}

/// True for a filter with an action that no other shares.
pub(crate) fn has_own_actions(message: &[u8]) -> bool {
    type_of(message) == RTM_NEWTFILTER && all_actions(message).iter().any(|it| standalone_index(it).is_none())
}

/// An action with a number.
#[derive(Clone, Debug)]
pub(crate) struct Action {
    pub(crate) kind: String,
    pub(crate) index: u32,
    /// How many hold it, filters and others.
    pub(crate) references: u32,
    /// How many filters hold it.
    pub(crate) filters: u32,
    parts: TcAction,
}

impl Action {
    /// An action of a list, if it has a number.
    pub(crate) fn of(parts: TcAction) -> Option<Action> {
        let Use { index, references, filters, .. } = use_of_action(&parts).filter(|found| found.index != 0)?;
        Some(Action { kind: kind_of_action(&parts).to_string(), index, references, filters, parts })
    }

    /// What it is.
    pub(crate) fn key(&self) -> Key {
        Key::Action(self.kind.clone(), self.index)
    }

    /// The request that changes the parameters of the action of this kind and index to these.
    pub(crate) fn change(self) -> Vec<u8> {
        let mut message = TcActionMessage::default();
        message.attributes.push(TcActionMessageAttribute::Actions(vec![TcAction { tab: 1, ..self.parts }]));
        // An action of a message fits into a message.
        let mut body = vec![0; message.checked_len().unwrap_or_default()];
        if !body.is_empty() {
            message.emit(&mut body);
        }
        request(RTM_NEWACTION, NLM_F_ACK | NLM_F_CREATE | NLM_F_REPLACE, &body)
    }

    /// The same, as if nothing held it: a filter's own has its number then.
    pub(crate) fn unheld(&self) -> Option<Vec<u8>> {
        let parts = unheld(self.parts.clone()).ok()?;
        Some(Action { parts, ..self.clone() }.change())
    }
}

// The attribute of a message about a qdisc, a class, a filter or a chain.
fn tca(message: &[u8], kind: u16) -> Option<&[u8]> {
    found(message.get(HEADER + TCMSG..)?, kind)
}

// None, too, where an attribute is broken: requests are made whole.
fn found(bytes: &[u8], kind: u16) -> Option<&[u8]> {
    attribute(bytes, kind).ok().flatten()
}

fn number_of(value: &[u8]) -> Option<u32> {
    Some(u32::from_ne_bytes(value.try_into().ok()?))
}
