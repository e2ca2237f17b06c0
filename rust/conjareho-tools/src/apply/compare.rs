//! What requests make, and where what two lists of requests make differs.
//!
//! Requests that `tc_restore` makes of dumps have neither statistics nor times. What is left to be passed over is what the kernel counts or
//! chooses in a field of a configuration, and what it shows otherwise from one dump to the next.

use super::messages::{actions_of, chain_of, kind_of, payload_of, type_of};
use super::places::CHOSEN;
use crate::forms_json::Shown;
use crate::forms_kinds::{ACTION_MESSAGE, TC_MESSAGE, TcTables};
use crate::netlink::message::{
    MAGIC_BLOCK, RTM_NEWACTION, RTM_NEWCHAIN, RTM_NEWQDISC, RTM_NEWTCLASS, RTM_NEWTFILTER, Tcmsg, tcmsg_of,
};
use crate::tc_texts::handle_text;
use ::serde_json::{Value, json};
use std::borrow::Cow;
use std::collections::{BTreeMap, BTreeSet};
use std::fmt;

/// The parent of filters of `ingress`: `TC_H_INGRESS`. Both sides of clsact, `ffff:fff2` and `ffff:fff3`, have its major number.
const INGRESS: u32 = 0xFFFF_0000;
/// `TC_H_ROOT`.
const ROOT: u32 = 0xFFFF_FFFF;
/// The parents of the filters of both sides.
const OF_INGRESS: u32 = 0xFFFF_FFF2;
const OF_EGRESS: u32 = 0xFFFF_FFF3;

/// What an object is.
#[derive(Clone, PartialEq, Eq, PartialOrd, Ord, Debug)]
pub(crate) enum Key {
    /// A standalone action, by its kind and its index.
    Action(String, u32),
    /// A qdisc, a class, a filter or a chain, by what its header has.
    Object { kind: u16, index: i32, parent: u32, chain: u32, info: u32, handle: u32 },
    /// The order of the filters of a priority, where packets are matched in this order.
    Order { index: i32, parent: u32, chain: u32, info: u32 },
}

impl fmt::Display for Key {
    fn fmt(&self, f: &mut fmt::Formatter<'_>) -> fmt::Result {
        match self {
            Key::Action(kind, index) => write!(f, "action {kind} index {index}"),
            Key::Order { index, parent, chain, info } => {
                write!(f, "order of filters {} pref {}{}", Place(*index, *parent), info >> 16, InChain(*chain))
            }
            Key::Object { kind, index, parent, chain, info, handle } => {
                let (place, own) = (Place(*index, *parent), handle_text(*handle));
                match *kind {
                    RTM_NEWQDISC => write!(f, "qdisc {} {place}", own.as_str()),
                    RTM_NEWTCLASS => write!(f, "class {} {place}", own.as_str()),
                    RTM_NEWTFILTER => write!(f, "filter {handle:#x} {place} pref {}{}", info >> 16, InChain(*chain)),
                    _ => write!(f, "chain {chain} {place}"),
                }
            }
        }
    }
}

// An interface and a parent, in the words of lines; of a block, whose number is the parent, the interface is -1.
struct Place(i32, u32);

impl fmt::Display for Place {
    fn fmt(&self, f: &mut fmt::Formatter<'_>) -> fmt::Result {
        match *self {
            Place(MAGIC_BLOCK, number) => write!(f, "block {number}"),
            Place(index, ROOT) => write!(f, "dev {index} root"),
            Place(index, OF_INGRESS) => write!(f, "dev {index} ingress"),
            Place(index, OF_EGRESS) => write!(f, "dev {index} egress"),
            Place(index, parent) => write!(f, "dev {index} parent {}", handle_text(parent).as_str()),
        }
    }
}

// The chain of a filter, unless it is 0.
struct InChain(u32);

impl fmt::Display for InChain {
    fn fmt(&self, f: &mut fmt::Formatter<'_>) -> fmt::Result {
        if self.0 == 0 { Ok(()) } else { write!(f, " chain {}", self.0) }
    }
}

impl Key {
    /// True for an action, which belongs to no interface.
    pub(crate) fn is_action(&self) -> bool {
        matches!(self, Key::Action(..))
    }

    /// Where it is, in the words of lines; "" of an action.
    pub(crate) fn place(&self) -> String {
        match self {
            Key::Action(..) => String::new(),
            Key::Object { index, parent, .. } | Key::Order { index, parent, .. } => Place(*index, *parent).to_string(),
        }
    }

    /// The number of the shared block that it is in.
    pub(crate) fn block(&self) -> Option<u32> {
        match self {
            Key::Object { index: MAGIC_BLOCK, parent, .. } | Key::Order { index: MAGIC_BLOCK, parent, .. } => {
                Some(*parent)
            }
            _ => None,
        }
    }

    /// True for a qdisc whose handle the kernel chose, and for what is below one.
    pub(crate) fn is_below_chosen(&self) -> bool {
        match self {
            Key::Object { kind: RTM_NEWQDISC, handle, .. } if CHOSEN.contains(&(handle >> 16)) => true,
            Key::Object { index, parent, .. } => *index != MAGIC_BLOCK && CHOSEN.contains(&(parent >> 16)),
            _ => false,
        }
    }

    /// True for one object, and not for all filters of a priority.
    pub(crate) fn has_handle(&self) -> bool {
        matches!(self, Key::Object { handle, .. } if *handle != 0)
    }

    /// True for the order of filters, which isn't one object.
    pub(crate) fn is_order(&self) -> bool {
        matches!(self, Key::Order { .. })
    }

    /// True for a key of the same object, whatever number the kernel gave to the table of a filter of u32, or for that of all filters of its priority.
    pub(crate) fn is_object_of(&self, other: &Key) -> bool {
        let filter = |key: &Key| match key {
            Key::Object { kind: RTM_NEWTFILTER, index, parent, chain, info, handle } => {
                Some(((*index, *parent, *chain, info >> 16), in_root_table(*handle)))
            }
            _ => None,
        };
        match (filter(self), filter(other)) {
            (Some((place, own)), Some((other, handle))) => place == other && (own == 0 || own == handle),
            _ => self == other || self.is_in_place_of(other) || self.is_class_of(other),
        }
    }

    // True for two keys of one class, which a request to delete names without its parent.
    fn is_class_of(&self, other: &Key) -> bool {
        let class = |key: &Key| match key {
            Key::Object { kind: RTM_NEWTCLASS, index, handle, .. } => Some((*index, *handle)),
            _ => None,
        };
        class(self).is_some() && class(self) == class(other)
    }

    /// That of a filter without the number of a root table of u32, as requests name those in such tables.
    pub(crate) fn within_root_table(&self) -> Key {
        let mut key = self.clone();
        if let Key::Object { kind: RTM_NEWTFILTER, handle, .. } = &mut key {
            *handle = in_root_table(*handle);
        }
        key
    }

    /// True for two qdiscs in one place, whatever their handles.
    pub(crate) fn is_in_place_of(&self, other: &Key) -> bool {
        let place = |key: &Key| match key {
            Key::Object { kind: RTM_NEWQDISC, index, parent, .. } => Some((*index, *parent)),
            _ => None,
        };
        place(self).is_some() && place(self) == place(other)
    }
}

// A handle of u32 without the number of its table, if that is one that the kernel gives to root tables.
fn in_root_table(handle: u32) -> u32 {
    if handle >> 20 < 0x800 { handle } else { handle & 0xF_FFFF }
}

/// What there is of an object.
#[derive(Clone, PartialEq, Eq, Debug)]
pub(crate) enum Held {
    /// Its request.
    Request(Vec<u8>),
    /// The handles of filters in their order.
    Handles(Vec<u32>),
}

impl Held {
    /// The same without what isn't configuration.
    pub(crate) fn normal(&self) -> Value {
        let request = match self {
            Held::Request(request) => request,
            Held::Handles(handles) => return json!(handles),
        };
        let form = if type_of(request) == RTM_NEWACTION { ACTION_MESSAGE } else { TC_MESSAGE };
        // It fails where memory runs out.
        let mut value =
            ::serde_json::to_value(Shown { table: TcTables, form, bytes: payload_of(request) }).unwrap_or_default();
        if let Some(header) = value.get_mut("header") {
            // What the key has, a qdisc's count of references, a class's qdisc.
            *header = json!({});
        }
        pass_over(&mut value);
        value
    }

    /// True if both are the same configuration.
    pub(crate) fn is_same(&self, other: &Held) -> bool {
        let are_bytes = match (self, other) {
            (Held::Request(left), Held::Request(right)) => payload_of(left) == payload_of(right),
            _ => self == other,
        };
        are_bytes || self.normal() == other.normal()
    }
}

/// What requests make, by what it is.
pub(crate) type Objects = BTreeMap<Key, Held>;

/// What requests make.
pub(crate) fn objects_of(requests: &[Vec<u8>]) -> Objects {
    let is_ingress = |it: &&Vec<u8>| type_of(it) == RTM_NEWQDISC && kind_of(it) == Some(b"ingress");
    let of_ingress: BTreeSet<i32> =
        requests.iter().filter(is_ingress).filter_map(|it| tcmsg_of(it)).map(|header| header.index).collect();
    let mut objects = Objects::new();
    for request in requests {
        if type_of(request) == RTM_NEWACTION {
            let actions = actions_of(request).into_iter();
            objects.extend(actions.map(|action| (action.key(), Held::Request(action.change()))));
        } else if let Some(header) = tcmsg_of(request) {
            put_object(request, header, of_ingress.contains(&header.index), &mut objects);
        }
    }
    objects
}

// Filters of basic, bpf and flow are matched in the order in which they were made. The one block of ingress is dumped under the parent of who asked last.
fn put_object(request: &[u8], header: Tcmsg, is_ingress: bool, objects: &mut Objects) {
    let kind = type_of(request);
    let is_below = matches!(kind, RTM_NEWTFILTER | RTM_NEWCHAIN);
    let (index, chain, handle) = (header.index, chain_of(request), header.handle);
    let parent = if is_below && is_ingress && header.parent >> 16 == 0xFFFF { INGRESS } else { header.parent };
    let info = if is_below { header.info } else { 0 };
    if kind == RTM_NEWTFILTER && matches!(kind_of(request), Some(b"basic" | b"bpf" | b"flow")) {
        let handles =
            objects.entry(Key::Order { index, parent, chain, info }).or_insert_with(|| Held::Handles(Vec::new()));
        if let Held::Handles(handles) = handles {
            handles.push(handle);
        }
    }
    objects.insert(Key::Object { kind, index, parent, chain, info, handle }, Held::Request(request.to_vec()));
}

/// What a request or a notification is about.
pub(crate) fn key_of(message: &[u8]) -> Option<Key> {
    objects_of(&[message.to_vec()]).into_keys().find(|key| !key.is_order())
}

/// How an object differs from what is wanted.
#[derive(Clone, PartialEq, Eq, Debug)]
pub(crate) enum Difference {
    /// It isn't there.
    Missing(Key),
    /// It is there, and nothing says so.
    Unwanted(Key),
    /// It is there with something else in this place.
    Other { key: Key, at: String, wanted: Value, found: Value },
}

impl fmt::Display for Difference {
    fn fmt(&self, f: &mut fmt::Formatter<'_>) -> fmt::Result {
        match self {
            Difference::Missing(key) => write!(f, "{key}: isn't there"),
            Difference::Unwanted(key) => write!(f, "{key}: is there, and isn't wanted"),
            Difference::Other { key, at, wanted, found } => write!(f, "{key}: {at} is {found}, wanted is {wanted}"),
        }
    }
}

/// The differences between what is wanted and what is there. What isn't wanted is no difference if `may_be` says so.
pub(crate) fn differences(wanted: &Objects, found: &Objects, may_be: impl Fn(&Key, &Held) -> bool) -> Vec<Difference> {
    let mut all = Vec::new();
    for (key, held) in wanted {
        let Some(other) = found.get(key) else {
            all.push(Difference::Missing(key.clone()));
            continue;
        };
        let other = among(other, held);
        if !held.is_same(&other) {
            let first = first_difference(&held.normal(), &other.normal(), "");
            all.extend(first.map(|(at, wanted, found)| Difference::Other { key: key.clone(), at, wanted, found }));
        }
    }
    let others = found.iter().filter(|(key, _)| !wanted.contains_key(key));
    all.extend(others.filter(|(key, held)| !may_be(key, held)).map(|(key, _)| Difference::Unwanted(key.clone())));
    all
}

/// The differences between what is wanted in blocks and what is there. There each action has its number, which counts if the wanted one has one: an
/// action that filters share in a save may be there with one filter, and is shared again by what is sent.
pub(crate) fn differences_in_blocks(wanted: &Objects, found: &Objects) -> Vec<Difference> {
    let of_block = |held: &Held, wanted: &Value| {
        let mut found = held.normal();
        forget_numbers(wanted, &mut found);
        found
    };
    let mut all = Vec::new();
    for (key, held) in wanted {
        let wanted = held.normal();
        match found.get(key).map(|held| of_block(held, &wanted)) {
            Some(found) => {
                let first = first_difference(&wanted, &found, "");
                all.extend(first.map(|(at, wanted, found)| Difference::Other { key: key.clone(), at, wanted, found }));
            }
            None => all.push(Difference::Missing(key.clone())),
        }
    }
    all.extend(found.keys().filter(|key| !wanted.contains_key(key)).map(|key| Difference::Unwanted(key.clone())));
    all
}

// Sets the number of an action to 0 where the wanted one has none.
fn forget_numbers(wanted: &Value, found: &mut Value) {
    match (wanted, found) {
        (Value::Object(wanted), Value::Object(found)) => {
            if wanted.contains_key("bindcnt") && wanted.get("index") == Some(&json!(0)) {
                set(found.get_mut("index"));
            }
            for (name, value) in found {
                forget_numbers(wanted.get(name).unwrap_or(&Value::Null), value);
            }
        }
        (Value::Array(wanted), Value::Array(found)) => {
            wanted.iter().zip(found).for_each(|(wanted, found)| forget_numbers(wanted, found));
        }
        _ => {}
    }
}

// Of handles those that are wanted: filters that were there before may be between those of a save.
fn among<'a>(found: &'a Held, wanted: &Held) -> Cow<'a, Held> {
    match (found, wanted) {
        (Held::Handles(found), Held::Handles(wanted)) => {
            Cow::Owned(Held::Handles(found.iter().copied().filter(|handle| wanted.contains(handle)).collect()))
        }
        _ => Cow::Borrowed(found),
    }
}

// Sets to 0, or leaves out, what isn't configuration.
fn pass_over(value: &mut Value) {
    match value {
        Value::Array(items) => {
            items.retain(|item| !is_passed(item));
            items.iter_mut().for_each(pass_over);
        }
        Value::Object(members) => {
            members.values_mut().for_each(pass_over);
            pass_over_record(value);
        }
        _ => {}
    }
}

// Counts of basic; padding (`TCA_HTB_PAD` and the like), which is there or not by the place in the dump.
fn is_passed(item: &Value) -> bool {
    item.pointer("/Basic/Pcnt").is_some()
        || is_padding(item)
        || item.as_object().is_some_and(|layer| layer.values().any(is_padding))
}

fn is_padding(attribute: &Value) -> bool {
    attribute.get("Pad").is_some()
}

fn pass_over_record(value: &mut Value) {
    // Who holds an action; the number of one that only its filter holds, which the kernel gave.
    if value.get("bindcnt").is_some() && value.get("refcnt").is_some() {
        let is_private = value["bindcnt"] == 1 && value["refcnt"] == 1;
        for name in ["bindcnt", "refcnt", "capab"] {
            value[name] = json!(0);
        }
        if is_private {
            value["index"] = json!(0);
        }
    }
    // Packets that htb passed on without a class.
    set(value.pointer_mut("/Htb/Init/direct_pkts"));
    // A class of htb with children uses neither its quantum nor its priority; its level is that above its leaves.
    if value.pointer("/Htb/Parms/level").is_some_and(|level| *level != 0) {
        for at in ["/Htb/Parms/level", "/Htb/Parms/quantum", "/Htb/Parms/prio"] {
            set(value.pointer_mut(at));
        }
    }
    // How often the mark of u32 was met.
    set(value.pointer_mut("/U32/Mark/success"));
}

fn set(place: Option<&mut Value>) {
    if let Some(place) = place {
        *place = json!(0);
    }
}

// The first place where two values differ.
fn first_difference(wanted: &Value, found: &Value, at: &str) -> Option<(String, Value, Value)> {
    match (wanted, found) {
        (Value::Object(left), Value::Object(right)) if left.keys().eq(right.keys()) => {
            left.iter().find_map(|(name, value)| first_difference(value, &right[name], &format!("{at}/{name}")))
        }
        (Value::Array(left), Value::Array(right)) if left.len() == right.len() => left
            .iter()
            .zip(right)
            .enumerate()
            .find_map(|(place, (value, other))| first_difference(value, other, &format!("{at}/{place}"))),
        _ if wanted == found => None,
        _ => Some((at.to_string(), wanted.clone(), found.clone())),
    }
}

#[cfg(test)]
mod tests {
    use super::*;

    fn passed_over(mut value: Value) -> Value {
        pass_over(&mut value);
        value
    }

    #[test]
    fn padding_and_counts_are_passed_over() {
        let rate = json!({"Htb": {"Rate64": 5_000_000_000_u64}});
        assert_eq!(passed_over(json!([rate, {"Htb": {"Pad": true}}])), json!([rate]));
        assert_eq!(
            passed_over(json!([{"Basic": {"Pcnt": {"rcnt": 3, "rhit": 1}}}, {"Basic": {"Classid": "1:1"}}])),
            json!([{"Basic": {"Classid": "1:1"}}])
        );
        assert_eq!(passed_over(json!([{"Pad": ""}, {"Chain": 3}])), json!([{"Chain": 3}]));
    }

    #[test]
    fn a_number_counts_where_one_is_wanted() {
        let actions = |left, right| json!([{"Parms": {"index": left, "bindcnt": 0, "refcnt": 0}}, {"index": right, "bindcnt": 0}]);
        let seen = |wanted: Value, mut found: Value| {
            forget_numbers(&wanted, &mut found);
            wanted == found
        };
        assert!(seen(actions(0, 134), actions(7, 134)));
        assert!(!seen(actions(0, 134), actions(7, 135)));
        assert!(!seen(actions(7, 134), actions(0, 134)));
    }

    #[test]
    fn a_filter_s_own_action_has_no_number() {
        let parameters = |index, filters| json!({"index": index, "capab": 0, "action": "Pipe", "refcnt": filters, "bindcnt": filters});
        assert_eq!(passed_over(parameters(4, 1)), passed_over(parameters(9, 1)));
        assert_ne!(passed_over(parameters(4, 2)), passed_over(parameters(9, 2)));
    }
}
