//! The keys that the request of a dump provides and needs, and the dumps that must or must not exist for it.

use crate::user::prelude::*;

use crate::nla_frames::{NLA_TYPE_MASK, Nla};
use crate::plan::restored::fate::Fate;
use crate::plan::restored::key::Key;
use crate::restore::{Object, chain_number, kind_of_action, standalone_index};
use crate::tc_action_messages::{TcActionMessage, TcActionMessageAttribute};
use crate::tc_actions::TcAction;
use crate::tc_messages::{TcAttribute, TcMessage};
use crate::tc_options::{TcFilterU32Option, TcOption};
use crate::tc_records::TcHeader;

/// A dumped object in a plan, and whether it gets a request.
#[derive(Debug)]
pub struct Item {
    /// The caller's number of the dump.
    pub place: usize,
    /// Its fate among all dumps.
    pub fate: Fate,
}

/// The keys that a dump's request provides and needs, and the dumps that must or must not exist for it.
#[derive(Debug)]
pub struct Dependencies {
    /// The caller's number of the dump.
    pub place: usize,
    /// Its fate before other dumps are considered.
    pub fate: Fate,
    /// Keys that its request provides.
    pub provides: Vec<Key>,
    /// Keys that its request needs.
    pub needs: Vec<Key>,
    /// The objects that it shows. A second dump of one is a duplicate. Of actions, each that is standalone or shared.
    pub objects: Vec<Key>,
    /// A key that some dump has to provide: the class that is a class's parent.
    pub must: Option<Key>,
    /// A key that no dump may provide: clsact, if its parent doesn't say the side.
    pub must_not: Option<Key>,
    /// A key whose provider makes it: the filters of a chain without a template.
    pub made_by: Option<Key>,
}

/// Finds the dependencies of a dump's request. `place` is the caller's number of it, and `ingress` are the interfaces that have ingress, found by
/// `ingress_of` in all dumps.
///
/// # Errors
///
/// A [`AllocError`].
pub fn dependencies_of(
    place: usize,
    fate: Fate,
    kind: Object,
    ingress: &[i32],
    dump: &TcMessage,
) -> Result<Dependencies, AllocError> {
    Ok(Dependencies {
        place,
        fate,
        provides: provided(kind, ingress, dump)?,
        needs: needed(kind, ingress, dump)?,
        objects: with(Vec::new(), object_of(kind, ingress, dump))?,
        must: must_of(kind, &dump.header),
        must_not: must_not_of(kind, &dump.header),
        made_by: made_by(kind, ingress, dump),
    })
}

/// Finds the dependencies of the request for a dump of actions. Actions that can't be made provide no key, since a filter has its own actions in full.
///
/// # Errors
///
/// A [`AllocError`].
pub fn dependencies_of_actions(place: usize, fate: Fate, dump: &TcActionMessage) -> Result<Dependencies, AllocError> {
    let mut provides = Vec::new();
    if !fate.is_refused() {
        provides.try_push(Key::Actions)?;
    }
    Ok(Dependencies {
        place,
        fate,
        provides,
        needs: Vec::new(),
        objects: standalone_objects(&dump.attributes)?,
        must: None,
        must_not: None,
        made_by: None,
    })
}

// The standalone actions of a dump.
fn standalone_objects(attributes: &[TcActionMessageAttribute]) -> Result<Vec<Key>, AllocError> {
    let mut keys = Vec::new();
    for attribute in attributes {
        keys = with_actions(keys, actions_in(attribute))?;
    }
    Ok(keys)
}

// The actions of an attribute.
fn actions_in(attribute: &TcActionMessageAttribute) -> &[TcAction] {
    match attribute {
        TcActionMessageAttribute::Actions(actions) => actions,
        _ => &[],
    }
}

// Appends the keys of the standalone ones of these actions.
pub(crate) fn with_actions(keys: Vec<Key>, actions: &[TcAction]) -> Result<Vec<Key>, AllocError> {
    let mut made = keys;
    for action in actions {
        made = with(made, standalone_action(action))?;
    }
    Ok(made)
}

// The key of a standalone action.
pub(crate) fn standalone_action(action: &TcAction) -> Option<Key> {
    action_by(name_of(kind_of_action(action)), standalone_index(action))
}

fn action_by(kind: Option<[u8; 16]>, index: Option<u32>) -> Option<Key> {
    match (kind, index) {
        (Some(kind), Some(index)) => Some(Key::Action { kind, index }),
        _ => None,
    }
}

// A kind padded with zeros; `None` if it is longer than the kernel's names (`IFNAMSIZ`).
pub(crate) fn name_of(kind: &str) -> Option<[u8; 16]> {
    let bytes = kind.as_bytes();
    if bytes.len() > 16 {
        return None;
    }
    let mut name = [0; 16];
    name[..bytes.len()].copy_from_slice(bytes);
    Some(name)
}

// The object that a dump shows.
fn object_of(kind: Object, ingress: &[i32], dump: &TcMessage) -> Option<Key> {
    match kind {
        Object::Qdisc => node_of(&dump.header),
        Object::Class => class_of(&dump.header),
        Object::Chain => Some(chain_of(ingress, dump)),
        Object::Filter => Some(Key::Filter {
            index: dump.header.index,
            parent: parent_of(ingress, &dump.header),
            number: chain_number(&dump.attributes),
            handle: u32::from(dump.header.handle),
            info: dump.header.info,
        }),
    }
}

// A class that isn't a root class.
fn class_of(header: &TcHeader) -> Option<Key> {
    if u32::from(header.handle) % 0x1_0000 == 0 {
        None
    } else {
        Some(Key::Node { index: header.index, handle: u32::from(header.handle) })
    }
}

// The class that is a class's parent.
fn must_of(kind: Object, header: &TcHeader) -> Option<Key> {
    let handle = u32::from(header.parent);
    match kind {
        Object::Class if handle % 0x1_0000 != 0 && handle != 0xFFFF_FFFF => {
            Some(Key::Node { index: header.index, handle })
        }
        _ => None,
    }
}

// Clsact, if a parent doesn't say the side.
fn must_not_of(kind: Object, header: &TcHeader) -> Option<Key> {
    match kind {
        Object::Filter | Object::Chain if u32::from(header.parent) == 0xFFFF_0000 => {
            Some(Key::Clsact { index: header.index })
        }
        _ => None,
    }
}

// The filters of a chain without a template.
fn made_by(kind: Object, ingress: &[i32], dump: &TcMessage) -> Option<Key> {
    match kind {
        Object::Chain if !has_kind(&dump.attributes) => Some(in_chain(ingress, dump)),
        _ => None,
    }
}

fn has_kind(attributes: &[TcAttribute]) -> bool {
    attributes.iter().any(|attribute| is_kind(attribute))
}

fn is_kind(attribute: &TcAttribute) -> bool {
    matches!(attribute, TcAttribute::Kind(_))
}

// True if an attribute is this kind.
fn is_named(attribute: &TcAttribute, name: &str) -> bool {
    match attribute {
        TcAttribute::Kind(kind) => kind.as_str() == name,
        _ => false,
    }
}

// True for a message of this kind.
fn is_of(dump: &TcMessage, name: &str) -> bool {
    dump.attributes.iter().any(|attribute| is_named(attribute, name))
}

/// The interface of an ingress qdisc: there a filter is dumped with the parent that was asked for last, `ffff:fff2`, `ffff:fff3` or
/// `ffff:0`.
#[must_use]
pub fn ingress_of(kind: Object, dump: &TcMessage) -> Option<i32> {
    match kind {
        Object::Qdisc if is_of(dump, "ingress") => Some(dump.header.index),
        _ => None,
    }
}

/// The key of the filters of basic or bpf of one chain and priority, which is the key of one without a handle. The kernel
/// puts a new one before the others, and dumps the newest first. Packets come to the first that matches.
#[must_use]
pub fn newest_first(kind: Object, ingress: &[i32], dump: &TcMessage) -> Option<Key> {
    match kind {
        Object::Filter if is_of(dump, "basic") || is_of(dump, "bpf") => Some(Key::Filter {
            index: dump.header.index,
            parent: parent_of(ingress, &dump.header),
            number: chain_number(&dump.attributes),
            handle: 0,
            info: dump.header.info,
        }),
        _ => None,
    }
}

// True for the parents with which filters and chains of ingress are dumped.
fn is_side(parent: u32) -> bool {
    parent == 0xFFFF_FFF2 || parent == 0xFFFF_FFF3 || parent == 0xFFFF_0000
}

// True for an interface that has ingress.
fn has_ingress(ingress: &[i32], index: i32) -> bool {
    ingress.iter().any(|known| index == *known)
}

// The parent of a filter or a chain; always the same for ingress.
fn parent_of(ingress: &[i32], header: &TcHeader) -> u32 {
    let parent = u32::from(header.parent);
    if has_ingress(ingress, header.index) && is_side(parent) { 0xFFFF_FFF2 } else { parent }
}

// Clsact, if it is that.
fn clsact_of(dump: &TcMessage) -> Option<Key> {
    if is_of(dump, "clsact") { Some(Key::Clsact { index: dump.header.index }) } else { None }
}

fn provided(kind: Object, ingress: &[i32], dump: &TcMessage) -> Result<Vec<Key>, AllocError> {
    match kind {
        Object::Qdisc => provided_by_qdisc(dump),
        Object::Class => provided_by_class(dump),
        Object::Chain => provided_by_chain(ingress, dump),
        Object::Filter => provided_by_filter(ingress, dump),
    }
}

fn provided_by_qdisc(dump: &TcMessage) -> Result<Vec<Key>, AllocError> {
    let keys = with(Vec::new(), node_of(&dump.header))?;
    let keys = with(keys, clsact_of(dump))?;
    let keys = blocks(keys, &dump.attributes)?;
    Ok(keys)
}

fn provided_by_class(dump: &TcMessage) -> Result<Vec<Key>, AllocError> {
    let keys = with(Vec::new(), class_of(&dump.header))?;
    Ok(keys)
}

fn provided_by_chain(ingress: &[i32], dump: &TcMessage) -> Result<Vec<Key>, AllocError> {
    let keys = one(chain_of(ingress, dump))?;
    Ok(keys)
}

fn provided_by_filter(ingress: &[i32], dump: &TcMessage) -> Result<Vec<Key>, AllocError> {
    let keys = one(in_chain(ingress, dump))?;
    let keys = with(keys, table_of(dump))?;
    Ok(keys)
}

fn node_of(header: &TcHeader) -> Option<Key> {
    node(header.index, u32::from(header.handle))
}

// The qdisc or class of a handle.
fn node(index: i32, handle: u32) -> Option<Key> {
    if handle == 0 { None } else { Some(Key::Node { index, handle }) }
}

fn chain_of(ingress: &[i32], dump: &TcMessage) -> Key {
    Key::Chain {
        index: dump.header.index,
        parent: parent_of(ingress, &dump.header),
        number: chain_number(&dump.attributes),
    }
}

fn in_chain(ingress: &[i32], dump: &TcMessage) -> Key {
    Key::InChain {
        index: dump.header.index,
        parent: parent_of(ingress, &dump.header),
        number: chain_number(&dump.attributes),
    }
}

// The qdisc whose hash tables a filter of u32 finds; in a shared block, the block.
fn tables_of(header: &TcHeader) -> u32 {
    let parent = u32::from(header.parent);
    if header.index == SHARED { parent } else { parent / 0x1_0000 * 0x1_0000 }
}

// The hash table of a handle of u32.
fn table_by(header: &TcHeader, handle: u32) -> Key {
    Key::Table { index: header.index, parent: tables_of(header), number: handle / 0x10_0000 }
}

// The hash table that a dump shows.
fn table_of(dump: &TcMessage) -> Option<Key> {
    let handle = u32::from(dump.header.handle);
    if handle != 0 && handle % 0x10_0000 == 0 && is_of(dump, "u32") {
        Some(table_by(&dump.header, handle))
    } else {
        None
    }
}

// The hash table that a key is in.
fn in_table(dump: &TcMessage) -> Option<Key> {
    let handle = u32::from(dump.header.handle);
    if handle % 0x10_0000 != 0 && is_of(dump, "u32") { Some(table_by(&dump.header, handle)) } else { None }
}

// Appends the hash tables that these options link to.
fn with_links(keys: Vec<Key>, header: &TcHeader, options: &[TcOption]) -> Result<Vec<Key>, AllocError> {
    let mut made = keys;
    for option in options {
        made = with(made, link_of(header, option))?;
    }
    Ok(made)
}

// Appends the hash tables that the options of these attributes link to.
fn with_all_links(keys: Vec<Key>, header: &TcHeader, attributes: &[TcAttribute]) -> Result<Vec<Key>, AllocError> {
    let mut made = keys;
    for attribute in attributes {
        made = with_links(made, header, options_of(attribute))?;
    }
    Ok(made)
}

pub(crate) fn options_of(attribute: &TcAttribute) -> &[TcOption] {
    match attribute {
        TcAttribute::Options(options) => options,
        _ => &[],
    }
}

// The hash table that an option links to.
fn link_of(header: &TcHeader, option: &TcOption) -> Option<Key> {
    match option {
        TcOption::U32(TcFilterU32Option::Link(handle)) => Some(table_by(header, *handle)),
        _ => None,
    }
}

fn one(key: Key) -> Result<Vec<Key>, AllocError> {
    let mut keys = fallible::with_capacity(1)?;
    keys.try_push(key)?;
    Ok(keys)
}

// Appends the blocks of a qdisc: `TCA_INGRESS_BLOCK` and `TCA_EGRESS_BLOCK`.
fn blocks(keys: Vec<Key>, attributes: &[TcAttribute]) -> Result<Vec<Key>, AllocError> {
    let mut made = keys;
    for attribute in attributes {
        made = with(made, block_of(attribute))?;
    }
    Ok(made)
}

// Appends a key, if there is one.
pub(crate) fn with(keys: Vec<Key>, key: Option<Key>) -> Result<Vec<Key>, AllocError> {
    let mut made = keys;
    if let Some(key) = key {
        made.try_push(key)?;
    }
    Ok(made)
}

/// The block that an attribute of a qdisc names: `TCA_INGRESS_BLOCK` or `TCA_EGRESS_BLOCK`.
#[must_use]
pub fn block_of(attribute: &TcAttribute) -> Option<Key> {
    match attribute {
        TcAttribute::Other(nla) => {
            let kind = nla.kind() & NLA_TYPE_MASK;
            match nla.value() {
                [a, b, c, d] if kind == 13 || kind == 14 => {
                    Some(Key::Block { number: u32::from_le_bytes([*a, *b, *c, *d]) })
                }
                _ => None,
            }
        }
        _ => None,
    }
}

fn needed(kind: Object, ingress: &[i32], dump: &TcMessage) -> Result<Vec<Key>, AllocError> {
    let header = &dump.header;
    let keys = parents(header)?;
    match kind {
        Object::Qdisc | Object::Chain => Ok(keys),
        Object::Class => {
            let keys = with(keys, qdisc_of(header.index, u32::from(header.handle)))?;
            Ok(keys)
        }
        Object::Filter => needed_by_filter(keys, ingress, dump),
    }
}

// Appends the needs of a filter after its parents: actions, its chain, and the hash tables that it is in or links to.
fn needed_by_filter(keys: Vec<Key>, ingress: &[i32], dump: &TcMessage) -> Result<Vec<Key>, AllocError> {
    let mut made = keys;
    made.try_push(Key::Actions)?;
    made.try_push(chain_of(ingress, dump))?;
    let made = with(made, in_table(dump))?;
    let made = with_all_links(made, &dump.header, &dump.attributes)?;
    Ok(made)
}

// The interface of objects in a shared block: `TCM_IFINDEX_MAGIC_BLOCK`.
const SHARED: i32 = -1;

// The qdisc of a qdisc or class, by its handle.
fn qdisc_of(index: i32, handle: u32) -> Option<Key> {
    node(index, handle / 0x1_0000 * 0x1_0000)
}

// The qdisc or class that a parent names, and its qdisc; the block, if interfaces share it.
fn parents(header: &TcHeader) -> Result<Vec<Key>, AllocError> {
    let index = header.index;
    let parent = u32::from(header.parent);
    if index == SHARED {
        let keys = one(Key::Block { number: parent })?;
        Ok(keys)
    } else if parent == 0xFFFF_FFFF || parent == 0xFFFF_FFF1 {
        Ok(Vec::new())
    } else {
        let keys = with(Vec::new(), node(index, parent))?;
        let keys = with(keys, qdisc_of(index, parent))?;
        Ok(keys)
    }
}
