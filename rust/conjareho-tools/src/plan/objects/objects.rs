//! Objects, with what they need.

use crate::user::prelude::*;

use crate::plan::configs::Sort;
use crate::plan::objects::dumped_object::DumpedObject;
use crate::plan::objects::names::Names;
use crate::tc_changes::{Key, Object};

/// An object among those with these names. A need that is in no dump has a name that no object has, so a state with it has no
/// order (`is_ready`).
///
/// # Errors
///
/// A [`AllocError`].
pub fn object_of(names: &Names, shown: DumpedObject) -> Result<Object, AllocError> {
    let key = key_of(&shown);
    let under = under(names, &shown)?;
    let refers = refers(names, &shown)?;
    let DumpedObject { config, .. } = shown;
    Ok(Object { key, under, refers, config })
}

pub(crate) fn key_of(shown: &DumpedObject) -> Key {
    let DumpedObject { index, handle, parent, chain, priority, .. } = *shown;
    match shown.sort {
        Sort::Qdisc => Key::Place { index, parent },
        Sort::Class => Key::Class { index, handle },
        Sort::Chain => Key::Chain { index, parent, number: chain },
        Sort::Priority => priority_of(shown),
        Sort::Filter | Sort::Table => Key::Filter { index, parent, number: chain, priority, handle },
        Sort::Action(kind) => Key::Action { kind, index: handle },
        Sort::Block => Key::Block { number: parent },
        Sort::Common => common_of(index, parent),
    }
}

/// A chain that no kernel has: their numbers are below 2^28.
const NO_CHAIN: u32 = u32::MAX;

/// The key of what the priorities of u32 of a qdisc, by any handle in it, or of a block have in common.
pub(crate) fn common_of(index: i32, parent: u32) -> Key {
    let parent = if index == SHARED { parent } else { major(parent) };
    Key::Priority { index, parent, number: NO_CHAIN, priority: 0 }
}

/// True for the key of what priorities of u32 have in common.
pub(crate) fn is_common(key: Key) -> bool {
    matches!(key, Key::Priority { number: NO_CHAIN, .. })
}

/// The interface of what is in a block that interfaces share: `TCM_IFINDEX_MAGIC_BLOCK`.
pub(crate) const SHARED: i32 = -1;

// The priority of a filter.
pub(crate) fn priority_of(shown: &DumpedObject) -> Key {
    Key::Priority { index: shown.index, parent: shown.parent, number: shown.chain, priority: shown.priority }
}

// The handle of the qdisc of a class.
fn major(handle: u32) -> u32 {
    handle / 0x1_0000 * 0x1_0000
}

// What a qdisc, a chain or a filter is under: nothing at the root, and for ingress and clsact; the block that interfaces share; or the class or the qdisc
// that its parent names.
fn above(names: &Names, index: i32, parent: u32) -> Option<Key> {
    if index == SHARED {
        return Some(Key::Block { number: parent });
    }
    if parent == 0xffff_ffff || parent == 0xffff_fff1 {
        return None;
    }
    match names.get(&Key::Class { index, handle: parent }) {
        Some(key) => Some(*key),
        None => Some(owner(names, index, parent)),
    }
}

// The qdisc of a class.
fn owner(names: &Names, index: i32, handle: u32) -> Key {
    let qdisc = Key::Class { index, handle: major(handle) };
    names.get(&qdisc).copied().unwrap_or(qdisc)
}

fn under(names: &Names, shown: &DumpedObject) -> Result<Vec<Key>, AllocError> {
    let mut keys = Vec::new();
    match shown.sort {
        Sort::Class => keys.try_push(owner(names, shown.index, shown.handle))?,
        Sort::Qdisc | Sort::Chain => keys = with(keys, above(names, shown.index, shown.parent))?,
        Sort::Priority => {
            let chain = Key::Chain { index: shown.index, parent: shown.parent, number: shown.chain };
            keys = with(keys, above(names, shown.index, shown.parent))?;
            keys = with(keys, names.get(&chain).copied())?;
        }
        Sort::Filter => keys.try_push(priority_of(shown))?,
        Sort::Table => keys.try_push(common_of(shown.index, shown.parent))?,
        Sort::Common if shown.index == SHARED => keys.try_push(Key::Block { number: shown.parent })?,
        Sort::Common => keys.try_push(owner(names, shown.index, shown.parent))?,
        Sort::Action(_) | Sort::Block => {}
    }
    Ok(keys)
}

fn refers(names: &Names, shown: &DumpedObject) -> Result<Vec<Key>, AllocError> {
    match shown.sort {
        Sort::Class => with(Vec::new(), parent_class(shown.index, shown.parent)),
        Sort::Filter => {
            let mut keys = classes_named(names, shown.index, &shown.classes)?;
            keys.try_extend(&shown.others)?;
            Ok(keys)
        }
        Sort::Table => with(Vec::new(), Some(priority_of(shown))),
        Sort::Qdisc | Sort::Priority => fallible::copy(&shown.others),
        Sort::Chain | Sort::Action(_) | Sort::Block | Sort::Common => Ok(Vec::new()),
    }
}

// The class that is a class's parent.
fn parent_class(index: i32, parent: u32) -> Option<Key> {
    if parent == 0xffff_ffff || parent % 0x1_0000 == 0 { None } else { Some(Key::Class { index, handle: parent }) }
}

// Those of these classes that are there. A filter may name others, and isn't bound to them.
fn classes_named(names: &Names, index: i32, classes: &[u32]) -> Result<Vec<Key>, AllocError> {
    let mut keys = Vec::new();
    for class in classes {
        if let Some(key) = class_named(names, index, *class) {
            keys.try_push(key)?;
        }
    }
    Ok(keys)
}

fn class_named(names: &Names, index: i32, handle: u32) -> Option<Key> {
    names.get(&Key::Class { index, handle }).copied()
}

// Keys, and one more.
fn with(keys: Vec<Key>, key: Option<Key>) -> Result<Vec<Key>, AllocError> {
    let mut keys = keys;
    if let Some(key) = key {
        keys.try_push(key)?;
    }
    Ok(keys)
}
