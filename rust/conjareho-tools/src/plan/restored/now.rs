//! The actions that the kernel has now, on which requests depend.

use crate::user::prelude::*;

use crate::plan::restored::dependencies::{name_of, with};
use crate::plan::restored::fate::{Fate, Named, Reason};
use crate::plan::restored::key::Key;
use crate::restore::{Use, actions_of_filter, kind_of_action, use_of_action};
use crate::tc_actions::TcAction;
use crate::tc_messages::TcMessage;

/// An action that is there.
#[derive(Debug)]
pub struct Action {
    /// Its kind and its index.
    pub name: Named,
    /// The request that makes it, without a netlink header. Empty if no request does.
    pub request: Vec<u8>,
    /// The number of filters that hold it (`tc_gen.bindcnt`).
    pub filters: usize,
}

/// The actions that the kernel has now.
#[derive(Debug)]
pub struct Now {
    /// The actions.
    pub actions: Vec<Action>,
    /// The actions that filters of the interfaces to be restored hold, each as often as they hold it.
    pub held: Vec<Key>,
}

/// The fate of an action that this request makes. If it is there with the same request, it stays. Another one is changed if only
/// filters of the interfaces to be restored hold it, or none, or if `replaces`.
#[must_use]
pub fn fate_of_action(now: &Now, replaces: bool, name: Named, request: &[u8]) -> Fate {
    fate_among(&now.actions, &now.held, replaces, name, request)
}

// The fate among these actions of now.
fn fate_among(actions: &[Action], held: &[Key], replaces: bool, name: Named, request: &[u8]) -> Fate {
    for action in actions {
        if key_of(name) == key_of(action.name) {
            return fate_there(action, held, replaces, name, request);
        }
    }
    Fate::Request
}

// The fate of an action that is there.
fn fate_there(action: &Action, held: &[Key], replaces: bool, name: Named, request: &[u8]) -> Fate {
    if action.request.as_slice() == request {
        Fate::There
    } else if replaces || action.filters == own(held, name) {
        Fate::Change
    } else {
        Fate::Refused(Reason::Held(name))
    }
}

pub(crate) fn key_of(name: Named) -> Key {
    let Named { kind, index } = name;
    Key::Action { kind, index }
}

// The number of times that filters hold an action.
fn own(held: &[Key], name: Named) -> usize {
    let own = key_of(name);
    held.iter().filter(|key| own == **key).count()
}

/// The kind and the index of an action, whoever holds it. `None` if its parameters have no index, or 0.
#[must_use]
pub fn name_of_action(action: &TcAction) -> Option<Named> {
    named_by(name_of(kind_of_action(action)), index_if(use_of_action(action)))
}

fn named_by(kind: Option<[u8; 16]>, index: Option<u32>) -> Option<Named> {
    match (kind, index) {
        (Some(kind), Some(index)) => Some(Named { kind, index }),
        _ => None,
    }
}

fn index_if(found: Option<Use>) -> Option<u32> {
    match found {
        Some(found) if found.index != 0 => Some(found.index),
        _ => None,
    }
}

/// The actions that a filter of any kind holds, each as often as it holds it.
///
/// # Errors
///
/// A [`AllocError`].
pub fn held_by(filter: TcMessage) -> Result<Vec<Key>, AllocError> {
    let actions = actions_of_filter(filter)?;
    let keys = held_among(&actions)?;
    Ok(keys)
}

fn held_among(actions: &[TcAction]) -> Result<Vec<Key>, AllocError> {
    let mut keys = Vec::new();
    for action in actions {
        keys = with(keys, held_action(action))?;
    }
    Ok(keys)
}

fn held_action(action: &TcAction) -> Option<Key> {
    match name_of_action(action) {
        Some(name) => Some(key_of(name)),
        None => None,
    }
}
