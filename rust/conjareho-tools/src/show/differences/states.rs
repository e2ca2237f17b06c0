//! The differences between two states.

use crate::user::prelude::*;

use crate::show::differences::difference::{Change, Difference};
use crate::tc_changes::places::{Index, index_of, look_up};
use crate::tc_changes::{Key, Object};

/// The differences between two states: first those in the objects of the first one, in its order, then what only the second one has, in its
/// order.
///
/// # Errors
///
/// A [`AllocError`].
pub fn differences(before: &[Object], after: &[Object]) -> Result<Vec<Difference>, AllocError> {
    let was = index_of(before)?;
    let is = index_of(after)?;
    let first = keys_of(before)?;
    let keys = with_new(first, before, &was, after)?;
    let found = differences_in(before, &was, after, &is, &keys)?;
    Ok(found)
}

// The keys of objects.
fn keys_of(objects: &[Object]) -> Result<Vec<Key>, AllocError> {
    let mut made = fallible::with_capacity(objects.len())?;
    for object in objects {
        made.try_push(object.key)?;
    }
    Ok(made)
}

// These keys, and those that only the second state has.
fn with_new(first: Vec<Key>, before: &[Object], was: &Index, after: &[Object]) -> Result<Vec<Key>, AllocError> {
    let mut made = first;
    for object in after {
        if is_new(before, was, object.key) {
            made.try_push(object.key)?;
        }
    }
    Ok(made)
}

// True for a key that the first state doesn't have.
fn is_new(before: &[Object], was: &Index, key: Key) -> bool {
    look_up(before, was, key).is_none()
}

// The differences in these keys.
fn differences_in(
    before: &[Object],
    was: &Index,
    after: &[Object],
    is: &Index,
    keys: &[Key],
) -> Result<Vec<Difference>, AllocError> {
    let mut found = Vec::new();
    for key in keys {
        let change = change_at(before, was, after, is, *key);
        found = with_change(found, *key, change)?;
    }
    Ok(found)
}

// One more difference, if there is one.
fn with_change(found: Vec<Difference>, key: Key, change: Option<Change>) -> Result<Vec<Difference>, AllocError> {
    let mut found = found;
    if let Some(change) = change {
        found.try_push(Difference { key, change })?;
    }
    Ok(found)
}

// How the states differ in a key.
fn change_at(before: &[Object], was: &Index, after: &[Object], is: &Index, key: Key) -> Option<Change> {
    let old = look_up(before, was, key);
    let new = look_up(after, is, key);
    change_by(old, new)
}

// How an object differs.
fn change_by(before: Option<&Object>, after: Option<&Object>) -> Option<Change> {
    match (before, after) {
        (None, None) => None,
        (Some(_), None) => Some(Change::Gone),
        (None, Some(_)) => Some(Change::New),
        (Some(before), Some(after)) => {
            if before.config.as_slice() == after.config.as_slice() {
                None
            } else {
                Some(Change::Changed)
            }
        }
    }
}
