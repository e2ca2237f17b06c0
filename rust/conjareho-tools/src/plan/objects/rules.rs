//! The changes that a kernel makes in place, for each kind of object.

use crate::user::prelude::*;

use crate::plan::configs::config::{CHANGED, MADE, read};
use crate::tc_changes::{Key, Object, Rules};

/// The objects that a kernel makes, and the changes that it makes in place, for each kind.
#[derive(Clone, Copy, Debug)]
pub struct KindRules;

impl Rules for KindRules {
    fn takes(&self, old: &Object, new: &Object) -> bool {
        configs_fit(&old.config, &new.config) && needs_fit(old, new)
    }

    fn can_make(&self, object: &Object) -> bool {
        let making = read(&object.config).making;
        making == MADE || making == CHANGED
    }

    /// No object is known as one that only others hold.
    fn is_weak(&self, _key: &Key) -> bool {
        false
    }
}

// True if a change leads from one configuration to another.
fn configs_fit(old: &[u8], new: &[u8]) -> bool {
    let (was, is) = (read(old), read(new));
    fits_by(was.making, is.making, was.fixed, is.fixed, was.kept, is.kept)
}

// The same of the parts of configurations.
fn fits_by(was: u8, is: u8, fixed_was: &[u8], fixed_is: &[u8], kept_was: &[u8], kept_is: &[u8]) -> bool {
    was == CHANGED && (is == CHANGED && (fixed_was == fixed_is && are_among(kept_was, kept_is)))
}

// True if two objects go with the same others and share the same actions.
fn needs_fit(old: &Object, new: &Object) -> bool {
    old.under.as_slice() == new.under.as_slice()
        && (shares(&old.refers, &new.refers) && shares(&new.refers, &old.refers))
}

// True if each of these bytes is among those.
fn are_among(bytes: &[u8], among: &[u8]) -> bool {
    bytes.iter().all(|byte| among.contains(byte))
}

// True if each action among these keys is among those.
fn shares(keys: &[Key], among: &[Key]) -> bool {
    keys.iter().all(|key| !is_action(key) || is_among(among, *key))
}

fn is_among(keys: &[Key], key: Key) -> bool {
    keys.iter().any(|known| key == *known)
}

fn is_action(key: &Key) -> bool {
    matches!(key, Key::Action { .. })
}
