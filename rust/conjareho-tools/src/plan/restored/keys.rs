//! Sets of keys.

use crate::user::prelude::*;

use std::collections::HashSet;
use std::hash::Hash;

// A set of keys.
pub(crate) type Keys<K> = HashSet<K>;

// The set of these keys.
pub(crate) fn set_of<K: Eq + Hash + Copy>(keys: &[K]) -> Result<Keys<K>, AllocError> {
    let made = with_keys(HashSet::new(), keys)?;
    Ok(made)
}

// A set with these keys too.
pub(crate) fn with_keys<K: Eq + Hash + Copy>(set: Keys<K>, keys: &[K]) -> Result<Keys<K>, AllocError> {
    let mut made = set;
    for key in keys {
        made.insert(*key);
    }
    Ok(made)
}

// True if one of these keys is in a set.
pub(crate) fn any_in<K: Eq + Hash + Copy>(set: &Keys<K>, keys: &[K]) -> bool {
    keys.iter().any(|key| set.contains(key))
}
