//! The number of times that steps provide each key.

use crate::user::prelude::*;

use crate::plan::order::order::Step;
use std::collections::HashMap;
use std::hash::Hash;

// A number for each key.
pub(crate) type Numbers<K> = HashMap<K, usize>;

// Counts how many times steps provide each key.
pub(crate) fn provided_counts<T, K: Eq + Hash + Copy>(steps: &[Step<T, K>]) -> Result<Numbers<K>, AllocError> {
    let keys = provided_keys(steps)?;
    counts_of(&keys)
}

// All keys that steps provide.
fn provided_keys<T, K: Copy>(steps: &[Step<T, K>]) -> Result<Vec<K>, AllocError> {
    let mut keys = Vec::new();
    for step in steps {
        keys.try_extend(&step.provides)?;
    }
    Ok(keys)
}

fn counts_of<K: Eq + Hash + Copy>(keys: &[K]) -> Result<Numbers<K>, AllocError> {
    let mut counts = HashMap::new();
    for key in keys {
        let count = counts.get(key).copied().unwrap_or(0);
        counts.insert(*key, count + 1);
    }
    Ok(counts)
}

// Subtracts one for each of these keys.
pub(crate) fn subtracted<K: Eq + Hash + Copy>(counts: Numbers<K>, keys: &[K]) -> Result<Numbers<K>, AllocError> {
    let mut left = counts;
    for key in keys {
        let count = left.get(key).copied().unwrap_or(0);
        left.insert(*key, count.saturating_sub(1));
    }
    Ok(left)
}

// True if one of these keys has a count above 0.
pub(crate) fn has_any<K: Eq + Hash + Copy>(counts: &Numbers<K>, keys: &[K]) -> bool {
    keys.iter().any(|key| counts.get(key).copied().unwrap_or(0) > 0)
}
