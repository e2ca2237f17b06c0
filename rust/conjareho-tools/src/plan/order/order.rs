//! Steps, and sorting them.

use crate::user::prelude::*;

use crate::plan::order::counts::{Numbers, has_any, provided_counts, subtracted};
use crate::plan::order::walk::depth_first;
use std::hash::Hash;

/// A step, the keys that it provides and the keys that it needs.
#[derive(Debug)]
pub struct Step<T, K> {
    /// The caller's value for this step.
    pub item: T,
    /// Keys that it provides.
    pub provides: Vec<K>,
    /// Keys that it needs. A key that no step provides counts as present.
    pub needs: Vec<K>,
    /// True if the step can't run. Then steps that depend on it can't either.
    pub cannot_run: bool,
}

/// The result of sorting steps.
#[derive(Debug)]
pub struct Order<T, K> {
    /// Steps that can run, each after the steps that it depends on.
    pub sorted: Vec<Step<T, K>>,
    /// Steps that can't run or depend on one another in a circle, and steps that depend on such.
    pub unordered: Vec<Step<T, K>>,
}

/// Sorts steps topologically: each comes after every step that provides a key it needs. Steps that are in order already are
/// unchanged.
///
/// # Errors
///
/// A [`AllocError`].
pub fn ordered<T, K: Eq + Hash + Copy>(steps: Vec<Step<T, K>>) -> Result<Order<T, K>, AllocError> {
    let (sorted, unordered) = take_ready(Vec::new(), steps)?;
    if unordered.is_empty() {
        return Ok(Order { sorted, unordered });
    }
    let made = sort_rest(sorted, unordered)?;
    Ok(made)
}

// Sorts steps after a sorted list. A depth-first walk puts nearly all of them in order, so that few passes are needed.
fn sort_rest<T, K: Eq + Hash + Copy>(
    sorted: Vec<Step<T, K>>,
    unordered: Vec<Step<T, K>>,
) -> Result<Order<T, K>, AllocError> {
    let rounds = unordered.len();
    let mut sorted = sorted;
    let mut unordered = unordered;
    for _ in 0..rounds {
        let count = unordered.len();
        let steps = depth_first(unordered)?;
        let (more, waiting) = take_ready(sorted, steps)?;
        sorted = more;
        unordered = waiting;
        if unordered.len() == count {
            return Ok(Order { sorted, unordered });
        }
    }
    Ok(Order { sorted, unordered })
}

// Appends the steps whose needs are met to a sorted list; returns it and the other steps.
fn take_ready<T, K: Eq + Hash + Copy>(
    sorted: Vec<Step<T, K>>,
    steps: Vec<Step<T, K>>,
) -> Result<(Vec<Step<T, K>>, Vec<Step<T, K>>), AllocError> {
    let mut counts = provided_counts(&steps)?;
    let mut sorted = sorted;
    let mut waiting = Vec::new();
    for step in steps {
        if waits(&counts, &step) {
            waiting.try_push(step)?;
        } else {
            counts = subtracted(counts, &step.provides)?;
            sorted.try_push(step)?;
        }
    }
    Ok((sorted, waiting))
}

// True if a step can't run, or needs a key that is still to be provided.
fn waits<T, K: Eq + Hash + Copy>(counts: &Numbers<K>, step: &Step<T, K>) -> bool {
    step.cannot_run || has_any(counts, &step.needs)
}
