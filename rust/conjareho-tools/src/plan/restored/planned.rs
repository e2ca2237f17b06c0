//! The order of requests, and the fate of each dump.

use crate::user::prelude::*;

use crate::plan::order::{Order, Step, ordered};
use crate::plan::restored::dependencies::{Dependencies, Item};
use crate::plan::restored::fate::{Fate, Reason};
use crate::plan::restored::key::Key;
use crate::plan::restored::keys::{Keys, any_in, set_of, with_keys};
use std::collections::HashSet;

/// Sorts the requests that restore dumps, each after all of these that it needs, and decides the fate of each dump. `sorted` has
/// requests and the objects that they make. `unordered` has dumps that can't be made, that need such, or that need one another in a
/// circle. Dumps that are in order already stay in it.
///
/// # Errors
///
/// A [`AllocError`].
pub fn plan(dumps: Vec<Dependencies>) -> Result<Order<Item, Key>, AllocError> {
    let steps = steps_of(dumps)?;
    let order = ordered(steps)?;
    Ok(order)
}

/// Finds the circles among the steps that `plan` couldn't order: `unordered` has steps that need one another in a circle or need such,
/// even if all steps could run.
///
/// # Errors
///
/// A [`AllocError`].
pub fn circle(left: &[Step<Item, Key>]) -> Result<Order<usize, Key>, AllocError> {
    let steps = freed(left)?;
    let order = ordered(steps)?;
    Ok(order)
}

// The same steps, all of which can run.
fn freed(left: &[Step<Item, Key>]) -> Result<Vec<Step<usize, Key>>, AllocError> {
    let mut made = fallible::with_capacity(left.len())?;
    for step in left {
        let step = freed_step(step)?;
        made.try_push(step)?;
    }
    Ok(made)
}

fn freed_step(step: &Step<Item, Key>) -> Result<Step<usize, Key>, AllocError> {
    let provides = copied(&step.provides)?;
    let needs = copied(&step.needs)?;
    Ok(Step { item: step.item.place, provides, needs, cannot_run: false })
}

fn copied(keys: &[Key]) -> Result<Vec<Key>, AllocError> {
    let mut made = fallible::with_capacity(keys.len())?;
    made.try_extend(keys)?;
    Ok(made)
}

// All keys that dumps provide, as a set.
fn all_provided(dumps: &[Dependencies]) -> Result<Keys<Key>, AllocError> {
    let keys = provided_keys(dumps)?;
    set_of(&keys)
}

// All keys that dumps provide.
fn provided_keys(dumps: &[Dependencies]) -> Result<Vec<Key>, AllocError> {
    let mut keys = Vec::new();
    for dump in dumps {
        keys.try_extend(&dump.provides)?;
    }
    Ok(keys)
}

fn steps_of(dumps: Vec<Dependencies>) -> Result<Vec<Step<Item, Key>>, AllocError> {
    let given = all_provided(&dumps)?;
    let mut before = HashSet::new();
    let mut steps = fallible::with_capacity(dumps.len())?;
    for dump in dumps {
        let Dependencies { place, fate, provides, needs, objects, must, must_not, made_by } = dump;
        let own = objects.as_slice();
        let fate = fate_among(&given, &before, own, must, must_not, made_by, fate);
        before = with_keys(before, own)?;
        let step = step_by(place, fate, provides, needs);
        steps.try_push(step)?;
    }
    Ok(steps)
}

// The step of a dump.
fn step_by(place: usize, fate: Fate, provides: Vec<Key>, needs: Vec<Key>) -> Step<Item, Key> {
    let cannot_run = fate.is_refused();
    let provides = provides_by(&fate, provides);
    Step { item: Item { place, fate }, provides, needs, cannot_run }
}

// The keys that a dump provides: none for a second dump, since the first provides them.
fn provides_by(fate: &Fate, provides: Vec<Key>) -> Vec<Key> {
    match fate {
        Fate::Refused(Reason::Twice) => {
            let mut none = provides;
            none.clear();
            none
        }
        _ => provides,
    }
}

// The fate of a dump, given the keys that all provide and the objects of the dumps before it.
fn fate_among(
    given: &Keys<Key>,
    before: &Keys<Key>,
    own: &[Key],
    must: Option<Key>,
    must_not: Option<Key>,
    made_by: Option<Key>,
    fate: Fate,
) -> Fate {
    match fate {
        Fate::Request => {
            if is_again(before, own) {
                again(own)
            } else if lacks(given, must) {
                Fate::Refused(Reason::NoParent)
            } else if has(given, must_not) {
                Fate::Refused(Reason::NoSide)
            } else if has(given, made_by) {
                Fate::Made
            } else {
                Fate::Request
            }
        }
        Fate::Change => {
            if is_again(before, own) {
                again(own)
            } else {
                Fate::Change
            }
        }
        fate => fate,
    }
}

// True if a dump before has one of these objects.
fn is_again(before: &Keys<Key>, own: &[Key]) -> bool {
    any_in(before, own)
}

// The fate of a second dump.
fn again(own: &[Key]) -> Fate {
    if any_shared(own) { Fate::Made } else { Fate::Refused(Reason::Twice) }
}

// True if one of these is in a shared block.
fn any_shared(own: &[Key]) -> bool {
    match own.split_first() {
        Some((first, others)) => first.is_shared() || any_shared(others),
        None => false,
    }
}

// True if there is a key and a set has it.
fn has(set: &Keys<Key>, key: Option<Key>) -> bool {
    match key {
        Some(key) => set.contains(&key),
        None => false,
    }
}

// True if there is a key and a set lacks it.
fn lacks(set: &Keys<Key>, key: Option<Key>) -> bool {
    match key {
        Some(key) => !set.contains(&key),
        None => false,
    }
}
