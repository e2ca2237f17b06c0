//! The plan that leads from one state to another, and its requests.

use crate::user::prelude::*;

use crate::plan::objects::beside::beside;
use crate::plan::objects::lost::{copied, copy_of, lost, marked};
use crate::plan::objects::model::Model;
use crate::plan::objects::objects::SHARED;
use crate::plan::objects::requests::{PlanRequest, requests_of};
use crate::plan::objects::state::{Sent, State};
use crate::tc_changes::{Key, Object, Plan, PlanError, Rules, plan_within};
use std::collections::HashSet;

/// A plan, and the requests of its steps.
pub struct Planned {
    pub plan: Plan,
    /// The requests, in the order of the steps. Empty if there are no steps.
    pub requests: Vec<PlanRequest>,
}

/// The plan that leads to the wanted state on the interfaces and in the blocks where an object of it is, or one of these keys, and its requests.
/// An action is named by its own key alone. All else stays as it is now. What would be displaced, or vanish with all that refers to it, is made again.
///
/// # Errors
///
/// A [`PlanError`]: the present state isn't in order, which no state of `state_of` is, or nothing can lead to the wanted one.
pub fn plan_between<R: Rules>(rules: &R, keys: &[Key], now: &State, want: State) -> Result<Planned, PlanError> {
    let wanted = completed(keys, now, &want);
    let there = beside(rules, now, &want)?;
    let plan = plan_by(rules, keys, now, there, &want, wanted)?;
    let requests = requests_by(now, &want.sent, &plan)?;
    Ok(Planned { plan, requests })
}

/// The model of a kernel that goes through the steps of the same plan; `None` if nothing can lead there.
///
/// # Errors
///
/// The same.
pub fn model_between<R: Rules>(rules: &R, keys: &[Key], now: &State, want: &State) -> Result<Option<Model>, PlanError> {
    let there = beside(rules, now, want)?;
    match plan_by(rules, keys, now, there, want, completed(keys, now, want))? {
        Plan::Steps(steps) => Ok(Some(Model::of(rules, now, want, steps)?)),
        Plan::Refused(_) => Ok(None),
    }
}

// The plan, anew as long as it loses something, with that marked. What is marked is made, so that nothing is marked twice.
fn plan_by<R: Rules>(
    rules: &R,
    keys: &[Key],
    now: &State,
    there: Vec<Object>,
    want: &State,
    wanted: Vec<Object>,
) -> Result<Plan, PlanError> {
    let mut there = there;
    if now.orders.is_empty() && now.weak.is_empty() {
        return plan_within(rules, keys, &there, wanted);
    }
    loop {
        let plan = plan_within(rules, keys, &there, copied(&wanted))?;
        let lost = lost(now, want, &plan);
        if lost.is_empty() {
            return Ok(plan);
        }
        marked(&mut there, &lost);
    }
}

// What is wanted. Of a block of which nothing is wanted, and that isn't named, what is there stays: others have it too.
fn completed(keys: &[Key], now: &State, want: &State) -> Vec<Object> {
    let filled: HashSet<u32> = want.objects.iter().filter_map(|object| block_with(object.key)).collect();
    let named: HashSet<u32> = keys.iter().filter_map(|key| block_named(*key)).collect();
    let is_others = |number: &u32| !filled.contains(number) && !named.contains(number);
    let own = want.objects.iter().filter_map(|object| match object.key {
        Key::Block { number } => Some(number),
        _ => None,
    });
    let others: HashSet<u32> = own.filter(is_others).collect();
    let stays = |object: &&Object| block_with(object.key).is_some_and(|number| others.contains(&number));
    copied(&want.objects).into_iter().chain(now.objects.iter().filter(stays).map(copy_of)).collect()
}

// The block that an object is in.
fn block_with(key: Key) -> Option<u32> {
    match key {
        Key::Chain { index: SHARED, parent, .. }
        | Key::Priority { index: SHARED, parent, .. }
        | Key::Filter { index: SHARED, parent, .. } => Some(parent),
        _ => None,
    }
}

// The block that a key names.
fn block_named(key: Key) -> Option<u32> {
    match key {
        Key::Block { number } | Key::Place { index: SHARED, parent: number } => Some(number),
        _ => block_with(key),
    }
}

// The requests of a plan; a refused plan has none.
fn requests_by(now: &State, sent: &Sent, plan: &Plan) -> Result<Vec<PlanRequest>, AllocError> {
    match plan {
        Plan::Steps(steps) => requests_of(now, sent, steps),
        Plan::Refused(_) => Ok(Vec::new()),
    }
}
