//! States.

use crate::user::prelude::*;

use crate::plan::configs::{Sort, message_of};
use crate::plan::objects::dump::Dump;
use crate::plan::objects::dumped_object::DumpedObject;
use crate::plan::objects::in_order::{InOrder, NewIs, Orders};
use crate::plan::objects::known::known_of;
use crate::plan::objects::label::{Dumped, Label};
use crate::plan::objects::names::names_of;
use crate::plan::objects::objects::{key_of, object_of, priority_of};
use crate::plan::objects::reading::{Origin, Reading, readings_of};
use crate::plan::objects::renamed::renamed;
use crate::plan::objects::requests::Handles;
use crate::plan::objects::state_error::StateError;
use crate::plan::order::{Step, ordered};
use crate::tc_changes::{Key, Object, is_ready};
use std::collections::{HashMap, HashSet};

/// The objects that a kernel has, or is to have, each after all that it needs.
#[derive(Default)]
pub struct State {
    pub objects: Vec<Object>,
    /// The origin of each.
    pub origins: Vec<Origin>,
    /// The handles by which the kernel has them.
    pub handles: Handles,
    /// The filters of priorities where the order counts.
    pub(crate) orders: Orders,
    /// The messages that are sent, where those aren't the ones that are compared.
    pub(crate) sent: Sent,
    /// The objects that are there only as long as something refers to them.
    pub(crate) weak: HashSet<Key>,
}

/// Messages of requests by the objects that they make.
pub(crate) type Sent = HashMap<Key, Vec<u8>>;

impl State {
    /// The message of the request that makes an object of this state.
    pub(crate) fn message_of<'a>(&'a self, object: &'a Object) -> &'a [u8] {
        self.sent.get(&object.key).map_or_else(|| message_of(&object.config), Vec::as_slice)
    }
}

// An object, and where it comes from.
struct Item {
    object: Object,
    origin: Origin,
}

/// The state that dumps show. What the kernel makes itself, or with something else, is no object of its own.
///
/// # Errors
///
/// A [`StateError`].
pub fn state_of(dumps: Vec<Dump>) -> Result<State, StateError> {
    let none = HashMap::new();
    state_by(dumps, &none, false)
}

/// The same of what is wanted instead of a state. Filters that are there come before new ones, since some kinds refuse a filter with the
/// values that another one still has. Qdiscs whose handles the kernel chose get the handles that the same places have now.
///
/// # Errors
///
/// A [`StateError`].
pub fn state_after(dumps: Vec<Dump>, now: &State) -> Result<State, StateError> {
    let wanted = renamed(&now.handles, dumps)?;
    let state = state_by(wanted, &now.handles, true)?;
    Ok(state)
}

// The same, with filters that aren't there last, if it sorts.
fn state_by(dumps: Vec<Dump>, there: &Handles, sorts: bool) -> Result<State, StateError> {
    let known = known_of(&dumps)?;
    let mut readings = readings_of(&known, dumps)?;
    let orders = orders_of(&readings);
    let sent = sent_of(&mut readings);
    let weak = weak_of(&readings);
    let steps = steps_of(readings, &orders)?;
    let last = new_last(there, sorts, steps)?;
    let order = ordered(last)?;
    match stuck_in(&order.unordered) {
        None => {}
        Some(fault) => return Err(fault),
    }
    let state = State { orders, sent, weak, ..in_order(order.sorted)? };
    let is = is_ready(&state.objects)?;
    if is {
        Ok(state)
    } else {
        let fault = fault_of(&state)?;
        Err(fault)
    }
}

// That the first of steps can't be put into an order.
fn stuck_in(steps: &[Step<Item, Key>]) -> Option<StateError> {
    match steps {
        [] => None,
        [step, ..] => {
            Some(StateError::Circle(Dumped { place: step.item.origin.place, object: Label(step.item.object.key) }))
        }
    }
}

// These steps; those of filters last that aren't there, if it sorts.
fn new_last(there: &Handles, sorts: bool, steps: Vec<Step<Item, Key>>) -> Result<Vec<Step<Item, Key>>, AllocError> {
    if !sorts {
        return Ok(steps);
    }
    let mut first = fallible::with_capacity(steps.len())?;
    let mut last = Vec::new();
    for step in steps {
        if is_new(there, step.item.object.key) {
            last.try_push(step)?;
        } else {
            first.try_push(step)?;
        }
    }
    first.append(&mut last);
    Ok(first)
}

// True for a filter that isn't there.
fn is_new(there: &Handles, key: Key) -> bool {
    match key {
        Key::Filter { .. } => !there.contains_key(&key),
        _ => false,
    }
}

// The state of what steps make.
fn in_order(steps: Vec<Step<Item, Key>>) -> Result<State, AllocError> {
    let mut objects = fallible::with_capacity(steps.len())?;
    let mut origins = fallible::with_capacity(steps.len())?;
    let mut handles = HashMap::new();
    for step in steps {
        let Item { object, origin } = step.item;
        handles.insert(object.key, origin.handle);
        objects.try_push(object)?;
        origins.try_push(origin)?;
    }
    let (orders, sent, weak) = (Orders::new(), Sent::new(), HashSet::new());
    Ok(State { objects, origins, handles, orders, sent, weak })
}

// The steps that make what dumps show.
fn steps_of(readings: Vec<Reading>, orders: &Orders) -> Result<Vec<Step<Item, Key>>, StateError> {
    let before = made_before(orders);
    let ports = ports_of(&readings);
    let (shown, origins) = parted(readings)?;
    let names = names_of(&shown)?;
    let mut steps = fallible::with_capacity(shown.len())?;
    for one in shown {
        let place = steps.len();
        let origin = origins.get(place).copied().unwrap_or(NOWHERE);
        let object = object_of(&names, one)?;
        let earlier = before.get(&object.key).copied();
        let first = ports_above(&ports, &object).iter().copied().chain(earlier);
        let step = step_of(object, origin, first)?;
        steps.try_push(step)?;
    }
    Ok(steps)
}

const NOWHERE: Origin = Origin { place: 0, handle: 0 };

// What readings show, and the origin of each.
fn parted(readings: Vec<Reading>) -> Result<(Vec<DumpedObject>, Vec<Origin>), AllocError> {
    let mut shown = fallible::with_capacity(readings.len())?;
    let mut origins = fallible::with_capacity(readings.len())?;
    for reading in readings {
        let Reading { shown: one, origin, .. } = reading;
        shown.try_push(one)?;
        origins.try_push(origin)?;
    }
    Ok((shown, origins))
}

// The step of an object, which waits for these too.
fn step_of(object: Object, origin: Origin, first: impl Iterator<Item = Key>) -> Result<Step<Item, Key>, AllocError> {
    let mut provides = fallible::with_capacity(1)?;
    provides.try_push(object.key)?;
    let mut needs = fallible::copy(&object.under)?;
    needs.try_extend(&object.refers)?;
    for key in first {
        needs.try_push(key)?;
    }
    Ok(Step { item: Item { object, origin }, provides, needs, cannot_run: false })
}

// The filters of each priority where their order counts.
fn orders_of(readings: &[Reading]) -> Orders {
    let mut orders = Orders::new();
    for reading in readings {
        if let Some(new_is) = reading.new_is {
            let order = orders.entry(priority_of(&reading.shown));
            let order = order.or_insert_with(|| InOrder { new_is, filters: Vec::new() });
            order.filters.push(key_of(&reading.shown));
        }
    }
    orders
}

// The messages that are sent, where those aren't the ones that are compared. Each interface of a block shows what is in it.
fn sent_of(readings: &mut [Reading]) -> Sent {
    let taken = readings.iter_mut().filter_map(|reading| Some((key_of(&reading.shown), reading.sent.take()?)));
    taken.collect()
}

// What stands only as long as something refers to it: blocks, what priorities of u32 have in common, and actions that only filters among these hold.
fn weak_of(readings: &[Reading]) -> HashSet<Key> {
    let mut held: HashMap<Key, u32> = HashMap::new();
    for key in readings.iter().flat_map(|reading| &reading.shown.others) {
        let count = held.entry(*key).or_default();
        *count = count.saturating_add(1);
    }
    let is_weak = |reading: &&Reading| match reading.shown.sort {
        Sort::Block | Sort::Common => true,
        _ => reading.held_by.is_some_and(|filters| filters != 0 && held.get(&key_of(&reading.shown)) == Some(&filters)),
    };
    readings.iter().filter(is_weak).map(|reading| key_of(&reading.shown)).collect()
}

// The qdiscs of each block.
type Ports = HashMap<Key, Vec<Key>>;

fn ports_of(readings: &[Reading]) -> Ports {
    let mut ports = Ports::new();
    for reading in readings.iter().filter(|reading| reading.shown.sort == Sort::Qdisc) {
        for block in &reading.shown.others {
            ports.entry(*block).or_default().push(key_of(&reading.shown));
        }
    }
    ports
}

// The qdiscs of the block that an object is under: what is in a block comes after all of these.
fn ports_above<'a>(ports: &'a Ports, object: &Object) -> &'a [Key] {
    object.under.iter().find_map(|key| ports.get(key)).map_or(&[], Vec::as_slice)
}

// The filter that is to be made before each, so that they come in their order.
fn made_before(orders: &Orders) -> HashMap<Key, Key> {
    let mut before = HashMap::new();
    for InOrder { new_is, filters } in orders.values() {
        for (first, second) in filters.iter().zip(filters.iter().skip(1)) {
            let (earlier, later) = if *new_is == NewIs::First { (second, first) } else { (first, second) };
            before.insert(*later, *earlier);
        }
    }
    before
}

// Why a state isn't one.
fn fault_of(state: &State) -> Result<StateError, AllocError> {
    let mut before: HashSet<Key> = HashSet::new();
    for (object, origin) in state.objects.iter().zip(state.origins.iter()) {
        let dumped = Dumped { place: origin.place, object: Label(object.key) };
        if before.contains(&object.key) {
            return Ok(StateError::Twice(dumped));
        }
        if !object.under.iter().all(|key| before.contains(key)) || !object.refers.iter().all(|key| before.contains(key))
        {
            return Ok(StateError::Missing(dumped));
        }
        before.insert(object.key);
    }
    Ok(StateError::OutOfMemory)
}
