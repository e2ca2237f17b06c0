//! The objects of single dumps.

use crate::user::prelude::*;

use crate::plan::configs::config::MADE;
use crate::plan::configs::configured::{chain, plain};
use crate::plan::configs::requested::config_of_action;
use crate::plan::configs::{Configured, Sort, config_of};
use crate::plan::objects::classes::classes_of;
use crate::plan::objects::dump::Dump;
use crate::plan::objects::dumped_object::DumpedObject;
use crate::plan::objects::in_order::NewIs;
use crate::plan::objects::known::Known;
use crate::plan::objects::made::{handle_named, is_by_kernel};
use crate::plan::objects::objects::{SHARED, common_of, key_of};
use crate::plan::objects::state_error::StateError;
use crate::plan::restored::{Dependencies, Fate, Key as PlanKey, Named, dependencies_of, has_action, name_of_action};
use crate::restore::{Object, actions_of_filter, kind_of_message, standalone_index, use_of_action};
use crate::tc_action_messages::{TcActionMessage, TcActionMessageAttribute};
use crate::tc_actions::TcAction;
use crate::tc_changes::Key;
use crate::tc_messages::TcMessage;
use std::collections::HashSet;

/// The origin of an object.
#[derive(Clone, Copy, PartialEq, Eq, Debug)]
pub struct Origin {
    /// The number of its dump, from 0.
    pub place: usize,
    /// Its handle there (`tcm_handle`): of a filter in a root table of u32 with the number of that table.
    pub handle: u32,
}

/// An object as a dump shows it, and its origin.
pub(crate) struct Reading {
    pub(crate) shown: DumpedObject,
    pub(crate) origin: Origin,
    /// Where the kernel puts a new filter of its priority, if packets meet these in the order in which they were made.
    pub(crate) new_is: Option<NewIs>,
    /// The message that is sent, where that isn't the one that is compared.
    pub(crate) sent: Option<Vec<u8>>,
    /// How many filters hold an action, if nothing else does: `bindcnt`, which is `refcnt`.
    pub(crate) held_by: Option<u32>,
}

impl Reading {
    // What has no order, and is sent as it is compared.
    fn of(place: usize, shown: DumpedObject) -> Reading {
        let origin = Origin { place, handle: shown.handle };
        Reading { shown, origin, new_is: None, sent: None, held_by: None }
    }
}

/// The objects of dumps.
pub(crate) struct Readings {
    pub(crate) all: Vec<Reading>,
    /// The priorities among them, and what is in blocks that interfaces share, which each of these dumps.
    pub(crate) seen: HashSet<Key>,
}

/// The objects of these dumps.
pub(crate) fn readings_of(known: &Known, dumps: Vec<Dump>) -> Result<Vec<Reading>, StateError> {
    let readings = Readings { all: Vec::new(), seen: HashSet::new() };
    let made = put_dumps(known, dumps, readings)?;
    Ok(made.all)
}

fn put_dumps(known: &Known, dumps: Vec<Dump>, readings: Readings) -> Result<Readings, StateError> {
    let mut readings = readings;
    let mut place = 0;
    for dump in dumps {
        readings = put_dump(known, place, dump, readings)?;
        place = usize::saturating_add(place, 1);
    }
    Ok(readings)
}

fn put_dump(known: &Known, place: usize, dump: Dump, readings: Readings) -> Result<Readings, StateError> {
    match dump {
        Dump::Of(object, message) => put_object(known, place, object, message, readings),
        Dump::Actions(message) => put_actions(known, place, message, readings),
    }
}

// Readings, and one more.
fn with_reading(readings: Readings, reading: Reading) -> Result<Readings, AllocError> {
    let Readings { all, seen } = readings;
    let mut all = all;
    all.try_push(reading)?;
    Ok(Readings { all, seen })
}

// The same, unless it was seen: the priority of a filter, and what is in a block that interfaces share, which each of these dumps.
fn with_new(readings: Readings, reading: Reading) -> Result<Readings, AllocError> {
    let key = key_of(&reading.shown);
    if readings.seen.contains(&key) {
        return Ok(readings);
    }
    let Readings { all, seen } = readings;
    let mut all = all;
    let mut seen = seen;
    seen.insert(key);
    all.try_push(reading)?;
    Ok(Readings { all, seen })
}

// What the keys of a dump say.
#[derive(Clone, Copy)]
struct Whereabouts {
    sort: Sort,
    index: i32,
    parent: u32,
    chain: u32,
    priority: u32,
}

fn whereabouts_of(known: &Known, object: Object, message: &TcMessage, dependencies: &Dependencies) -> Whereabouts {
    let index = message.header.index;
    match (object, dependencies.objects.first()) {
        (Object::Chain, Some(PlanKey::Chain { parent, number, .. })) => {
            Whereabouts { sort: Sort::Chain, index, parent: *parent, chain: *number, priority: 0 }
        }
        (Object::Filter, Some(PlanKey::Filter { parent, number, info, .. })) => Whereabouts {
            sort: sort_of_filter(known, dependencies),
            index,
            parent: *parent,
            chain: *number,
            priority: *info / 0x1_0000,
        },
        _ => Whereabouts {
            sort: sort_of_node(object),
            index,
            parent: u32::from(message.header.parent),
            chain: 0,
            priority: 0,
        },
    }
}

// A class, or a qdisc.
fn sort_of_node(object: Object) -> Sort {
    match object {
        Object::Class => Sort::Class,
        _ => Sort::Qdisc,
    }
}

// A hash table of u32, or a filter.
fn sort_of_filter(known: &Known, dependencies: &Dependencies) -> Sort {
    for key in &dependencies.provides {
        if let Some(Some(_)) = known.tables.get(key) {
            return Sort::Table;
        }
    }
    Sort::Filter
}

// Puts what a dump shows, unless the kernel makes it itself or with something else.
fn put_object(
    known: &Known,
    place: usize,
    object: Object,
    message: TcMessage,
    readings: Readings,
) -> Result<Readings, StateError> {
    let dependencies = dependencies_of(0, Fate::Request, object, &known.ingress, &message)?;
    let at = whereabouts_of(known, object, &message, &dependencies);
    let before = put_implied(known, place, object, at, &message, &dependencies, readings)?;
    if is_left_out(known, object, at.chain, &message, &dependencies) {
        return Ok(before);
    }
    let reading = reading_of(known, place, object, at, &dependencies, message)?;
    let made = put_reading(before, reading)?;
    Ok(made)
}

// Readings, and one more; of what is in a block that interfaces share, only the first.
fn put_reading(readings: Readings, reading: Reading) -> Result<Readings, AllocError> {
    if reading.shown.index == SHARED { with_new(readings, reading) } else { with_reading(readings, reading) }
}

// True if the kernel makes it itself or with something else.
fn is_left_out(known: &Known, object: Object, chain: u32, message: &TcMessage, dependencies: &Dependencies) -> bool {
    is_implied(known, object, chain, message, dependencies) || is_by_kernel(&known.roots, object, message)
}

// The reading of an object that the kernel doesn't make itself.
fn reading_of(
    known: &Known,
    place: usize,
    object: Object,
    at: Whereabouts,
    dependencies: &Dependencies,
    message: TcMessage,
) -> Result<Reading, StateError> {
    let origin = Origin { place, handle: u32::from(message.header.handle) };
    let new_is = NewIs::of(object, &message);
    let others = match object {
        Object::Qdisc => blocks_in(dependencies).collect(),
        _ => tables_of(known, dependencies)?,
    };
    let (shown, sent) = shown_of(known, place, object, at, others, message)?;
    Ok(Reading { shown, origin, new_is, sent, held_by: None })
}

// The blocks that a qdisc has.
fn blocks_in(dependencies: &Dependencies) -> impl Iterator<Item = Key> {
    dependencies.provides.iter().filter_map(|key| match key {
        PlanKey::Block { number } => Some(Key::Block { number: *number }),
        _ => None,
    })
}

// True for chain 0 without a template, and for another one without a template that has a filter: the kernel makes it with the filter.
fn is_implied(known: &Known, object: Object, chain: u32, message: &TcMessage, dependencies: &Dependencies) -> bool {
    match &dependencies.made_by {
        Some(key) => chain == 0 || known.filled.contains(key),
        None => false,
    }
}

// The hash tables that a filter is in or links to, as far as they are objects. A table that is linked to outlives its priority, and no dump shows it then.
fn tables_of(known: &Known, dependencies: &Dependencies) -> Result<Vec<Key>, AllocError> {
    let mut keys = Vec::new();
    for key in &dependencies.needs {
        if let Some(Some(table)) = known.tables.get(key) {
            keys.try_push(*table)?;
        }
    }
    Ok(keys)
}

// Puts what comes with an object, and has no dump of its own: the blocks of a qdisc, and of a filter its chain and its priority.
fn put_implied(
    known: &Known,
    place: usize,
    object: Object,
    at: Whereabouts,
    message: &TcMessage,
    dependencies: &Dependencies,
    readings: Readings,
) -> Result<Readings, AllocError> {
    match object {
        Object::Filter => {
            with_priority(known, place, at, message, with_chain(known, place, at, dependencies, readings)?)
        }
        Object::Qdisc => blocks_in(dependencies).try_fold(readings, |readings, key| match key {
            Key::Block { number } => {
                with_virtual(place, Whereabouts { sort: Sort::Block, parent: number, ..NOWHERE }, readings)
            }
            _ => Ok(readings),
        }),
        Object::Class | Object::Chain => Ok(readings),
    }
}

const NOWHERE: Whereabouts = Whereabouts { sort: Sort::Block, index: 0, parent: 0, chain: 0, priority: 0 };

// What no request makes and no dump has.
fn with_virtual(place: usize, at: Whereabouts, readings: Readings) -> Result<Readings, AllocError> {
    let config = plain(MADE, &[])?;
    with_new(readings, Reading::of(place, shown_at(at, 0, Vec::new(), Vec::new(), config)))
}

// The chain of a filter, if it isn't 0 and the filter makes it.
fn with_chain(
    known: &Known,
    place: usize,
    at: Whereabouts,
    dependencies: &Dependencies,
    readings: Readings,
) -> Result<Readings, AllocError> {
    let is_dumped = dependencies.needs.iter().any(|key| known.templates.contains(key));
    if at.chain == 0 || is_dumped {
        return Ok(readings);
    }
    let at = Whereabouts { sort: Sort::Chain, priority: 0, ..at };
    with_new(readings, Reading::of(place, shown_at(at, 0, Vec::new(), Vec::new(), chain(None)?)))
}

fn with_priority(
    known: &Known,
    place: usize,
    at: Whereabouts,
    message: &TcMessage,
    readings: Readings,
) -> Result<Readings, AllocError> {
    let at = Whereabouts { sort: Sort::Priority, ..at };
    let config = priority_config(message)?;
    if kind_of_message(message) != "u32" {
        return with_new(readings, Reading::of(place, shown_at(at, 0, Vec::new(), Vec::new(), config)));
    }
    let readings = with_virtual(place, Whereabouts { sort: Sort::Common, chain: 0, priority: 0, ..at }, readings)?;
    let others = vec![common_of(at.index, at.parent)];
    with_new(readings, Reading::of(place, shown_at(at, 0, Vec::new(), others, config)))
}

// The configuration of a priority: the protocol and the kind of its filters.
fn priority_config(message: &TcMessage) -> Result<Vec<u8>, AllocError> {
    let protocol = message.header.info % 0x1_0000;
    let mut text = fallible::copy(&protocol.to_le_bytes())?;
    text.try_extend(kind_of_message(message).as_bytes())?;
    plain(MADE, &text)
}

// What a dump shows.
fn shown_of(
    known: &Known,
    place: usize,
    object: Object,
    at: Whereabouts,
    others: Vec<Key>,
    message: TcMessage,
) -> Result<(DumpedObject, Option<Vec<u8>>), StateError> {
    let handle = handle_named(&known.roots, object, &message);
    let classes = match object {
        Object::Filter => classes_of(&message)?,
        _ => Vec::new(),
    };
    let Some(configured) = config_of(&known.roots, object, at.sort, at.parent, message)? else {
        return Err(StateError::TooLong { place });
    };
    let Configured { message, config, sent } = configured;
    let others = match object {
        Object::Filter => with_shared(others, actions_of_filter(message)?)?,
        _ => others,
    };
    Ok((shown_at(at, handle, classes, others, config), sent))
}

fn shown_at(at: Whereabouts, handle: u32, classes: Vec<u32>, others: Vec<Key>, config: Vec<u8>) -> DumpedObject {
    DumpedObject {
        sort: at.sort,
        index: at.index,
        handle,
        parent: at.parent,
        chain: at.chain,
        priority: at.priority,
        classes,
        others,
        config,
    }
}

// Keys, and those of the actions that a filter shares.
fn with_shared(keys: Vec<Key>, actions: Vec<TcAction>) -> Result<Vec<Key>, AllocError> {
    let mut keys = keys;
    for action in &actions {
        if let (Some(_), Some(name)) = (standalone_index(action), name_of_action(action)) {
            let Named { kind, index } = name;
            keys.try_push(Key::Action { kind, index })?;
        }
    }
    Ok(keys)
}

// Puts the actions of a dump, but for those that are one filter's own.
fn put_actions(
    known: &Known,
    place: usize,
    message: TcActionMessage,
    readings: Readings,
) -> Result<Readings, StateError> {
    let mut readings = readings;
    for attribute in message.attributes {
        readings = put_attribute(known, place, attribute, readings)?;
    }
    Ok(readings)
}

fn put_attribute(
    known: &Known,
    place: usize,
    attribute: TcActionMessageAttribute,
    readings: Readings,
) -> Result<Readings, StateError> {
    let actions = actions_of(attribute);
    put_all(known, place, actions, readings)
}

fn actions_of(attribute: TcActionMessageAttribute) -> Vec<TcAction> {
    match attribute {
        TcActionMessageAttribute::Actions(actions) => actions,
        _ => Vec::new(),
    }
}

fn put_all(known: &Known, place: usize, actions: Vec<TcAction>, readings: Readings) -> Result<Readings, StateError> {
    let mut readings = readings;
    for action in actions {
        readings = put_action(known, place, action, readings)?;
    }
    Ok(readings)
}

fn put_action(known: &Known, place: usize, action: TcAction, readings: Readings) -> Result<Readings, StateError> {
    let Some(name) = name_of_action(&action) else {
        return Err(StateError::Unnamed { place });
    };
    let Some(index) = standalone_index(&action) else {
        return Ok(readings);
    };
    let reading = reading_of_action(known, place, name, index, action)?;
    let made = with_reading(readings, reading)?;
    Ok(made)
}

// The reading of a standalone action with this name.
fn reading_of_action(
    known: &Known,
    place: usize,
    name: Named,
    index: u32,
    action: TcAction,
) -> Result<Reading, StateError> {
    let sort = Sort::Action(name.kind);
    let by_filters = has_action(&known.by_filters, name);
    let held_by = use_of_action(&action).filter(|it| it.references == it.filters).map(|it| it.filters);
    let Some(config) = config_of_action(sort, by_filters, action)? else {
        return Err(StateError::TooLong { place });
    };
    Ok(Reading { held_by, ..Reading::of(place, of_action(sort, index, config)) })
}

fn of_action(sort: Sort, index: u32, config: Vec<u8>) -> DumpedObject {
    DumpedObject {
        sort,
        index: 0,
        handle: index,
        parent: 0,
        chain: 0,
        priority: 0,
        classes: Vec::new(),
        others: Vec::new(),
        config,
    }
}
