//! Facts that need all dumps, for reading one of them.

use crate::user::prelude::*;

use crate::plan::objects::dump::Dump;
use crate::plan::restored::{
    Dependencies, Fate, Key as PlanKey, dependencies_of, ingress_of, made_by_filters, offloaded_by, shared_action,
};
use crate::restore::{Object, RootTable, root_table};
use crate::tc_action_messages::{TcActionMessage, TcActionMessageAttribute};
use crate::tc_changes::Key;
use crate::tc_messages::TcMessage;
use std::collections::{HashMap, HashSet};

/// Hash tables of u32 by their numbers, each with its object if it is one: root tables are none.
pub(crate) type Tables = HashMap<PlanKey, Option<Key>>;

/// Chains that have a filter (`InChain`).
pub(crate) type Chains = HashSet<PlanKey>;

/// Facts that need all dumps.
pub(crate) struct Known {
    /// The root tables of u32.
    pub(crate) roots: Vec<RootTable>,
    /// The interfaces that have ingress.
    pub(crate) ingress: Vec<i32>,
    /// The hash tables of u32.
    pub(crate) tables: Tables,
    /// The chains that have a filter.
    pub(crate) filled: Chains,
    /// The actions that only their filters can make.
    pub(crate) by_filters: Vec<PlanKey>,
    /// The chains that have a template.
    pub(crate) templates: HashSet<PlanKey>,
}

/// The facts of these dumps.
pub(crate) fn known_of(dumps: &[Dump]) -> Result<Known, AllocError> {
    let roots = roots_of(dumps)?;
    let ingress = ingress_all(dumps)?;
    let filled = filled_of(&ingress, dumps)?;
    let tables = tables_of(&ingress, dumps)?;
    let by_filters = by_filters_of(dumps)?;
    let templates = templates_of(&ingress, dumps)?;
    Ok(Known { roots, ingress, tables, filled, by_filters, templates })
}

fn roots_of(dumps: &[Dump]) -> Result<Vec<RootTable>, AllocError> {
    let mut roots = Vec::new();
    for dump in dumps {
        roots = with(roots, root_in(dump))?;
    }
    Ok(roots)
}

fn root_in(dump: &Dump) -> Option<RootTable> {
    match dump {
        Dump::Of(object, message) => root_table(*object, message),
        Dump::Actions(_) => None,
    }
}

fn ingress_all(dumps: &[Dump]) -> Result<Vec<i32>, AllocError> {
    let mut ingress = Vec::new();
    for dump in dumps {
        ingress = with(ingress, ingress_in(dump))?;
    }
    Ok(ingress)
}

fn ingress_in(dump: &Dump) -> Option<i32> {
    match dump {
        Dump::Of(object, message) => ingress_of(*object, message),
        Dump::Actions(_) => None,
    }
}

// The chains that have a filter.
fn filled_of(ingress: &[i32], dumps: &[Dump]) -> Result<Chains, AllocError> {
    let mut filled = HashSet::new();
    for dump in dumps {
        let chain = chain_in(ingress, dump)?;
        filled = with_chain(filled, chain)?;
    }
    Ok(filled)
}

fn with_chain(filled: Chains, chain: Option<PlanKey>) -> Result<Chains, AllocError> {
    match chain {
        Some(chain) => {
            let mut filled = filled;
            filled.insert(chain);
            Ok(filled)
        }
        None => Ok(filled),
    }
}

// Values, and one more if there is one.
fn with<T: Copy>(values: Vec<T>, one: Option<T>) -> Result<Vec<T>, AllocError> {
    let mut values = values;
    if let Some(one) = one {
        values.try_push(one)?;
    }
    Ok(values)
}

// The chain of a filter, which is the first key that it provides.
fn chain_in(ingress: &[i32], dump: &Dump) -> Result<Option<PlanKey>, AllocError> {
    match dump {
        Dump::Of(Object::Filter, message) => {
            let dependencies = dependencies_of(0, Fate::Request, Object::Filter, ingress, message)?;
            Ok(dependencies.provides.first().copied())
        }
        _ => Ok(None),
    }
}

// The hash tables of u32.
fn tables_of(ingress: &[i32], dumps: &[Dump]) -> Result<Tables, AllocError> {
    let mut tables = HashMap::new();
    for dump in dumps {
        if let Dump::Of(Object::Filter, message) = dump {
            let dependencies = dependencies_of(0, Fate::Request, Object::Filter, ingress, message)?;
            for key in &dependencies.provides {
                if let PlanKey::Table { .. } = key {
                    tables.insert(*key, table_of(message, &dependencies));
                }
            }
        }
    }
    Ok(tables)
}

// The object of a hash table: none of a root table.
fn table_of(message: &TcMessage, dependencies: &Dependencies) -> Option<Key> {
    if root_table(Object::Filter, message).is_some() {
        return None;
    }
    match dependencies.objects.first() {
        Some(PlanKey::Filter { index, parent, number, handle, info }) => Some(Key::Filter {
            index: *index,
            parent: *parent,
            number: *number,
            priority: *info / 0x1_0000,
            handle: *handle,
        }),
        _ => None,
    }
}

// The chains that have a template: those that filters don't make.
fn templates_of(ingress: &[i32], dumps: &[Dump]) -> Result<HashSet<PlanKey>, AllocError> {
    let mut templates = HashSet::new();
    for dump in dumps {
        if let Dump::Of(Object::Chain, message) = dump {
            let dependencies = dependencies_of(0, Fate::Request, Object::Chain, ingress, message)?;
            templates.extend(dependencies.provides.into_iter().filter(|_| dependencies.made_by.is_none()));
        }
    }
    Ok(templates)
}

// The actions that only their filters can make.
fn by_filters_of(dumps: &[Dump]) -> Result<Vec<PlanKey>, AllocError> {
    let mut shared = Vec::new();
    let mut offloaded = Vec::new();
    for dump in dumps {
        match dump {
            Dump::Of(Object::Filter, message) => {
                let keys = offloaded_by(message.clone())?;
                offloaded.try_extend(&keys)?;
            }
            Dump::Of(_, _) => {}
            Dump::Actions(message) => shared = with_shared(shared, message)?,
        }
    }
    Ok(made_by_filters(shared, &offloaded))
}

fn with_shared(keys: Vec<PlanKey>, message: &TcActionMessage) -> Result<Vec<PlanKey>, AllocError> {
    let mut keys = keys;
    for attribute in &message.attributes {
        if let TcActionMessageAttribute::Actions(actions) = attribute {
            for action in actions {
                if let Some(key) = shared_action(action) {
                    keys.try_push(key)?;
                }
            }
        }
    }
    Ok(keys)
}
