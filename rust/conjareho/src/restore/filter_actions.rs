//! The actions of a filter of any kind.

use crate::fallible::prelude::*;

use crate::nla_frames::{DecodeError, DefaultNla, Nla, parse_list};
use crate::restore::restore::is_of;
use crate::restore::restore_filters::actions_types;
use crate::restore::restore_messages::kind_of_message;
use crate::tc_actions::TcAction;
use crate::tc_messages::{TcAttribute, TcMessage};
use crate::tc_options::{TcFilterBpfOption, TcFilterFlowerOption, TcFilterMatchAllOption, TcFilterU32Option, TcOption};

/// The actions of a filter of any kind. Actions and options that can't be parsed are left out.
///
/// # Errors
///
/// A [`AllocError`].
pub fn actions_of_filter(filter: TcMessage) -> Result<Vec<TcAction>, AllocError> {
    // The kind is copied, since the attributes that have it are consumed.
    let kind = fallible::text(kind_of_message(&filter))?;
    of_attributes(kind.as_str(), filter.attributes)
}

fn of_attributes(kind: &str, attributes: Vec<TcAttribute>) -> Result<Vec<TcAction>, AllocError> {
    let mut made = Vec::new();
    for attribute in attributes {
        let actions = of_attribute(kind, attribute)?;
        made = joined(made, actions)?;
    }
    Ok(made)
}

fn of_attribute(kind: &str, attribute: TcAttribute) -> Result<Vec<TcAction>, AllocError> {
    match attribute {
        TcAttribute::Options(options) => of_options(options),
        TcAttribute::OptionsRaw(nla) => of_raw_options(kind, nla.value()),
        _ => Ok(Vec::new()),
    }
}

fn of_options(options: Vec<TcOption>) -> Result<Vec<TcAction>, AllocError> {
    let mut made = Vec::new();
    for option in options {
        let actions = of_option(option)?;
        made = joined(made, actions)?;
    }
    Ok(made)
}

fn of_option(option: TcOption) -> Result<Vec<TcAction>, AllocError> {
    match option {
        TcOption::Flower(option) => Ok(of_flower(option)),
        TcOption::U32(option) => Ok(of_u32(option)),
        TcOption::MatchAll(option) => Ok(of_matchall(option)),
        TcOption::Bpf(option) => of_bpf(&option),
        _ => Ok(Vec::new()),
    }
}

fn of_flower(option: TcFilterFlowerOption) -> Vec<TcAction> {
    match option {
        TcFilterFlowerOption::Actions(actions) => actions,
        _ => Vec::new(),
    }
}

fn of_u32(option: TcFilterU32Option) -> Vec<TcAction> {
    match option {
        TcFilterU32Option::Action(actions) => actions,
        _ => Vec::new(),
    }
}

fn of_matchall(option: TcFilterMatchAllOption) -> Vec<TcAction> {
    match option {
        TcFilterMatchAllOption::Action(actions) => actions,
        _ => Vec::new(),
    }
}

fn of_bpf(option: &TcFilterBpfOption) -> Result<Vec<TcAction>, AllocError> {
    match option {
        TcFilterBpfOption::Other(nla) => of_raw(nla),
        _ => Ok(Vec::new()),
    }
}

fn of_raw(nla: &DefaultNla) -> Result<Vec<TcAction>, AllocError> {
    if is_of(&[1], nla) { actions_read(nla.value()) } else { Ok(Vec::new()) }
}

fn joined(front: Vec<TcAction>, actions: Vec<TcAction>) -> Result<Vec<TcAction>, AllocError> {
    let mut made = front;
    let mut actions = actions;
    made.append(&mut actions);
    Ok(made)
}

// Parses raw options, and returns their actions.
fn of_raw_options(kind: &str, bytes: &[u8]) -> Result<Vec<TcAction>, AllocError> {
    match parse_list(bytes) {
        Ok(options) => of_frames(kind, options),
        Err(DecodeError::OutOfMemory) => Err(AllocError),
        Err(_) => Ok(Vec::new()),
    }
}

fn of_frames(kind: &str, options: Vec<DefaultNla>) -> Result<Vec<TcAction>, AllocError> {
    let mut made = Vec::new();
    for option in options {
        let actions = of_frame(kind, &option)?;
        made = joined(made, actions)?;
    }
    Ok(made)
}

fn of_frame(kind: &str, option: &DefaultNla) -> Result<Vec<TcAction>, AllocError> {
    if is_of(actions_types(kind), option) { actions_read(option.value()) } else { Ok(Vec::new()) }
}

// Parses a list of actions; the empty list if that fails.
fn actions_read(bytes: &[u8]) -> Result<Vec<TcAction>, AllocError> {
    match parse_list(bytes) {
        Ok(actions) => Ok(actions),
        Err(DecodeError::OutOfMemory) => Err(AllocError),
        Err(_) => Ok(Vec::new()),
    }
}
