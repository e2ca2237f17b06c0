//! Standalone actions of a dump: the ones that aren't one filter's own.

use crate::fallible::prelude::*;

use crate::restore::restore::{NOTHING_AROUND, restore_all, sole_kind};
use crate::restore::restore_error::RestoreError;
use crate::restore::uses::{Use, are_parameters, goes_to_chain, is_private, use_in, use_of_generic};
use crate::tc_actions::{
    TcAction, TcActionAttribute, TcActionMirrorOption, TcActionNatOption, TcActionOption, TcActionTunnelKeyOption,
};

// A question about an action.
#[derive(Clone, Copy)]
pub(crate) enum Question {
    // Is it one filter's own?
    Private,
    // Does a packet continue in a chain?
    ToChain,
}

// Restores the standalone actions; each of the others is made with its filter.
pub(crate) fn standalone_restored(actions: Vec<TcAction>) -> Result<Vec<TcAction>, RestoreError> {
    let count = actions.len();
    let own = standalone(actions);
    if any_to_chain(&own) {
        Err(RestoreError::GotoChain)
    } else if own.is_empty() && count != 0 {
        Err(RestoreError::MadeByKernel)
    } else {
        restore_all(own, "", NOTHING_AROUND)
    }
}

fn standalone(actions: Vec<TcAction>) -> Vec<TcAction> {
    let mut own = actions;
    own.retain(|action| !says(Question::Private, action));
    own
}

fn any_to_chain(actions: &[TcAction]) -> bool {
    actions.iter().any(|action| says(Question::ToChain, action))
}

// The answer for an action; false without parameters.
fn says(asked: Question, action: &TcAction) -> bool {
    let kind = kind_of_action(action);
    any_says(asked, kind, &action.attributes)
}

/// The one kind that an action sets (`TCA_ACT_KIND`), or "".
#[must_use]
pub fn kind_of_action(action: &TcAction) -> &str {
    sole_kind(&action.attributes)
}

/// The index of a standalone action, by which filters share it (`tc_gen.index`). `None` for one filter's own action, and if the
/// parameters have no index or 0, for which the kernel takes a free one.
#[must_use]
pub fn standalone_index(action: &TcAction) -> Option<u32> {
    if says(Question::Private, action) { None } else { index_if(use_of_action(action)) }
}

fn index_if(found: Option<Use>) -> Option<u32> {
    match found {
        Some(found) if found.index != 0 => Some(found.index),
        _ => None,
    }
}

/// The index of an action and the counts of its holders, from its parameters, if it has any.
#[must_use]
pub fn use_of_action(action: &TcAction) -> Option<Use> {
    let kind = kind_of_action(action);
    first_use(kind, &action.attributes)
}

fn first_use(kind: &str, attributes: &[TcActionAttribute]) -> Option<Use> {
    for attribute in attributes {
        if let Some(found) = use_under(kind, attribute) {
            return Some(found);
        }
    }
    None
}

fn use_under(kind: &str, attribute: &TcActionAttribute) -> Option<Use> {
    match attribute {
        TcActionAttribute::Options(options) => use_among(kind, options),
        _ => None,
    }
}

fn use_among(kind: &str, options: &[TcActionOption]) -> Option<Use> {
    for option in options {
        if let Some(found) = use_of(kind, option) {
            return Some(found);
        }
    }
    None
}

fn any_says(asked: Question, kind: &str, attributes: &[TcActionAttribute]) -> bool {
    attributes.iter().any(|attribute| attribute_says(asked, kind, attribute))
}

fn attribute_says(asked: Question, kind: &str, attribute: &TcActionAttribute) -> bool {
    match attribute {
        TcActionAttribute::Options(options) => any_option_says(asked, kind, options),
        _ => false,
    }
}

fn any_option_says(asked: Question, kind: &str, options: &[TcActionOption]) -> bool {
    options.iter().any(|option| option_says(asked, kind, option))
}

fn option_says(asked: Question, kind: &str, option: &TcActionOption) -> bool {
    match use_of(kind, option) {
        Some(found) => answer(asked, found),
        None => false,
    }
}

fn answer(asked: Question, found: Use) -> bool {
    match asked {
        Question::Private => is_private(found),
        Question::ToChain => goes_to_chain(found.next),
    }
}

// The index and the counts in an option, if it has the parameters.
fn use_of(kind: &str, option: &TcActionOption) -> Option<Use> {
    match option {
        TcActionOption::Mirror(TcActionMirrorOption::Parms(record)) => Some(use_of_generic(&record.generic)),
        TcActionOption::Nat(TcActionNatOption::Parms(record)) => Some(use_of_generic(&record.generic)),
        TcActionOption::TunnelKey(TcActionTunnelKeyOption::Parms(record)) => Some(use_of_generic(&record.generic)),
        TcActionOption::Other(nla) => {
            if are_parameters(kind, nla) {
                use_in(kind, nla.value())
            } else {
                None
            }
        }
        _ => None,
    }
}
