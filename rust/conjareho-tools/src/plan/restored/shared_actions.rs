//! Actions shared by filters, one of them with an offload flag: a request of its own doesn't restore such an action.

use crate::user::prelude::*;

use crate::bitflags::Flags;
use crate::plan::restored::dependencies::{options_of, standalone_action};
use crate::plan::restored::fate::Named;
use crate::plan::restored::key::Key;
use crate::plan::restored::now::{held_by, key_of};
use crate::restore::{Use, use_of_action};
use crate::tc_actions::TcAction;
use crate::tc_messages::{TcAttribute, TcMessage};
use crate::tc_options::{TcFilterBpfOption, TcFilterFlowerOption, TcFilterMatchAllOption, TcFilterU32Option, TcOption};

/// The keys of the actions of a filter with an offload flag (`TCA_CLS_FLAGS_SKIP_HW` or `TCA_CLS_FLAGS_SKIP_SW`), each as often as
/// the filter has it. Empty for another filter.
///
/// # Errors
///
/// A [`AllocError`].
pub fn offloaded_by(filter: TcMessage) -> Result<Vec<Key>, AllocError> {
    if has_offload_flag(&filter) {
        let keys = held_by(filter)?;
        Ok(keys)
    } else {
        Ok(Vec::new())
    }
}

fn has_offload_flag(filter: &TcMessage) -> bool {
    filter.attributes.iter().any(|attribute| attribute_skips(attribute))
}

fn attribute_skips(attribute: &TcAttribute) -> bool {
    any_skips(options_of(attribute))
}

fn any_skips(options: &[TcOption]) -> bool {
    for option in options {
        if option_skips(option) {
            return true;
        }
    }
    false
}

fn option_skips(option: &TcOption) -> bool {
    match option {
        TcOption::Flower(TcFilterFlowerOption::Flags(flags)) => skips(*flags),
        TcOption::U32(TcFilterU32Option::Flags(flags)) => skips(flags.bits()),
        TcOption::MatchAll(TcFilterMatchAllOption::Flags(flags)) => skips(*flags),
        TcOption::Bpf(TcFilterBpfOption::FlagsGeneric(flags)) => skips(flags.bits()),
        _ => false,
    }
}

// True for flags with `TCA_CLS_FLAGS_SKIP_HW` or `TCA_CLS_FLAGS_SKIP_SW`.
fn skips(flags: u32) -> bool {
    flags % 4 != 0
}

/// The key of an action that filters share and nothing else holds.
#[must_use]
pub fn shared_action(action: &TcAction) -> Option<Key> {
    if is_of_filters(use_of_action(action)) { standalone_action(action) } else { None }
}

fn is_of_filters(found: Option<Use>) -> bool {
    match found {
        Some(found) => found.references == found.filters && found.filters >= 2,
        None => false,
    }
}

/// The actions that only their filters can make: the keys in `shared` (`shared_action` of each dumped action) and in `offloaded`
/// (`offloaded_by` of each dumped filter).
#[must_use]
pub fn made_by_filters(shared: Vec<Key>, offloaded: &[Key]) -> Vec<Key> {
    let mut made = shared;
    made.retain(|key| is_among(offloaded, *key));
    made
}

fn is_among(keys: &[Key], key: Key) -> bool {
    keys.iter().any(|known| key == *known)
}

/// True if an action is one of these.
#[must_use]
pub fn has_action(keys: &[Key], name: Named) -> bool {
    is_among(keys, key_of(name))
}
