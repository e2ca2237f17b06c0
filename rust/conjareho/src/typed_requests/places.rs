//! Order numbers of actions in their lists.

use crate::fallible::prelude::*;

use crate::tc_actions::TcAction;
use crate::tc_options::{TcFilterFlowerOption, TcFilterMatchAllOption, TcFilterU32Option, TcOption};

// The first order number that a later action has too.
pub(crate) fn doubled(actions: &[TcAction]) -> Option<u16> {
    for (place, action) in actions.iter().enumerate() {
        let (_, rest) = actions.split_at(place + 1);
        if has_place(rest, action.tab) {
            return Some(action.tab);
        }
    }
    None
}

fn has_place(actions: &[TcAction], place: u16) -> bool {
    actions.iter().any(|action| action.tab == place)
}

// An order number that two actions have, in the first option with actions that do.
pub(crate) fn doubled_in(options: &[TcOption]) -> Option<u16> {
    for option in options {
        let place = doubled_of(option);
        if place.is_some() {
            return place;
        }
    }
    None
}

fn doubled_of(option: &TcOption) -> Option<u16> {
    match option {
        TcOption::Flower(TcFilterFlowerOption::Actions(actions))
        | TcOption::U32(TcFilterU32Option::Action(actions))
        | TcOption::MatchAll(TcFilterMatchAllOption::Action(actions)) => doubled(actions),
        _ => None,
    }
}
