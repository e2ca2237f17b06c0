//! Why no plan is made.

use crate::user::prelude::*;

use crate::plan::objects::{Label, StateError};
use core::fmt;

/// Why no plan is made.
pub(crate) enum PlanComplaint {
    /// It can't be part of a state.
    State(StateError),
    /// This object can't be made, and isn't there as it is wanted.
    Unmade(Label),
    /// This object is in its state twice, or comes before one that it needs.
    Unready(Label),
    /// This object isn't where something is wanted, and would have to be made again, or lacks what it needs.
    Elsewhere(Label),
}

impl fmt::Display for PlanComplaint {
    fn fmt(&self, f: &mut fmt::Formatter<'_>) -> fmt::Result {
        match self {
            PlanComplaint::State(error) => write!(f, "{error}"),
            PlanComplaint::Unmade(object) => {
                write!(
                    f,
                    "{object} can't be made from a dump, and isn't there as it is wanted, or has to be made again"
                )
            }
            PlanComplaint::Unready(object) => write!(f, "{object} is there twice, or comes before what it needs"),
            PlanComplaint::Elsewhere(object) => {
                write!(f, "{object} is where nothing is wanted, but lacks what it needs, or has to be made again")
            }
        }
    }
}
