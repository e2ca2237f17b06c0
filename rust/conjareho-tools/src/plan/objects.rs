//! The objects of a state, as a plan of changes needs them (`tc_changes`): from what dumps show of qdiscs, classes, chains and
//! filters.

use crate::user::prelude::*;
mod beside;
mod classes;
pub mod dump;
pub mod dumped_object;
mod in_order;
mod known;
pub mod label;
mod lost;
mod made;
pub mod model;
pub mod names;
pub mod objects;
pub mod plans;
pub mod reading;
mod renamed;
pub mod requests;
pub mod rules;
pub mod state;
pub mod state_error;

pub use dump::Dump;
pub use dumped_object::DumpedObject;
pub use label::{Dumped, Label};
pub use model::Model;
pub use names::{Names, names_of};
pub use objects::object_of;
pub use plans::{Planned, model_between, plan_between};
pub use reading::Origin;
pub use requests::{CHANGE_FLAGS, DELETE_FLAGS, PlanRequest};
pub use rules::KindRules;
pub use state::{State, state_after, state_of};
pub use state_error::StateError;
