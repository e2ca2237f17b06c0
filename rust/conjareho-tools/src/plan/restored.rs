//! Plans of the requests that restore dumps: which objects each provides and needs, the fate of each dump, and an order with each
//! request after the requests that it needs.
//!
//! ```ignore
//! let mut ingress = Vec::new(alloc);
//! for (object, dump) in &dumps {
//!     ingress.extend(ingress_of(*object, dump))?;
//! }
//! let mut planned = Vec::new(alloc);
//! for (place, (object, dump)) in dumps.iter().enumerate() {
//!     planned.push(dependencies_of(place, Fate::Request, *object, &ingress, dump)?)?;
//! }
//! let plan = plan(planned)?;
//! for step in &plan.sorted {
//!     // the dumps that it needs are before it; another request makes one with `Fate::Made`
//!     if step.item.fate == Fate::Request {
//!         send(step.item.place)?;
//!     }
//! }
//! // those in `plan.unordered` can't be made, need such, or need one another in a circle
//! ```

use crate::user::prelude::*;
pub mod dependencies;
pub mod fate;
pub mod key;
mod keys;
pub mod now;
pub mod planned;
pub mod shared_actions;

pub use crate::plan::order::{Order, Step, ordered};
pub use dependencies::{
    Dependencies, Item, block_of, dependencies_of, dependencies_of_actions, ingress_of, newest_first,
};
pub use fate::{Fate, Named, Reason};
pub use key::Key;
pub use now::{Action, Now, fate_of_action, held_by, name_of_action};
pub use planned::{circle, plan};
pub use shared_actions::{has_action, made_by_filters, offloaded_by, shared_action};
