//! The requests that restore what was dumped of Linux traffic control.
//!
//! ```ignore
//! let mut roots = Vec::new(alloc);
//! for (object, dump) in &dumps {
//!     roots.extend(root_table(*object, dump))?;
//! }
//! for (object, dump) in dumps {
//!     match request_of(&roots, object, dump) {
//!         Ok(request) => send(request)?,
//!         Err(error) => report(error)?,
//!     }
//! }
//! ```

use crate::fallible::prelude::*;
mod codel_times;
pub mod counts;
pub mod filter_actions;
pub mod notice;
mod numbers;
mod restore;
mod restore_actions;
pub mod restore_error;
mod restore_filters;
pub mod restore_messages;
mod restore_options;
mod restore_raw;
mod restore_tunnels;
pub mod root_tables;
pub mod standalone;
pub mod uses;

pub use counts::unheld;
pub use filter_actions::actions_of_filter;
pub use notice::{Notice, notice_of};
pub use restore_actions::only_dumped;
pub use restore_error::RestoreError;
pub use restore_messages::{
    NEW_FLAGS, Object, RTM_NEWACTION, Request, is_made, kind_of_message, request_of, request_of_actions,
};
pub use root_tables::{RootTable, chain_number, has_two_roots, is_at_root, root_table, within_table};
pub use standalone::{kind_of_action, standalone_index, use_of_action};
pub use uses::Use;
