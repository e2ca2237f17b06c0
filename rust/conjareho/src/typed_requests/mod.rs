//! Builders of the requests that a client of Linux traffic control sends, from typed parts. They build no message that reads back
//! as another one.
//!
//! This is `tc qdisc add dev .. root handle 1: fq_codel limit 10240`, for the interface with index 2:
//!
//! ```ignore
//! let target = Target {
//!     index: 2,
//!     handle: TcHandle::from(0x10000),
//!     parent: TcHandle::ROOT,
//! };
//! let request = qdisc(&target, vec![TcQdiscFqCodelOption::Limit(10240)])?;
//! ```

use crate::fallible::prelude::*;
pub mod build;
pub mod error;
pub mod handle;
pub mod kinds;
mod places;
mod settled;
pub mod target;

pub use build::{action, action_message, chain, filter, plain_qdisc, qdisc, raw_action};
pub use error::RequestError;
pub use handle::TcText;
pub use kinds::{ActionKindOption, FilterOption, OfKind, OptionOf, QdiscOption, TcKindOption};
pub use target::Target;
