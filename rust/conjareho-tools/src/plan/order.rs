//! Topological sorting of steps that need keys which other steps provide.

use crate::user::prelude::*;
mod counts;
pub mod order;
mod walk;

pub use order::{Order, Step, ordered};
