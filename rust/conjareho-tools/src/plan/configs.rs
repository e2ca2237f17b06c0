//! The configuration of an object that a dump shows: the request that makes it, or the dump in normal form.

use crate::user::prelude::*;
mod actions;
pub(crate) mod compared;
pub mod config;
pub mod configured;
pub mod frames;
mod kinds;
mod normal;
mod parts;
pub mod requested;
pub mod sort;

pub use config::message_of;
pub use requested::{Configured, config_of};
pub use sort::Sort;
