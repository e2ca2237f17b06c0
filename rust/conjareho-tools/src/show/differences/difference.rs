//! Differences between states.

use crate::user::prelude::*;

use crate::tc_changes::Key;

/// The kind of a difference.
#[derive(Clone, Copy, PartialEq, Eq, Debug)]
pub enum Change {
    /// Only the first state has it.
    Gone,
    /// Both states have it, with other configurations.
    Changed,
    /// Only the second state has it.
    New,
}

/// An object that differs between two states.
#[derive(Clone, Copy, PartialEq, Eq, Debug)]
pub struct Difference {
    pub key: Key,
    pub change: Change,
}
