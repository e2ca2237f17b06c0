//! Why dumps show no state.

use crate::user::prelude::*;

use crate::plan::objects::label::Dumped;

/// Why dumps show no state. A dump is named by its number, from 0.
#[derive(Clone, Copy, PartialEq, Eq, Debug)]
pub enum StateError {
    /// An action without an index.
    Unnamed { place: usize },

    /// A message that is too long to be written.
    TooLong { place: usize },

    /// Another dump shows the same object.
    Twice(Dumped),

    /// No dump has an object that another one is under or refers to.
    Missing(Dumped),

    /// It needs itself, by way of others.
    Circle(Dumped),

    /// The allocator failed.
    OutOfMemory,
}

impl core::fmt::Display for StateError {
    fn fmt(&self, f: &mut core::fmt::Formatter<'_>) -> core::fmt::Result {
        match self {
            /// An action without an index.
            Self::Unnamed { place } => write!(f, "an action without an index, or of a kind with a long name"),

            /// A message that is too long to be written.
            Self::TooLong { place } => write!(f, "the message is too long to be written"),

            /// Another dump shows the same object.
            Self::Twice(it) => write!(f, "a second dump of {0}", it),

            /// No dump has an object that another one is under or refers to.
            Self::Missing(it) => {
                write!(f, "{0}: what it is under, or an action or a hash table that it shares, is missing", it)
            }

            /// It needs itself, by way of others.
            Self::Circle(it) => write!(f, "{0} needs itself, in a circle", it),

            /// The allocator failed.
            Self::OutOfMemory => write!(f, "out of memory"),
        }
    }
}

impl core::error::Error for StateError {}

impl StateError {
    /// The number of the dump.
    #[must_use]
    pub fn place(&self) -> Option<usize> {
        match self {
            StateError::Unnamed { place } | StateError::TooLong { place } => Some(*place),
            StateError::Twice(dumped) | StateError::Missing(dumped) | StateError::Circle(dumped) => Some(dumped.place),
            StateError::OutOfMemory => None,
        }
    }
}

impl From<AllocError> for StateError {
    fn from(_e: AllocError) -> StateError {
        StateError::OutOfMemory
    }
}
