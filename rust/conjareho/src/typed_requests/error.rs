//! Errors of the builders.

use crate::fallible::prelude::*;

/// The reason why no request is built.
#[derive(PartialEq, Eq, Debug, Hash, Clone)]
pub enum RequestError {
    /// The option, or the action of an action message, at this index of its list, counted from 0, doesn't read back as itself:
    /// a number exceeds its mask, an `Other` holds a type that has a row, an action has no kind.
    NotSettled { place: usize },

    /// The order number of an action is 0: they are counted from 1, and Linux ignores an action at 0.
    NoPlace,

    /// Two actions of a list have this order number. Linux keeps only the last.
    SamePlace(u16),

    /// Options of an action are raw, though options of its kind have types.
    KnownKind,

    /// The allocator failed.
    OutOfMemory,
}

impl core::fmt::Display for RequestError {
    fn fmt(&self, f: &mut core::fmt::Formatter<'_>) -> core::fmt::Result {
        match self {
            /// The option, or the action of an action message, at this index of its list, counted from 0, doesn't read back as itself:
            /// a number exceeds its mask, an `Other` holds a type that has a row, an action has no kind.
            Self::NotSettled { place } => write!(f, "part {place} does not read back as itself"),

            /// The order number of an action is 0: they are counted from 1, and Linux ignores an action at 0.
            Self::NoPlace => write!(f, "an action at place 0"),

            /// Two actions of a list have this order number. Linux keeps only the last.
            Self::SamePlace(it) => write!(f, "two actions at place {0}", it),

            /// Options of an action are raw, though options of its kind have types.
            Self::KnownKind => write!(f, "raw options under a kind whose options are known"),

            /// The allocator failed.
            Self::OutOfMemory => write!(f, "out of memory"),
        }
    }
}

impl core::error::Error for RequestError {}

impl From<AllocError> for RequestError {
    fn from(_e: AllocError) -> RequestError {
        RequestError::OutOfMemory
    }
}
