//! The errors of writing lines.

use crate::user::prelude::*;

/// Why lines can't be written.
#[derive(Debug, Clone, Copy)]
pub enum LinesError {
    OutOfMemory,
    /// The events aren't JSON.
    NotJson,
}

impl From<AllocError> for LinesError {
    fn from(_: AllocError) -> LinesError {
        LinesError::OutOfMemory
    }
}
