//! Names that the caller provides.

use crate::user::prelude::*;

/// The caller's names of interfaces, by index.
#[derive(Clone, Copy, Debug)]
pub struct Interfaces<'a> {
    /// Interface indices and names.
    pub names: &'a [(u32, &'a str)],
}
