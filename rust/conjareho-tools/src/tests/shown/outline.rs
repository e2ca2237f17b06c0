//! Attributes with their places, messages as lines, faults with their places, and allocations that fail.

use crate::user::prelude::*;

mod messages;
mod paths;
mod places;
mod shown;
