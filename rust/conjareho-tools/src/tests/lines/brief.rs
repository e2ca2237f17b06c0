//! Lines of a message for each object, of each kind, and numbers in all units and widths.

use crate::user::prelude::*;

mod exact;
mod known;
