//! The differences between two states: what only one of them has, and what both have with other configurations. `tcshow --diff` prints them.
//!
//! [`differences`] compares states, [`difference_lines`] makes lines of their differences, and [`StateDiffer`] reads the states from dumps or
//! saves. Calls that take an allocator fail with `AllocError` or `Stop::NoMemory` if it fails.

use crate::user::prelude::*;
mod difference;
pub mod lines;
mod priorities;
pub mod program;
mod states;
mod values;

pub use difference::{Change, Difference};
pub use lines::{DifferenceLines, difference_lines};
pub use program::StateDiffer;
pub use states::differences;
