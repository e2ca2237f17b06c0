//! Lines of `tcshow` in colors, for a terminal.
//!
//! The verb has a color by what it says: a request magenta, what the kernel says of an object green, what takes an object away yellow, a refusal red.
//! Object and kind are bold, and the names of interfaces cyan, as in `tc -c`. An error with the kernel's sentence, what is malformed and what is wrong with
//! the input are red. Each word has its color, and blanks have none.

use crate::user::prelude::*;
mod paint;
mod part;
mod writer;

pub use paint::paint_lines;
pub use writer::ColouredLines;
