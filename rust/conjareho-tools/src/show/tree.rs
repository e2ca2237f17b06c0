//! Lines of `tcshow` as a tree: each object below its parent, and below a line for its interface.

use crate::user::prelude::*;
mod forest;
mod node;
mod nodes;
mod tree;
mod words;

pub use tree::tree_lines;
