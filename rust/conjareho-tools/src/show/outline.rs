//! Traffic control messages of every kind as outlines: a line for each attribute, from only the bytes.
//!
//! [`outline`] writes a message on a [`Page`]: its header, then each attribute on a line of its own, indented by its
//! depth, in wire order, with the columns of its kind (`tc_columns`). After the lines of a malformed message comes a
//! line with the fault, its numbers, its offset and its path. A page holds only
//! printable ASCII and line feeds.

use crate::user::prelude::*;
mod fault;
mod message;
mod names;
mod page;

pub use message::{outline, what_of};
pub use names::Interfaces;
pub use page::{Layout, Page};
