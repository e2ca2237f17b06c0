//! The columns of Linux's traffic control: the name and display of each attribute and field of every kind. They are
//! generated from the files below `kinds/`, as the tables of forms are.

use crate::user::prelude::*;
mod names;
mod root;
mod tables;

pub use names::LinkNames;
pub use root::{KindColumns, Root, kernel_name};
pub(crate) use tables::{Table, at};
