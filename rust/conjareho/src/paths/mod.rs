//! The path of an attribute in a traffic control message of any kind: the names of the attributes that contain it, from the outside in, and its own, and
//! its JSON pointer. [`path_in`] finds the path of the attribute that begins at an offset, such as the one that the kernel has in an answer. [`fault_path_in`]
//! finds that of a frame at fault.

use crate::user::prelude::*;
mod path;
mod way;

pub use path::Path;
pub use way::{fault_path_in, path_in};
