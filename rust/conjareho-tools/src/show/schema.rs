//! The tables of forms, for people and for other programs: the JSON Schema of messages, and explanations of the
//! attributes of a kind. Both are written from any tables, at run time. Calls fail only if the vector can't grow.

use crate::user::prelude::*;
mod explain;
mod json;
mod notes;
mod texts;

pub use explain::{kinds_of, knows_kind, put_kind};
pub use json::put_schema;
pub use notes::{Note, unit_in_words};
