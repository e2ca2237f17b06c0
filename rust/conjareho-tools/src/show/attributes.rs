//! Messages as lines for people: each leaf of their JSON is on one line, with the name and the unit of its column.
//!
//! [`lines_of`] serializes bytes as `forms_json` does, into a serde format that writes lines, so the lines and the JSON
//! of a message agree. A line is a line feed, two blanks per level, a name and a value:
//!
//! ```text
//! kind htb
//! options
//!   parms
//!     rate
//!       rate 125000 B/s (1Mbit)
//!     buffer 15625 ticks (1ms)
//! ```
//!
//! Columns come from the caller's table, at numbered places: those of the message, and from there those of its
//! contents. A kind selects the columns of the items after it in its list. A member without a column is displayed
//! unchanged, on one line with all its contents. A mask is on the line of its address, the maximum of a range on that
//! of the minimum: `ipv4_dst 10.8.0.0/16`, `ports_dst 80-90`. A header has no line of its own: its words continue the
//! line that the caller began.

use crate::user::prelude::*;
mod column;
mod error;
mod leaves;
mod lines;
mod log;
mod outline;
mod walk;

pub use column::{Column, ColumnOf, Columns, Display, InfoOf};
pub use error::LinesError;
pub use log::Note;
pub use outline::lines_of;
