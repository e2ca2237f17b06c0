//! Messages of lines of JSON, as `tcshow --json` writes them.
//!
//! [`made_of`] makes the message of a line, and [`MessageMaker`] the messages of all lines of an input. A line that no message is
//! made of has a [`LineError`], which says where the mistake is.
//!
//! The envelope of a line is [`Line`](crate::line::Line).
#![deny(clippy::unwrap_used, clippy::indexing_slicing, clippy::panic, clippy::arithmetic_side_effects)]

mod built;
mod error;
mod given;
mod maker;
mod making;
mod members;
mod message;
mod save;
mod unknown;
mod verdict;

pub use built::{BuiltMessage, json_in, made_of, made_of_json};
pub use error::{Actual, LineError, Notice, Place};
pub use given::is_answer;
pub use maker::{MessageMaker, notices_of};
pub use making::Making;
pub(crate) use members::{number_of, wrong};
pub use message::{Forms, MOST_MESSAGE};
pub use save::{is_end, is_head, is_of_save};
