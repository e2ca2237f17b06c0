//! Reads a capture, or lines of hex, and prints each message as lines for people, as an outline or as a line of JSON.
//!
//! The input is read a piece at a time, so a run takes memory for the longest message, not for the whole input. Calls that take an allocator fail
//! with [`Stop::NoMemory`] or `AllocError` if it fails.

use crate::user::prelude::*;
mod attributes;
mod capture;
mod counts;
mod first_lines;
mod lines;
mod messages;
mod options;
mod output;
mod printer;
mod replies;

pub use capture::show_capture;
pub use counts::{Counts, Packets};
pub use lines::{is_hex_text, show_lines};
pub use options::{Options, OutputFormat};
pub use printer::Printer;
pub use crate::streams::Stop;
