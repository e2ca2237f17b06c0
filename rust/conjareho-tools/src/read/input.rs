//! Reads an input in parts: the pieces of a capture, or lines of hex, several of which can form a dump. What is found doesn't depend on the
//! parts.
#![deny(clippy::unwrap_used, clippy::indexing_slicing, clippy::panic, clippy::arithmetic_side_effects)]

mod dumps;
mod input;
mod lines;
mod pieces;

pub use dumps::{Dump, Next, Place, place_of};
pub use input::{Input, MOST_PIECE};
pub use lines::{LineGap, MOST_LINE, OnLine, on_line};
pub use pieces::{Gap, next_piece, read_on};
