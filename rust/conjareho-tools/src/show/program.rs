//! The program `tcshow`: prints the traffic control messages of a capture, or of lines of hex, as lines, as outlines or as JSON.
//!
//! [`program::tcshow`] reads the arguments, and what they name; `view` prints inputs as they ask; [`run`] is one input, to its exit status.

pub mod arguments;
mod complaints;
mod day;
pub mod example;
pub mod filter;
pub mod hint;
pub mod json;
pub mod kinds;
mod nearest;
mod notes;
pub mod options;
pub mod program;
pub mod run;
mod view;
