//! What programs are given: messages that are chosen, captures and dumps in hex.

pub(crate) mod input;
pub(crate) mod select;
