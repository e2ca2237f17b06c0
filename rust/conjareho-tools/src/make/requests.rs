//! Requests that restore what lines of dumps show.

pub mod blocks;
pub mod complaint;
mod facts;
pub mod interfaces;
pub mod lines;
mod names;
pub(crate) mod nested;
mod now;
pub mod order;
pub mod remarks;
pub mod restore;
pub mod save;
pub mod written;
