//! Objects of dumps, their requests in order, and what a change of each kind takes.

pub(crate) mod configs;
pub(crate) mod objects;
pub(crate) mod order;
pub(crate) mod restored;
