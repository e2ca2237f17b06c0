//! Tests of the programs over stored inputs.

pub(crate) mod data;
pub(crate) mod differences;
pub(crate) mod lines;
pub(crate) mod made;
pub(crate) mod requests;
pub(crate) mod shown;
pub(crate) mod words;
