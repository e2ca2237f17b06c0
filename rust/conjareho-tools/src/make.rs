//! Messages of JSON: the runs of `tcmake`.

pub(crate) mod lines;
pub(crate) mod messages;
pub(crate) mod program;
pub(crate) mod requests;
