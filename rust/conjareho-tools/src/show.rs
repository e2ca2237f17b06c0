//! What people read: lines, outlines, columns, and the runs of `tcshow`.

pub(crate) mod attributes;
pub(crate) mod brief;
pub(crate) mod colours;
pub(crate) mod columns;
pub(crate) mod differences;
pub(crate) mod json;
pub(crate) mod lines;
pub(crate) mod outline;
pub(crate) mod output;
pub(crate) mod program;
pub(crate) mod schema;
pub(crate) mod tree;
pub(crate) mod units;
