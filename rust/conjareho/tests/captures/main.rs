//! Captures in each format, whole, cut, broken and snapped, and the names of errors.

mod broken;
mod cuts;
mod files;
mod reading;
mod whole;
