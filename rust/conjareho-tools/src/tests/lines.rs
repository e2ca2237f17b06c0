//! Tests of the lines of messages, of the values in them, of colors, and of trees.

use crate::user::prelude::*;
#[cfg(test)]
mod brief;
#[cfg(test)]
mod by_kind;
#[cfg(test)]
mod colours;
#[cfg(test)]
mod known;
#[cfg(test)]
mod parts;
#[cfg(test)]
mod tree;
#[cfg(test)]
mod values;
