//! Tests of the differences between two dumps, as `tcshow --diff` prints them.

use crate::user::prelude::*;
#[cfg(test)]
mod dumps;
