//! Tests of printed messages: attributes with their places, outlines, JSON, and the program `tcshow`.

use crate::user::prelude::*;
#[cfg(test)]
mod outline;
#[cfg(test)]
mod show;
