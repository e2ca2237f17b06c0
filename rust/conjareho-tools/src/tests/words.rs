//! Tests alone, of words and lines that people give.

use crate::user::prelude::*;
#[cfg(test)]
mod words;
