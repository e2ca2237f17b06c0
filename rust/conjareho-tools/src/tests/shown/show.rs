//! Runs over captures and lines of hex, whole, cut and changed, over pseudo-random bytes, and with streams and memory that
//! fail.

use crate::user::prelude::*;

mod answers;
mod arguments;
mod captures;
mod choices;
mod counts;
mod cuts;
mod dumps;
mod flags;
mod formats;
mod holes;
mod inputs;
mod known;
mod lines;
mod made;
mod random;
mod runs;
mod spoken;
mod streams;
