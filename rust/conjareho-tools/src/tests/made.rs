//! Tests alone, of runs of `tcmake`, and of the states and configurations that dumps show.

use crate::user::prelude::*;
#[cfg(test)]
mod make;
