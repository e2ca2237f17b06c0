//! Runs of `tcmake`.

use crate::user::prelude::*;

mod complaints;
mod configs;
mod dumps;
mod packets;
mod plans;
mod rows;
mod runs;
mod saves;
mod states;
mod streams;
mod verdicts;
