//! What several tests take.
#![allow(dead_code)] // each takes some of it

pub mod random;
pub mod stored;
