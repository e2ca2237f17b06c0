//! The repository's tests of the codec, erased with it.
#![cfg(test)]
#![forbid(unsafe_code)]
#![allow(unused_parens)] // what is left of a pair whose other half is an allocator

extern crate alloc;

#[path = "../../../erase/shims/bitflags.rs"]
pub mod bitflags;
#[path = "../../../erase/shims/fallible.rs"]
mod fallible;
#[path = "../../../erase/shims/hex.rs"]
mod hex;
#[path = "../../../erase/shims/host.rs"]
#[allow(dead_code, unused_imports)] // what the programs use besides
mod host;
#[path = "../../../erase/shims/jsontext.rs"]
#[allow(dead_code, unused_imports, unused_macros)] // what the programs send
mod jsontext;
#[path = "../../../erase/shims/events.rs"]
mod serde;
#[path = "../../../erase/shims/small.rs"]
mod small;
#[path = "../../../erase/shims/strict.rs"]
mod strict;
#[path = "../../../erase/shims/user.rs"]
#[allow(dead_code)] // what the programs use besides
mod user;

use ::itoa;
use serde::json as serde_json;
use small::arrayvec;

mod forms;
mod large;
mod texts;

include!(concat!(env!("OUT_DIR"), "/tests.rs"));
