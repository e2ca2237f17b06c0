//! Requests that are built, with their bytes; parts that aren't settled; dumps made into requests, and the order that
//! works; standalone actions, and actions that share a place.

use crate::user::prelude::*;

mod actions;
mod built;
mod in_hex;
mod numbered;
mod planned;
mod restored;
