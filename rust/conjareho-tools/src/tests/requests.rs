//! Tests alone, of requests of clients, built and made of dumps; of messages and JSON; and of plans of changes.

use crate::user::prelude::*;
#[cfg(test)]
mod requests;
