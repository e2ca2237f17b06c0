//! Words of a command line, the messages that they choose, names of interfaces, and hex as it is pasted.

use crate::user::prelude::*;

mod chosen;
mod dumps;
mod handles;
mod links;
mod times;
mod types;
