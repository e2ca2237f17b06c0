//! Messages as one line an object, as short as `tc` writes it.
//!
//! [`lines_of`] visits a message (`conjareho::kinds::visit`) with a visitor that makes leaves: each value with its row of the tables, in
//! the order of the bytes. A leaf stands in one section of the line: the head, the kind's words, hardware flags, statistics, or an action.
//! The line has the words of each section's leaves, in the order of the leaves, without the ones that their rows leave out. Statistics are
//! leaves only if they are asked for:
//!
//! ```text
//! is class htb 1:10 dev eth0 parent 1:1 leaf 10: rate 10Mbit ceil 50Mbit burst 1600B cburst 1600B quantum 125000B
//! ```
//!
//! A member is `word value` if its row has one of `tc`'s words, else `Name=value`. A word has no blank, and nothing but
//! printable ASCII. Other bytes are escaped, as are quotes and backslashes.

use crate::user::prelude::*;
mod leaf;
mod leaves;
mod line;
mod numbers;
mod parts;
mod values;
mod words;

pub use line::{Object, Said, lines_of, lines_of_nothing};
pub use numbers::put_number;
pub use words::{put_byte, put_first, put_word};
