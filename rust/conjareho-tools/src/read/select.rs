//! The selection of messages (a filter by kind, type, interface, handle, parent, chain, priority, time and verdict), and the words of a
//! command line that say what is selected: times, handles, message types, names of interfaces. And hex, as it is pasted and dumped.
#![deny(clippy::unwrap_used, clippy::indexing_slicing, clippy::panic, clippy::arithmetic_side_effects)]

mod calendar;
mod digits;
mod dump;
mod filter;
mod handles;
pub mod header;
mod kinds;
mod links;
mod names;
mod pasted;
mod times;
mod types;

pub use dump::{DumpLine, digits_of_line, dump_line, end_of_dump, is_asterisk};
pub use filter::{Filter, Message};
pub use handles::{HANDLE_FORMS, parse_handle};
pub use kinds::{is_filter_kind, kind_of};
pub use links::{LINK_FORMS, NamedLink, RTM_NEWLINK, link_of_line, link_of_message};
pub use names::names_in;
pub use pasted::push_hex;
pub use times::{TIME_FORMS, on_day, parse_clock, parse_time};
pub use types::{TYPE_FORMS, Types, parse_types};
