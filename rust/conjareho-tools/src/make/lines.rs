//! Lines of JSON in, messages out: [`run`](run::run) gives each line of an input to a [`Maker`], and writes the messages that it makes as
//! lines of hex, as a stream of netlink messages, or as a capture.
#![deny(clippy::unwrap_used, clippy::indexing_slicing, clippy::panic, clippy::arithmetic_side_effects)]

mod encoding;
mod input;
mod netlink;
mod output;
pub mod run;

pub use encoding::{Encoding, Unwritable};
pub use input::{LineContent, LineStatus, MOST_LINE, MOST_QUOTES, MOST_VALUES, content_of, next_line};
pub use netlink::{NetlinkHeader, OUTGOING, PacketOf, packet_at};
pub use output::Output;
pub use run::{Answer, Maker, Say};
