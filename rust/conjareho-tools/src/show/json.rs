//! Lines of JSON for traffic control messages and for the kernel's answers to them, and the parts of an outline that aren't attributes: time,
//! netlink header, error.
//!
//! Calls that take an allocator fail with `AllocError` if it fails.

use crate::user::prelude::*;
mod fault;
mod line;
mod links;
mod message;
mod notice;
mod pages;
mod reply;
mod safe;

pub use line::{Line, json_of, line_of};
pub use links::link_in;
pub use message::{Message, NO_ORIGIN, NetlinkHeader, Origin};
pub use notice::{Notice, NoticeLine};
pub use pages::{begin_message, show_netlink, show_word, text_of};
pub use reply::{Reply, put_request, reply_line, show_reason};
pub use safe::safe_text;
