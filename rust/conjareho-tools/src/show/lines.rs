//! Traffic control messages as lines for people: the time, who says what, and the words of the object (`tc_brief`).
//!
//! ```text
//! 14:00:01.123456 add qdisc htb 1: dev eth0 root r2q 10 default 0x30
//! 14:00:01.123789 new filter flower 0x1 dev eth0 ingress pref 601 protocol ip ip_proto tcp by 21644
//! ```
//!
//! Calls that take an allocator fail with `AllocError` if it fails.

use crate::user::prelude::*;
mod answer;
mod begin;
mod ending;
mod fault;
mod line;
mod past;
mod times;
mod verb;

pub use answer::{lines_of_reply, request_of};
pub use ending::{dump_of, lines_of_end};
pub use line::{Lines, lines_of_message};
pub use past::{Request, Requests};
pub use times::TimeFormat;
