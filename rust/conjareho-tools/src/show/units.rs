//! Values of Linux traffic control as people read them: the exact value, then other units or names in parentheses.
//!
//! | What | How it is written |
//! |---|---|
//! | a rate in bytes a second | `125000 B/s (1Mbit)`, in brackets as `tc` writes it |
//! | bytes, packets | `1514B`, `-1514B`, `10240p` |
//! | a time | `4999us`, `100000us (100ms)`: in brackets in the longest unit that counts it exactly |
//! | ticks of the packet scheduler | `15625 ticks (1ms)` |
//! | a probability | `42949673 (1%)`, rounded to thousandths of a percent |
//! | the exponent of a power of two | `5 (32)` |
//! | a flag word | `skip_hw not_in_hw (0x9)` |
//! | a number with a name | `tcp (6)`, `ip (0x0800)` |
//! | what an action says of a packet | `pipe`, `drop`, `goto chain 42`, `jump 10` |
//! | the handle of a filter of kind u32 | `800::800` |
//!
//! Texts are appended to a vector. Calls fail only if it can't grow.

use crate::user::prelude::*;
mod flags;
mod names;
mod numerals;
mod prefix;
mod times;
mod unit;
mod units;
mod values;

pub use flags::put_flags;
pub use names::{Name, NameOf, name_of, number_of, put_named};
pub use numerals::{hex_digit, put_decimal, put_hex};
pub use prefix::prefix_of;
pub use unit::Unit;
pub use units::{put_number, put_signed};
pub use values::{put_u32_handle, put_verdict, verdict_name};
