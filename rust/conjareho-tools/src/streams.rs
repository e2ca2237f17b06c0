//! What the runs of both programs share: their streams, how they end, and outlines in colors.
//!
//! A run reads from a [`Reader`] and writes to a [`Writer`]. These try again what was interrupted, and keep the error that ends the run;
//! calls over them say with a [`Stop`] why they ended, and [`shown_reason`] is the reason that the streams confirm. Texts from outside reach
//! a terminal by [`write_text`] alone, which escapes them.
#![deny(clippy::unwrap_used, clippy::indexing_slicing, clippy::panic, clippy::arithmetic_side_effects)]

mod colours;
mod io;
mod stop;
mod text;

pub use colours::{Coloured, paint};
pub use io::{Reader, Writer, read_some, shown_reason, write_all};
pub use stop::{Ended, Stop};
pub use text::{cause_of, write_text};
