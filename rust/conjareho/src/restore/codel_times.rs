//! The times of codel and fq_codel.

use crate::fallible::prelude::*;

// The microseconds of a request that make the kernel keep the value of which it dumped `us`: one more.
pub(crate) fn time_set(us: u32) -> u32 {
    us.saturating_add(1)
}
