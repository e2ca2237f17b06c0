//! The units of numbers.

use crate::user::prelude::*;

/// The unit of a number, or its notation.
#[derive(Clone, Copy, PartialEq, Eq)]
pub enum Unit {
    /// No unit: decimal.
    Plain,
    /// Hex, as for a mask, a mark or a key.
    Hex,
    /// Hex with at least four digits, as for an EtherType.
    LongHex,
    /// Four big-endian bytes of a packet that were read as a little-endian number: the big-endian number in hex.
    NetworkHex,
    Bytes,
    Packets,
    /// Bytes per second. In parentheses bits per second, as `tc` writes them.
    BytesPerSecond,
    PacketsPerSecond,
    /// 1000 bits per second.
    KilobitsPerSecond,
    Nanoseconds,
    Microseconds,
    Milliseconds,
    Seconds,
    /// Ticks of the packet scheduler: 64 ns (`PSCHED_SHIFT`, since Linux 2.6.31).
    Ticks,
    /// Clock ticks: 1/100 s (`USER_HZ`).
    ClockTicks,
    Percent,
    /// A probability in units of 2^-32.
    Probability,
    /// The exponent of a power of two. In parentheses the power.
    Power,
    /// The handle of a u32 filter, as `tc` writes it: `800::800`.
    U32Handle,
}
