//! The way to the kernel and back, which a test can replace.

use std::io;
use std::time::Duration;

/// Datagrams to the kernel and from it.
pub trait Transport {
    /// The port id of this end.
    fn port(&self) -> u32;

    /// The longest datagram that can be sent, in bytes.
    fn most(&self) -> usize;

    /// How many bytes of datagrams can wait at this end.
    fn room(&self) -> usize;

    /// Sends a datagram to the kernel. Returns how many bytes of it were sent.
    fn send(&mut self, datagram: &[u8]) -> io::Result<usize>;

    /// Replaces the content of `into` with the next datagram, and returns the port id of its sender (0: the kernel). Waits for `wait`, or
    /// forever if it is `None`. Fails with `TimedOut` if none came.
    fn receive(&mut self, into: &mut Vec<u8>, wait: Option<Duration>) -> io::Result<u32>;
}
