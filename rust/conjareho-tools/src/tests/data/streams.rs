//! Streams for tests: slow, interrupted, and failing.

use crate::user::prelude::*;

use crate::host::io::{Error, ErrorKind, Read, Result, Write};

/// A stream that reads 7 bytes a call, or writes 31, for some calls, each after some interruptions; then it fails.
pub struct Slow<T> {
    /// The stream that it reads or writes.
    pub inner: T,
    left: usize,
    calls: usize,
    interruptions: usize,
    fault: ErrorKind,
}

impl<T> Slow<T> {
    fn turn(&mut self) -> Result<()> {
        if self.left > 0 {
            self.left -= 1;
            return Err(Error::from(ErrorKind::Interrupted));
        }
        if self.calls == 0 {
            return Err(Error::from(self.fault));
        }
        self.calls -= 1;
        self.left = self.interruptions;
        Ok(())
    }
}

impl<T: Read> Read for Slow<T> {
    fn read(&mut self, buf: &mut [u8]) -> Result<usize> {
        self.turn()?;
        let most = buf.len().min(7);
        self.inner.read(&mut buf[..most])
    }
}

impl<T: Write> Write for Slow<T> {
    fn write(&mut self, buf: &[u8]) -> Result<usize> {
        self.turn()?;
        let most = buf.len().min(31);
        self.inner.write(&buf[..most])
    }

    fn flush(&mut self) -> Result<()> {
        Ok(())
    }
}

/// The number of calls that succeed, the interruptions before each, and the error after them.
pub type Stream = (usize, usize, ErrorKind);

/// `count` calls, each after `interruptions` interruptions; then the stream times out.
#[must_use]
pub fn calls(count: usize, interruptions: usize) -> Stream {
    (count, interruptions, ErrorKind::TimedOut)
}

/// Wraps a stream.
#[must_use]
pub fn slowly<T>(inner: T, stream: Stream) -> Slow<T> {
    let (calls, interruptions, fault) = stream;
    Slow { inner, left: interruptions, calls, interruptions, fault }
}

/// A stream that reads or writes one byte a call, and fails after `left` of them.
pub struct ByBytes<T> {
    /// The stream that it reads or writes.
    pub inner: T,
    /// How many bytes are left.
    pub left: usize,
    /// The error after them.
    pub fault: ErrorKind,
}

impl<T> ByBytes<T> {
    fn turn(&mut self) -> Result<()> {
        self.left = self.left.checked_sub(1).ok_or_else(|| Error::from(self.fault))?;
        Ok(())
    }
}

impl<T: Read> Read for ByBytes<T> {
    fn read(&mut self, buf: &mut [u8]) -> Result<usize> {
        self.turn()?;
        let most = buf.len().min(1);
        self.inner.read(&mut buf[..most])
    }
}

impl<T: Write> Write for ByBytes<T> {
    fn write(&mut self, buf: &[u8]) -> Result<usize> {
        self.turn()?;
        self.inner.write(&buf[..buf.len().min(1)])
    }

    fn flush(&mut self) -> Result<()> {
        Ok(())
    }
}
