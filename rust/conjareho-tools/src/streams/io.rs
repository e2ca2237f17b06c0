//! The reader and the writer of a run.

use std::io::{Error, ErrorKind, Read, Result, Write};

use super::Stop;

/// How often a call is made that is interrupted each time. Then it fails with `TimedOut`.
const MOST_CALLS: u16 = 1024;

fn retried<T>(mut call: impl FnMut() -> Result<T>) -> Result<T> {
    for _ in 0..MOST_CALLS {
        match call() {
            Err(error) if error.kind() == ErrorKind::Interrupted => {}
            other => return other,
        }
    }
    Err(ErrorKind::TimedOut.into())
}

/// Reads bytes once, and returns their number: 0 only at the end of the input.
///
/// # Errors
///
/// [`Stop::Read`].
pub fn read_some<R: Read>(reader: &mut R, part: &mut [u8]) -> std::result::Result<usize, Stop> {
    retried(|| reader.read(part)).map_err(|_| Stop::Read)
}

/// Writes all bytes. If it fails, some of them may have been written.
///
/// # Errors
///
/// [`Stop::Closed`], [`Stop::Write`] or [`Stop::NoMemory`].
pub fn write_all<W: Write>(writer: &mut W, bytes: &[u8]) -> std::result::Result<(), Stop> {
    let mut rest = bytes;
    while !rest.is_empty() {
        let count = retried(|| writer.write(rest)).map_err(|error| reason_of(&error))?;
        rest = rest.get(count..).filter(|_| count > 0).ok_or(Stop::Write)?;
    }
    Ok(())
}

fn reason_of(error: &Error) -> Stop {
    match error.kind() {
        ErrorKind::BrokenPipe => Stop::Closed,
        ErrorKind::OutOfMemory => Stop::NoMemory,
        _ => Stop::Write,
    }
}

/// A result, whose error is kept.
fn kept<T>(result: Result<T>, failure: &mut Option<Error>) -> Result<T> {
    result.inspect_err(|error| *failure = Some(crate::host::copied(error)))
}

/// A reader that keeps the error of its last read that failed.
pub struct Reader<R> {
    inner: R,
    failure: Option<Error>,
}

impl<R> Reader<R> {
    /// A reader of another one's bytes.
    #[must_use]
    pub fn new(inner: R) -> Reader<R> {
        Reader { inner, failure: None }
    }

    /// Returns the other reader.
    #[must_use]
    pub fn into_inner(self) -> R {
        self.inner
    }

    /// The error of the last read that failed.
    #[must_use]
    pub fn failure(&self) -> Option<&Error> {
        self.failure.as_ref()
    }
}

impl<R: Read> Read for Reader<R> {
    fn read(&mut self, part: &mut [u8]) -> Result<usize> {
        kept(retried(|| self.inner.read(part)), &mut self.failure)
    }
}

/// A writer that keeps the error of its last write that failed. One that writes nothing fails with `WriteZero`.
pub struct Writer<W> {
    inner: W,
    failure: Option<Error>,
}

impl<W> Writer<W> {
    /// A writer to another one.
    #[must_use]
    pub fn new(inner: W) -> Writer<W> {
        Writer { inner, failure: None }
    }

    /// Returns the other writer.
    #[must_use]
    pub fn into_inner(self) -> W {
        self.inner
    }

    /// The error of the last write that failed.
    #[must_use]
    pub fn failure(&self) -> Option<&Error> {
        self.failure.as_ref()
    }
}

impl<W: Write> Write for Writer<W> {
    fn write(&mut self, bytes: &[u8]) -> Result<usize> {
        let written = retried(|| self.inner.write(bytes)).and_then(|count| {
            if count == 0 && !bytes.is_empty() { Err(ErrorKind::WriteZero.into()) } else { Ok(count) }
        });
        kept(written, &mut self.failure)
    }

    fn flush(&mut self) -> Result<()> {
        kept(self.inner.flush(), &mut self.failure)
    }
}

/// The reason for which a run over these streams ended early, if they confirm it. Otherwise memory ran out.
#[must_use]
pub fn shown_reason<R, W>(reader: &Reader<R>, writer: &Writer<W>, stop: Stop) -> Stop {
    let is_confirmed = match stop {
        Stop::NoCapture | Stop::NoRoute => true,
        Stop::Read => reader.failure.is_some(),
        Stop::Write | Stop::Closed => writer.failure().map(reason_of) == Some(stop),
        Stop::Usage | Stop::NoMemory => false,
    };
    if is_confirmed { stop } else { Stop::NoMemory }
}
