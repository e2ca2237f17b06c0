//! A writer that adds colors.

use crate::user::prelude::*;

use crate::host::io::{Error, ErrorKind, Result, Write};
use crate::show::colours::paint::paint_lines;

/// A writer that adds colors to lines and writes them to another writer. Each write must end with a whole line.
pub struct ColouredLines<W: crate::host::io::Write> {
    inner: W,
}

impl<W: crate::host::io::Write> ColouredLines<W> {
    /// A writer to another writer.
    #[must_use]
    pub fn new(inner: W) -> ColouredLines<W> {
        ColouredLines { inner }
    }

    /// Returns the other writer.
    #[must_use]
    pub fn into_inner(self) -> W {
        let ColouredLines { inner, .. } = self;
        inner
    }
}

impl<W: crate::host::io::Write> Write for ColouredLines<W> {
    fn write(&mut self, buf: &[u8]) -> Result<usize> {
        let mut out = Vec::new();
        if paint_lines(&mut out, buf).is_err() {
            return Err(Error::from(ErrorKind::OutOfMemory));
        }
        self.inner.write_all(&out)?;
        Ok(buf.len())
    }

    fn flush(&mut self) -> Result<()> {
        self.inner.flush()
    }
}
