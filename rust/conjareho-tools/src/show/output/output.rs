//! Buffered output.

use crate::user::prelude::*;

use crate::host::io::Write;
use crate::show::outline::Page;
use crate::streams::{Stop, write_all};

/// Text that isn't written yet: printable ASCII and line feeds, or JSON.
pub(crate) struct Output {
    bytes: Vec<u8>,
    is_json: bool,
}

impl Output {
    /// An empty output, for JSON or for outlines.
    pub(crate) fn new(is_json: bool) -> Output {
        Output { bytes: Vec::new(), is_json }
    }

    pub(crate) fn is_json(&self) -> bool {
        self.is_json
    }

    /// Bytes that aren't written yet.
    pub(crate) fn len(&self) -> usize {
        self.bytes.len()
    }

    /// Forgets the text.
    pub(crate) fn clear(&mut self) {
        self.bytes.clear();
    }

    /// Appends a line feed.
    pub(crate) fn line_feed(&mut self) -> Result<(), AllocError> {
        self.bytes.try_push(b'\n')?;
        Ok(())
    }

    /// Appends the text on a page.
    pub(crate) fn page(&mut self, page: &Page) -> Result<(), AllocError> {
        self.bytes.try_extend(page.bytes())
    }

    /// Appends lines of objects.
    ///
    /// # Panics
    ///
    /// It may, unless this holds, which the proved sources ask of callers:
    ///
    /// - `IsShown true text.now`
    pub(crate) fn lines(&mut self, text: &[u8]) -> Result<(), AllocError> {
        self.bytes.try_extend(text)
    }

    /// Appends JSON.
    ///
    /// # Panics
    ///
    /// It may, unless this holds, which the proved sources ask of callers:
    ///
    /// - `self.old.is_json ≡ true`
    pub(crate) fn json(&mut self, json: &[u8]) -> Result<(), AllocError> {
        self.bytes.try_extend(json)
    }

    /// Writes all text and empties the output. If the writer fails, the rest of the text is lost.
    pub(crate) fn write<W: crate::host::io::Write>(&mut self, writer: &mut W) -> Result<(), Stop> {
        let outcome = write_all(writer, &self.bytes);
        self.bytes.clear();
        outcome
    }
}
