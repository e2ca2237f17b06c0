//! Input, read in parts.

use std::io::Read;

use crate::streams::{Stop, read_some};

/// The longest piece that is read whole, in bytes.
pub const MOST_PIECE: usize = 1_048_576;

// The size of one read, in bytes.
const PART: usize = 65_536;

/// Bytes that were read and aren't used yet.
pub struct Input {
    bytes: Vec<u8>,
    // The number of used bytes.
    used: usize,
    // The number of bytes after them without a line feed.
    pub(super) searched: usize,
    // The offset of the first byte in the input.
    offset: u64,
    // The buffer for one read.
    part: Vec<u8>,
}

impl Input {
    /// Starts an input, and reads its first four bytes, or all.
    ///
    /// # Errors
    ///
    /// [`Stop::Read`].
    pub fn begin<R: Read>(reader: &mut R) -> Result<Input, Stop> {
        let mut input = Input { bytes: Vec::new(), used: 0, searched: 0, offset: 0, part: vec![0; PART] };
        while input.rest().len() < 4 && input.more(reader)? {}
        Ok(input)
    }

    /// The unused bytes.
    #[must_use]
    pub fn rest(&self) -> &[u8] {
        self.bytes.get(self.used..).unwrap_or_default()
    }

    /// The first four unused bytes, or all if there are fewer.
    #[must_use]
    pub fn first(&self) -> &[u8] {
        let rest = self.rest();
        rest.get(..4).unwrap_or(rest)
    }

    /// The offset of the unused bytes in the input.
    #[must_use]
    pub fn offset(&self) -> u64 {
        self.offset.saturating_add(self.used as u64)
    }

    /// Uses at most `count` bytes.
    pub fn use_up(&mut self, count: usize) {
        self.searched = 0;
        self.used = self.used.saturating_add(count).min(self.bytes.len());
    }

    /// Uses all bytes.
    pub fn use_all(&mut self) {
        self.use_up(usize::MAX);
    }

    /// Reads more bytes. False at the end of the input.
    ///
    /// # Errors
    ///
    /// [`Stop::Read`].
    pub fn more<R: Read>(&mut self, reader: &mut R) -> Result<bool, Stop> {
        self.offset = self.offset();
        self.bytes.drain(..self.used);
        self.used = 0;
        let count = read_some(reader, &mut self.part)?;
        self.bytes.extend_from_slice(self.part.get(..count).unwrap_or_default());
        Ok(count > 0)
    }

    /// Skips `count` bytes. False if the input ends before them.
    ///
    /// # Errors
    ///
    /// [`Stop::Read`].
    pub fn skip<R: Read>(&mut self, count: usize, reader: &mut R) -> Result<bool, Stop> {
        let mut left = count;
        while left > self.rest().len() {
            left = left.saturating_sub(self.rest().len());
            self.use_all();
            if !self.more(reader)? {
                return Ok(false);
            }
        }
        self.use_up(left);
        Ok(true)
    }
}
