//! The pieces of a capture.

use std::io::Read;

use super::input::{Input, MOST_PIECE};
use crate::streams::Stop;
use crate::tc_capture::{Capture, CaptureError, Piece, Res};

/// The result of reading on if the unused bytes don't begin with a whole piece.
#[derive(Clone, Copy)]
pub enum Gap {
    /// More bytes were read.
    More,
    /// A piece that is too long was skipped: its length in bytes.
    Skipped(usize),
    /// The capture can't be read any further.
    Broken(CaptureError),
    /// The capture ends within a piece.
    Cut(CaptureError),
    /// The capture ends.
    End,
}

/// The piece at the front of the unused bytes.
///
/// # Errors
///
/// The bytes don't begin with a whole piece.
pub fn next_piece<'a>(capture: &mut Capture, input: &'a Input) -> Res<Piece<'a>> {
    let rest = input.rest();
    capture.next(rest.get(..MOST_PIECE).unwrap_or(rest))
}

/// Reads more of a capture after [`next_piece`] failed with this fault, or skips a piece that is too long.
///
/// # Errors
///
/// [`Stop::Read`].
pub fn read_on<R: Read>(input: &mut Input, fault: CaptureError, reader: &mut R) -> Result<Gap, Stop> {
    let CaptureError::Short { needed, left } = fault else {
        return Ok(Gap::Broken(fault));
    };
    if input.rest().len() < MOST_PIECE && input.more(reader)? {
        return Ok(Gap::More);
    }
    if input.rest().is_empty() {
        return Ok(Gap::End);
    }
    if needed <= MOST_PIECE {
        return Ok(Gap::Cut(CaptureError::Short { needed, left }));
    }
    let at = input.offset();
    if input.skip(needed, reader)? {
        return Ok(Gap::Skipped(needed));
    }
    let left = usize::try_from(input.offset().saturating_sub(at)).unwrap_or(usize::MAX);
    Ok(Gap::Broken(CaptureError::Short { needed, left }))
}
