//! Bytes and numbers at a place.

use crate::user::prelude::*;

/// The number at this byte, little-endian.
///
/// # Panics
///
/// It may, unless this holds, which the proved sources ask of callers:
///
/// - `at + 4 ≤ length bytes.now`
pub(crate) fn number_at(bytes: &[u8], at: usize) -> u32 {
    u32::from_le_bytes([bytes[at], bytes[at + 1], bytes[at + 2], bytes[at + 3]])
}

/// The bytes, with others from one place on.
///
/// # Panics
///
/// It may, unless this holds, which the proved sources ask of callers:
///
/// - `at + length new.now < 2 ^ 64`
pub(crate) fn put(at: usize, new: &[u8], bytes: &[u8]) -> Result<Vec<u8>, AllocError> {
    let end = at + new.len();
    if bytes.len() < end {
        return fallible::copy(bytes);
    }
    let (front, _) = bytes.split_at(at);
    let (_, rest) = bytes.split_at(end);
    let mut made = fallible::copy(front)?;
    made.try_extend(new)?;
    made.try_extend(rest)?;
    Ok(made)
}
