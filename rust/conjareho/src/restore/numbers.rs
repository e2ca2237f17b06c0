//! Numbers of four bytes, little-endian, within bytes.

use crate::fallible::prelude::*;

use crate::nla_frames::u32_bytes;

// Reads the number at this byte.
pub(crate) fn number_at(bytes: &[u8], at: usize) -> u32 {
    u32::from_le_bytes([bytes[at], bytes[at + 1], bytes[at + 2], bytes[at + 3]])
}

// Copies the bytes, with another number at this byte.
pub(crate) fn with_number(bytes: &[u8], at: usize, number: u32) -> Result<Vec<u8>, AllocError> {
    let (front, _) = bytes.split_at(at);
    let (_, rest) = bytes.split_at(at + 4);
    let mut made = fallible::with_capacity(bytes.len())?;
    made.try_extend(front)?;
    made.try_extend(&u32_bytes(number))?;
    made.try_extend(rest)?;
    Ok(made)
}
