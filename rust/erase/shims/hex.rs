//! As much of the crate `hex` as is used.

use crate::fallible::{self, AllocError};
use alloc::{string::String, vec::Vec};

/// Why a text isn't hex.
#[derive(Clone, Copy, PartialEq, Eq, Debug)]
pub enum FromHexError {
    /// A character that is no digit, and its place.
    InvalidHexCharacter {
        /// The character.
        c: char,
        /// Its place.
        index: usize,
    },
    /// A digit is left over.
    OddLength,
    /// The text is longer or shorter than an array.
    InvalidStringLength,
    /// Memory ran out.
    OutOfMemory,
}

impl core::fmt::Display for FromHexError {
    fn fmt(&self, f: &mut core::fmt::Formatter<'_>) -> core::fmt::Result {
        write!(f, "{self:?}")
    }
}

impl core::error::Error for FromHexError {}

fn digit(text: &[u8], index: usize) -> Result<u8, FromHexError> {
    let c = char::from(text[index]);
    let digit = c.to_digit(16).and_then(|digit| u8::try_from(digit).ok());
    digit.ok_or(FromHexError::InvalidHexCharacter { c, index })
}

fn octet(text: &[u8], at: usize) -> Result<u8, FromHexError> {
    Ok(16 * digit(text, 2 * at)? + digit(text, 2 * at + 1)?)
}

/// An array of which a text is the hex.
pub trait FromHex: Sized {
    /// The array.
    fn from_hex(text: impl AsRef<[u8]>) -> Result<Self, FromHexError>;
}

impl<const N: usize> FromHex for [u8; N] {
    fn from_hex(text: impl AsRef<[u8]>) -> Result<Self, FromHexError> {
        let text = text.as_ref();
        if text.len() % 2 != 0 {
            return Err(FromHexError::OddLength);
        }
        if text.len() != 2 * N {
            return Err(FromHexError::InvalidStringLength);
        }
        let mut octets = [0; N];
        for (at, place) in octets.iter_mut().enumerate() {
            *place = octet(text, at)?;
        }
        Ok(octets)
    }
}

/// The bytes as hex, in lower case.
pub fn encode(bytes: &[u8]) -> Result<String, AllocError> {
    let mut text = String::new();
    text.try_reserve_exact(2 * bytes.len()).map_err(|_| AllocError)?;
    for octet in bytes {
        text.extend([octet / 16, octet % 16].map(|digit| char::from(b"0123456789abcdef"[usize::from(digit)])));
    }
    Ok(text)
}

/// The bytes of which a text is the hex.
pub fn decode(text: impl AsRef<[u8]>) -> Result<Vec<u8>, FromHexError> {
    let text = text.as_ref();
    if text.len() % 2 != 0 {
        return Err(FromHexError::OddLength);
    }
    let mut bytes = fallible::with_capacity(text.len() / 2).map_err(|_| FromHexError::OutOfMemory)?;
    for at in 0..text.len() / 2 {
        bytes.push(octet(text, at)?);
    }
    Ok(bytes)
}
