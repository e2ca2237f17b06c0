//! Attributes as frames.

use crate::user::prelude::*;

use crate::nla_frames::{
    DecodeError, DefaultNla, Emitable, NLA_TYPE_MASK, Nla, emit_list, list_checked_len, parse_list,
};

/// The frames of bytes. Empty if they aren't frames.
///
/// # Errors
///
/// A [`AllocError`].
pub fn frames_of(bytes: &[u8]) -> Result<Vec<DefaultNla>, AllocError> {
    match parse_list(bytes) {
        Ok(frames) => Ok(frames),
        Err(DecodeError::OutOfMemory) => Err(AllocError),
        Err(_) => Ok(Vec::new()),
    }
}

/// The bytes of frames. `None` if they are too long.
pub(crate) fn bytes_of(frames: &[DefaultNla]) -> Result<Option<Vec<u8>>, AllocError> {
    match list_checked_len(frames) {
        Some(len) => {
            let mut bytes = fallible::filled(0u8, len)?;
            emit_list(frames, &mut bytes);
            Ok(Some(bytes))
        }
        None => Ok(None),
    }
}

/// The bytes of a message. `None` if it is too long.
pub(crate) fn emitted<M: Emitable>(message: &M) -> Result<Option<Vec<u8>>, AllocError> {
    match message.checked_len() {
        Some(len) => {
            let mut bytes = fallible::filled(0u8, len)?;
            message.emit(&mut bytes);
            Ok(Some(bytes))
        }
        None => Ok(None),
    }
}

/// The type of a frame, without flags.
#[must_use]
pub fn type_of(frame: &DefaultNla) -> u16 {
    frame.kind() & NLA_TYPE_MASK
}

/// The bytes of frames. Fails of frames that are too long, too.
///
/// # Errors
///
/// A [`AllocError`].
pub fn framed(frames: &[DefaultNla]) -> Result<Vec<u8>, AllocError> {
    match list_checked_len(frames) {
        Some(len) => {
            let mut bytes = fallible::filled(0u8, len)?;
            emit_list(frames, &mut bytes);
            Ok(bytes)
        }
        None => Err(AllocError),
    }
}

/// The first bytes, up to so many.
pub(crate) fn front(bytes: &[u8], len: usize) -> &[u8] {
    let (front, _) = bytes.split_at(usize::min(len, bytes.len()));
    front
}

/// The bytes after so many.
#[must_use]
pub fn after(bytes: &[u8], len: usize) -> &[u8] {
    let (_, rest) = bytes.split_at(usize::min(len, bytes.len()));
    rest
}

/// A kind without the zeros in it.
///
/// # Errors
///
/// A [`AllocError`].
pub fn name_in(kind: &[u8]) -> Result<Vec<u8>, AllocError> {
    let mut name = Vec::new();
    for byte in kind {
        if *byte != 0 {
            name.try_push(*byte)?;
        }
    }
    Ok(name)
}
