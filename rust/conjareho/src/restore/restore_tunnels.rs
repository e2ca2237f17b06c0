//! Restoring options of tunnels: each in its own nest, with the nested flag.

use crate::fallible::prelude::*;

use crate::nla_frames::{DecodeError, DefaultNla, NLA_F_NESTED, NLA_TYPE_MASK, Nla, parse_list};
use crate::restore::restore_error::RestoreError;
use crate::restore::restore_raw::emitted;

// Restores the options of a tunnel. Bytes that aren't frames are unchanged.
pub(crate) fn restored_tunnel(nla: DefaultNla) -> Result<DefaultNla, RestoreError> {
    let frames: Vec<DefaultNla> = match parse_list(nla.value()) {
        Ok(frames) => frames,
        Err(DecodeError::OutOfMemory) => return Err(RestoreError::OutOfMemory),
        Err(_) => return Ok(nla),
    };
    let frames = nests_restored(frames)?;
    let bytes = emitted(&frames)?;
    Ok(DefaultNla::new(nla.kind(), bytes))
}

fn nests_restored(frames: Vec<DefaultNla>) -> Result<Vec<DefaultNla>, RestoreError> {
    let mut made = fallible::with_capacity(frames.len())?;
    for nla in frames {
        made = with_nests(made, nla)?;
    }
    Ok(made)
}

// Appends the nests of one more frame.
fn with_nests(front: Vec<DefaultNla>, nla: DefaultNla) -> Result<Vec<DefaultNla>, RestoreError> {
    let mut made = front;
    if nla.kind() & NLA_TYPE_MASK == 1 {
        let frames: Vec<DefaultNla> = match parse_list(nla.value()) {
            Ok(frames) => frames,
            Err(DecodeError::OutOfMemory) => return Err(RestoreError::OutOfMemory),
            Err(_) => {
                made.try_push(nla)?;
                return Ok(made);
            }
        };
        return with_options(made, nla.kind(), frames);
    }
    let value = fallible::copy(nla.value())?;
    made.try_push(DefaultNla::new(nla.kind() | NLA_F_NESTED, value))?;
    Ok(made)
}

// Appends a nest for each of these options of geneve.
fn with_options(front: Vec<DefaultNla>, word: u16, frames: Vec<DefaultNla>) -> Result<Vec<DefaultNla>, RestoreError> {
    let mut made = front;
    let mut option = Vec::new();
    for nla in frames {
        let (nests, open) = with_frame(made, word, option, nla)?;
        made = nests;
        option = open;
    }
    made.try_push(nest(word, &option)?)?;
    Ok(made)
}

// Takes one more frame: returns the finished nests, and the frames of the current option.
fn with_frame(
    front: Vec<DefaultNla>,
    word: u16,
    option: Vec<DefaultNla>,
    nla: DefaultNla,
) -> Result<(Vec<DefaultNla>, Vec<DefaultNla>), RestoreError> {
    if begins(&option, &nla) { cut(front, word, option, nla) } else { kept(front, option, nla) }
}

// Takes a frame that begins another option: the current one is finished.
fn cut(
    front: Vec<DefaultNla>,
    word: u16,
    option: Vec<DefaultNla>,
    nla: DefaultNla,
) -> Result<(Vec<DefaultNla>, Vec<DefaultNla>), RestoreError> {
    let mut made = front;
    made.try_push(nest(word, &option)?)?;
    let mut other = Vec::new();
    other.try_push(nla)?;
    Ok((made, other))
}

// Takes a frame of the current option.
fn kept(
    front: Vec<DefaultNla>,
    option: Vec<DefaultNla>,
    nla: DefaultNla,
) -> Result<(Vec<DefaultNla>, Vec<DefaultNla>), RestoreError> {
    let mut option = option;
    option.try_push(nla)?;
    Ok((front, option))
}

// True if a frame begins another option after these frames.
fn begins(option: &[DefaultNla], nla: &DefaultNla) -> bool {
    match option.split_first() {
        Some(_) => nla.kind() & NLA_TYPE_MASK == 1,
        None => false,
    }
}

fn nest(word: u16, option: &[DefaultNla]) -> Result<DefaultNla, RestoreError> {
    let bytes = emitted(option)?;
    Ok(DefaultNla::new(word | NLA_F_NESTED, bytes))
}
