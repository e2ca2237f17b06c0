//! The normal form of the actions in a dump: without what only a kernel writes.

use crate::user::prelude::*;

use crate::nla_frames::{DefaultNla, Nla};
use crate::plan::configs::frames::{framed, frames_of, name_in, type_of};
use crate::plan::configs::parts::{number_at, put};
use crate::restore::only_dumped;
use crate::restore::uses::{Use, is_private, parameters};

// `TCA_ACT_KIND` and `TCA_ACT_OPTIONS` of `linux/pkt_cls.h`.
const KIND: u16 = 1;

const OPTIONS: u16 = 2;

/// A list of actions.
pub(crate) fn normal_actions(value: &[u8]) -> Result<Vec<u8>, AllocError> {
    let frames = frames_of(value)?;
    let actions = each_action(frames)?;
    framed(&actions)
}

fn each_action(frames: Vec<DefaultNla>) -> Result<Vec<DefaultNla>, AllocError> {
    let mut made = fallible::with_capacity(frames.len())?;
    for frame in frames {
        made.try_push(normal_action(&frame)?)?;
    }
    Ok(made)
}

fn normal_action(frame: &DefaultNla) -> Result<DefaultNla, AllocError> {
    let frames = frames_of(frame.value())?;
    let kind = kind_among(&frames)?;
    let attributes = normal_attributes(&kind, frames)?;
    let value = framed(&attributes)?;
    Ok(DefaultNla::new(frame.kind(), value))
}

// The kind of an action, without NULs.
fn kind_among(frames: &[DefaultNla]) -> Result<Vec<u8>, AllocError> {
    let mut kind = Vec::new();
    for frame in frames {
        let name = kind_in(frame)?;
        kind.try_extend(&name)?;
    }
    Ok(kind)
}

fn kind_in(frame: &DefaultNla) -> Result<Vec<u8>, AllocError> {
    if type_of(frame) == KIND { name_in(frame.value()) } else { Ok(Vec::new()) }
}

fn normal_attributes(kind: &[u8], frames: Vec<DefaultNla>) -> Result<Vec<DefaultNla>, AllocError> {
    let mut made = fallible::with_capacity(frames.len())?;
    for frame in frames {
        if !is_count(type_of(&frame)) {
            made.try_push(normal_attribute(kind, frame)?)?;
        }
    }
    Ok(made)
}

fn is_count(attribute: u16) -> bool {
    let counts: &[u16] = &[4, 5, 9, 10];
    counts.contains(&attribute)
}

fn normal_attribute(kind: &[u8], frame: DefaultNla) -> Result<DefaultNla, AllocError> {
    if type_of(&frame) == OPTIONS {
        let value = options_of(kind, frame.value())?;
        Ok(DefaultNla::new(frame.kind(), value))
    } else {
        Ok(frame)
    }
}

pub(crate) fn options_of(kind: &[u8], value: &[u8]) -> Result<Vec<u8>, AllocError> {
    let frames = frames_of(value)?;
    let options = normal_options(kind, frames)?;
    framed(&options)
}

fn normal_options(kind: &[u8], frames: Vec<DefaultNla>) -> Result<Vec<DefaultNla>, AllocError> {
    let mut made = fallible::with_capacity(frames.len())?;
    for frame in frames {
        if !is_time(kind, type_of(&frame)) {
            made.try_push(normal_option(kind, &frame)?)?;
        }
    }
    Ok(made)
}

fn normal_option(kind: &[u8], frame: &DefaultNla) -> Result<DefaultNla, AllocError> {
    let value = if are_parameters(kind, type_of(frame)) {
        normal_parameters(kind, frame.value())?
    } else {
        fallible::copy(frame.value())?
    };
    Ok(DefaultNla::new(frame.kind(), value))
}

// True for an option that only a kernel writes.
fn is_time(kind: &[u8], option: u16) -> bool {
    times_of_action(kind).contains(&option)
}

pub(crate) fn times_of_action(kind: &[u8]) -> &'static [u16] {
    if kind == b"mpls".as_slice() { &[1, 3] } else { only_dumped(kind) }
}

// True for the parameters among an action's options.
fn are_parameters(kind: &[u8], option: u16) -> bool {
    parameters(kind).contains(&option)
}

fn normal_parameters(kind: &[u8], value: &[u8]) -> Result<Vec<u8>, AllocError> {
    if kind == b"police".as_slice() {
        if value.len() >= 56 { normal_record(4, 44, value) } else { fallible::copy(value) }
    } else if value.len() >= 20 {
        normal_record(8, 12, value)
    } else {
        fallible::copy(value)
    }
}

fn normal_record(next: usize, held: usize, value: &[u8]) -> Result<Vec<u8>, AllocError> {
    let value = normal_index(use_at(value, next, held), value)?;
    put(held, &[0, 0, 0, 0, 0, 0, 0, 0], &value)
}

// What `use_at` of `tc_restore` is too, which is private to it, since it takes only places in range.
fn use_at(value: &[u8], next: usize, held: usize) -> Use {
    Use {
        index: number_at(value, 0),
        next: number_at(value, next),
        references: number_at(value, held),
        filters: number_at(value, held + 4),
    }
}

fn normal_index(found: Use, value: &[u8]) -> Result<Vec<u8>, AllocError> {
    if is_private(found) { put(0, &[0, 0, 0, 0], value) } else { fallible::copy(value) }
}
