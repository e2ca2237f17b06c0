//! Restoring raw options of qdiscs.

use crate::fallible::prelude::*;

use crate::nla_frames::{
    DecodeError, DefaultNla, NLA_F_NESTED, NLA_TYPE_MASK, Nla, emit_list, list_checked_len, parse_list,
};
use crate::restore::codel_times::time_set;
use crate::restore::numbers::{number_at, with_number};
use crate::restore::restore::is_of;
use crate::restore::restore_error::RestoreError;

// Restores the raw options of a kind.
pub(crate) fn restored_raw(kind: &str, nla: DefaultNla) -> Result<DefaultNla, RestoreError> {
    match kind {
        "htb" | "codel" => restored_list(kind, nla),
        "sfq" => restored_sfq(nla),
        "taprio" => restored_taprio(nla),
        "ets" | "fq_pie" | "dualpi2" => nested(&nla),
        "red" | "choke" | "gred" => Err(RestoreError::MarkingTable),
        _ => Ok(nla),
    }
}

// What Linux dumps without `NLA_F_NESTED`, and takes only with it (`nla_parse_nested`, not its deprecated form).
pub(crate) fn nested(nla: &DefaultNla) -> Result<DefaultNla, RestoreError> {
    Ok(DefaultNla::new(nla.kind() | NLA_F_NESTED, fallible::copy(nla.value())?))
}

// Restores options that are a list.
fn restored_list(kind: &str, nla: DefaultNla) -> Result<DefaultNla, RestoreError> {
    let frames: Vec<DefaultNla> = match parse_list(nla.value()) {
        Ok(frames) => frames,
        Err(DecodeError::OutOfMemory) => return Err(RestoreError::OutOfMemory),
        Err(_) => return Ok(nla),
    };
    let frames = restored_frames(kind, frames)?;
    let bytes = emitted(&frames)?;
    Ok(DefaultNla::new(nla.kind(), bytes))
}

// Emits a list.
pub(crate) fn emitted<T: Nla>(frames: &[T]) -> Result<Vec<u8>, RestoreError> {
    match list_checked_len(frames) {
        Some(len) => {
            let mut bytes = fallible::filled(0u8, len)?;
            emit_list(frames, &mut bytes);
            Ok(bytes)
        }
        // Longer than the list that they were parsed from, or too long for a message.
        None => Err(RestoreError::OutOfMemory),
    }
}

// Restores each frame of a list.
fn restored_frames(kind: &str, frames: Vec<DefaultNla>) -> Result<Vec<DefaultNla>, RestoreError> {
    let mut made = fallible::with_capacity(frames.len())?;
    for nla in frames {
        made.try_push(restored_frame(kind, nla)?)?;
    }
    Ok(made)
}

fn restored_frame(kind: &str, nla: DefaultNla) -> Result<DefaultNla, RestoreError> {
    if kind == "htb" { restored_htb(nla) } else { restored_codel(nla) }
}

// The version of htb in a dump, `HTB_VER` of `net/sched/sch_htb.c`, and in a request.
const DUMPED_HTB_VERSION: u32 = 0x3_0011;

const HTB_VERSION: u32 = 3;

fn restored_htb(nla: DefaultNla) -> Result<DefaultNla, RestoreError> {
    let value = nla.value();
    if nla.kind() & NLA_TYPE_MASK == 2 && value.len() >= 4 && number_at(value, 0) == DUMPED_HTB_VERSION {
        let made = with_number(value, 0, HTB_VERSION)?;
        return Ok(DefaultNla::new(nla.kind(), made));
    }
    Ok(nla)
}

fn restored_codel(nla: DefaultNla) -> Result<DefaultNla, RestoreError> {
    let value = nla.value();
    if is_codel_time(nla.kind() & NLA_TYPE_MASK) && value.len() == 4 {
        let made = with_number(value, 0, time_set(number_at(value, 0)))?;
        return Ok(DefaultNla::new(nla.kind(), made));
    }
    Ok(nla)
}

// True for the types of codel's times.
fn is_codel_time(kind: u16) -> bool {
    kind == 1 || kind == 3 || kind == 5
}

// `TCA_TAPRIO_ATTR_PAD`, `TCA_TAPRIO_ATTR_ADMIN_SCHED`, and what a schedule has: its entries, base time, cycle time and extension.
const TAPRIO_PAD: u16 = 6;

const TAPRIO_PENDING: u16 = 7;

const TAPRIO_SCHEDULE: &[u16] = &[2, 3, 8, 9];

// A request has its schedule among the options, and Linux ignores one in the place of a pending one. What was asked for last is pending until its base time,
// or the end of the cycle.
fn restored_taprio(nla: DefaultNla) -> Result<DefaultNla, RestoreError> {
    let options = frames_in(nla.value())?;
    let pending = match options.iter().find(|option| is_of(&[TAPRIO_PENDING], option)) {
        Some(pending) => frames_in(pending.value())?,
        None => Vec::new(),
    };
    let schedule: Vec<DefaultNla> = pending.into_iter().filter(|part| !is_of(&[TAPRIO_PAD], part)).collect();
    if schedule.is_empty() {
        return Ok(nla);
    }
    let others =
        options.into_iter().filter(|option| !is_of(TAPRIO_SCHEDULE, option) && !is_of(&[TAPRIO_PENDING], option));
    let frames: Vec<DefaultNla> = others.chain(schedule).collect();
    let bytes = emitted(&frames)?;
    Ok(DefaultNla::new(nla.kind(), bytes))
}

// The attributes of a list; none if it is broken.
pub(crate) fn frames_in(bytes: &[u8]) -> Result<Vec<DefaultNla>, RestoreError> {
    match parse_list(bytes) {
        Ok(frames) => Ok(frames),
        Err(DecodeError::OutOfMemory) => Err(RestoreError::OutOfMemory),
        Err(_) => Ok(Vec::new()),
    }
}

fn restored_sfq(nla: DefaultNla) -> Result<DefaultNla, RestoreError> {
    let value = nla.value();
    if value.len() >= 20 && number_at(value, 8) == 127 && number_at(value, 16) == 128 {
        let made = with_number(value, 8, 0)?;
        let made = with_number(&made, 16, 0)?;
        return Ok(DefaultNla::new(nla.kind(), made));
    }
    Ok(nla)
}
