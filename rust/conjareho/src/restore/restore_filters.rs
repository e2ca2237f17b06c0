//! Restoring raw options of filters, with their actions.

use crate::fallible::prelude::*;

use crate::nla_frames::{DecodeError, DefaultNla, Nla, parse_list};
use crate::restore::restore::{Around, NOTHING_AROUND, Restore, is_of, restore_all};
use crate::restore::restore_actions::restored_police;
use crate::restore::restore_error::RestoreError;
use crate::restore::restore_raw::{emitted, restored_raw};
use crate::tc_actions::TcAction;

// Restores raw options of a kind.
pub(crate) fn restored_kept(kind: &str, nla: DefaultNla) -> Result<DefaultNla, RestoreError> {
    if is_raw_filter(kind) { restored_filter(kind, nla) } else { restored_raw(kind, nla) }
}

fn is_raw_filter(kind: &str) -> bool {
    matches!(kind, "basic" | "fw" | "route" | "flow" | "cgroup" | "tcindex" | "rsvp" | "rsvp6")
}

// The types of the options that are lists of actions.
pub(crate) fn actions_types(kind: &str) -> &'static [u16] {
    match kind {
        "basic" => &[3],
        "fw" => &[4],
        "route" => &[6],
        "flow" => &[9],
        "cgroup" => &[1],
        "tcindex" => &[7],
        "rsvp" => &[6],
        "rsvp6" => &[6],
        _ => &[],
    }
}

// The types of the options that are police outside a list of actions.
fn police_types(kind: &str) -> &'static [u16] {
    match kind {
        "basic" => &[4],
        "fw" => &[2],
        "route" => &[5],
        "flow" => &[10],
        "cgroup" => &[2],
        "tcindex" => &[6],
        "rsvp" => &[5],
        "rsvp6" => &[5],
        _ => &[],
    }
}

// The types of counts and padding, which occur only in dumps.
fn count_types(kind: &str) -> &'static [u16] {
    match kind {
        "basic" => &[5, 6],
        _ => &[],
    }
}

fn restored_filter(kind: &str, nla: DefaultNla) -> Result<DefaultNla, RestoreError> {
    let options: Vec<DefaultNla> = match parse_list(nla.value()) {
        Ok(options) => options,
        Err(DecodeError::OutOfMemory) => return Err(RestoreError::OutOfMemory),
        Err(_) => return Err(RestoreError::RawActions),
    };
    let options = restore_all(options, kind, NOTHING_AROUND)?;
    let bytes = emitted(&options)?;
    Ok(DefaultNla::new(nla.kind(), bytes))
}

// Restores a raw list of actions.
pub(crate) fn restored_actions(nla: DefaultNla) -> Result<DefaultNla, RestoreError> {
    let actions: Vec<TcAction> = match parse_list(nla.value()) {
        Ok(actions) => actions,
        Err(DecodeError::OutOfMemory) => return Err(RestoreError::OutOfMemory),
        Err(_) => return Err(RestoreError::RawActions),
    };
    let actions = restore_all(actions, "", NOTHING_AROUND)?;
    let bytes = emitted(&actions)?;
    Ok(DefaultNla::new(nla.kind(), bytes))
}

// An option of a filter.
impl Restore for DefaultNla {
    fn restore(
        self,
        kind: &str,
        _around: Around,
        _types: &[u16],
        _place: usize,
    ) -> Result<Option<DefaultNla>, RestoreError> {
        if is_of(count_types(kind), &self) {
            Ok(None)
        } else if is_of(actions_types(kind), &self) {
            let actions = restored_actions(self)?;
            Ok(Some(actions))
        } else if is_of(police_types(kind), &self) {
            let police = restored_police(self)?;
            Ok(Some(police))
        } else {
            Ok(Some(self))
        }
    }
}
