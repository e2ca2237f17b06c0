//! What the changes of a plan change beside their own objects, and what the kernel changes with an object that is made.

use crate::nla_frames::Nla;
use crate::plan::configs::compared::{compared, leaf_of, level_of, with_level, with_options};
use crate::plan::configs::config::message_of;
use crate::plan::configs::configured::configured;
use crate::plan::configs::frames::{after, frames_of, type_of};
use crate::plan::configs::{Sort, frames::name_in};
use crate::plan::objects::lost::copied;
use crate::plan::objects::state::State;
use crate::tc_changes::{Key, Object, Rules};
use crate::user::prelude::AllocError;
use std::collections::HashMap;

/// The length of `struct tcmsg`; `TCA_KIND` and `TCA_OPTIONS` of `linux/rtnetlink.h`.
const HEADER: usize = 20;
const KIND: u16 = 1;
const OPTIONS: u16 = 2;

/// `TCA_TBF_PARMS`: `limit` of `struct tc_tbf_qopt` is after two rates of 12 bytes.
const TBF_PARMS: u16 = 1;
const TBF_LIMIT: usize = 24;

/// The qdiscs whose options are a `struct tc_fifo_qopt`, and to which tbf gives its limit.
const FIFOS: [&[u8]; 3] = [b"pfifo", b"bfifo", b"pfifo_head_drop"];

/// What is there once what is changed in place is changed. A tbf gives its own limit to the fifo below it, at each change. A class of htb has the level that it
/// will have, if that is all: becoming a leaf, or no leaf any more, changes nothing else of it.
pub(crate) fn beside<R: Rules>(rules: &R, now: &State, want: &State) -> Result<Vec<Object>, AllocError> {
    let wanted: HashMap<Key, &Object> = want.objects.iter().map(|object| (object.key, object)).collect();
    let mut there = copied(&now.objects);
    let limits = limits_of(rules, now, &wanted)?;
    for object in &mut there {
        match object.key {
            Key::Place { index, parent } => {
                if let Some(limit) = limits.get(&(index, parent >> 16)) {
                    take_limit(object, limit)?;
                }
            }
            Key::Class { .. } => {
                if let Some(wanted) = wanted.get(&object.key) {
                    take_level(object, now, want, wanted)?;
                }
            }
            _ => {}
        }
    }
    Ok(there)
}

// ---- The limit of tbf

// The limits that each tbf gives, by interface and the upper half of its handle.
type Limits = HashMap<(i32, u32), Vec<u8>>;

fn limits_of<R: Rules>(rules: &R, now: &State, wanted: &HashMap<Key, &Object>) -> Result<Limits, AllocError> {
    let mut limits = Limits::new();
    for old in &now.objects {
        let (Key::Place { index, .. }, Some(new)) = (old.key, wanted.get(&old.key)) else { continue };
        if old.config == new.config || kind_of(&old.config)? != b"tbf" || !rules.takes(old, new) {
            continue;
        }
        let handle = now.handles.get(&old.key).copied().unwrap_or_default();
        if let Some(limit) = limit_of(message_of(&new.config))? {
            limits.insert((index, handle >> 16), limit);
        }
    }
    Ok(limits)
}

fn limit_of(message: &[u8]) -> Result<Option<Vec<u8>>, AllocError> {
    let Some(options) = value_of(after(message, HEADER), OPTIONS)? else { return Ok(None) };
    let parameters = value_of(&options, TBF_PARMS)?;
    Ok(parameters.and_then(|it| it.get(TBF_LIMIT..)?.get(..4).map(<[u8]>::to_vec)))
}

fn take_limit(object: &mut Object, limit: &[u8]) -> Result<(), AllocError> {
    let kind = kind_of(&object.config)?;
    if !FIFOS.contains(&kind.as_slice()) {
        return Ok(());
    }
    if let Some(message) = with_options(message_of(&object.config), |_| Ok(Some(limit.to_vec())))? {
        object.config = configured(Sort::Qdisc, &String::from_utf8_lossy(&kind), &message)?;
    }
    Ok(())
}

// ---- The level of a class of htb

fn take_level(object: &mut Object, now: &State, want: &State, wanted: &Object) -> Result<(), AllocError> {
    let (old, new) = (now.message_of(object), want.message_of(wanted));
    if kind_of(&object.config)? != b"htb" || kind_of(&wanted.config)? != b"htb" {
        return Ok(());
    }
    let (Some(was), Some(is)) = (level_of(old)?, level_of(new)?) else { return Ok(()) };
    // What it is to use as a leaf can be changed only while it is one.
    let (becomes_inner, becomes_leaf) = (was == 0 && is != 0, was != 0 && is == 0);
    if !(becomes_leaf || becomes_inner && leaf_of(old)? == leaf_of(new)?) {
        return Ok(());
    }
    if let Some(message) = with_level(old, is)? {
        let own = compared(Sort::Class, "htb", &message)?.unwrap_or(message);
        object.config = configured(Sort::Class, "htb", &own)?;
    }
    Ok(())
}

// ---- Messages

fn kind_of(config: &[u8]) -> Result<Vec<u8>, AllocError> {
    let kind = value_of(after(message_of(config), HEADER), KIND)?;
    kind.map_or_else(|| Ok(Vec::new()), |kind| name_in(&kind))
}

fn value_of(bytes: &[u8], wanted: u16) -> Result<Option<Vec<u8>>, AllocError> {
    let frames = frames_of(bytes)?;
    Ok(frames.iter().find(|frame| type_of(frame) == wanted).map(|frame| frame.value().to_vec()))
}
