//! The requests of a plan.

use crate::user::prelude::*;

use crate::nla_frames::{DefaultNla, i32_bytes, u32_bytes};
use crate::plan::configs::config::{changing, read};
use crate::plan::configs::frames::{after, framed, name_in};
use crate::plan::objects::lost::going_along;
use crate::plan::objects::state::{Sent, State};
use crate::restore::NEW_FLAGS;
use crate::tc_changes::{Key, Step};
use std::collections::{HashMap, HashSet};

/// A request of a plan.
#[derive(Debug)]
pub struct PlanRequest {
    /// The key of the object that it makes, changes or deletes.
    pub key: Key,
    /// The message type (`nlmsg_type`).
    pub message_type: u16,
    /// The flags (`nlmsg_flags`).
    pub flags: u16,
    /// The message after the netlink header.
    pub message: Vec<u8>,
}

/// The handles of objects as the kernel has them.
pub type Handles = HashMap<Key, u32>;

/// The flags of a request that changes an object and asks for an answer: `NLM_F_REQUEST`, `NLM_F_ACK` and `NLM_F_REPLACE` of
/// `linux/netlink.h`.
pub const CHANGE_FLAGS: u16 = 0x105;

/// The flags of a request that deletes an object and asks for an answer: `NLM_F_REQUEST` and `NLM_F_ACK`.
pub const DELETE_FLAGS: u16 = 0x5;

/// The requests of steps, which send these messages where they aren't those of configurations. What the kernel makes with something else has none, such as a
/// priority, which comes with the first filter of it; nor has the deletion of what goes with something else.
pub(crate) fn requests_of(now: &State, sent: &Sent, steps: &[Step]) -> Result<Vec<PlanRequest>, AllocError> {
    let along = going_along(now, steps);
    let mut requests = Vec::new();
    for step in steps {
        let one = request_of(now, sent, &along, step)?;
        requests = with(requests, one)?;
    }
    Ok(requests)
}

// Requests, and one more if there is one.
fn with(requests: Vec<PlanRequest>, one: Option<PlanRequest>) -> Result<Vec<PlanRequest>, AllocError> {
    let mut requests = requests;
    if let Some(one) = one {
        requests.try_push(one)?;
    }
    Ok(requests)
}

fn request_of(now: &State, sent: &Sent, along: &HashSet<Key>, step: &Step) -> Result<Option<PlanRequest>, AllocError> {
    match step {
        Step::Delete(key) if along.contains(key) => Ok(None),
        Step::Delete(key) => deleting(*key, now.handles.get(key).copied()),
        Step::Make(object) => {
            let message = sent.get(&object.key).map_or_else(|| read(&object.config).message, Vec::as_slice);
            sending(object.key, NEW_FLAGS, None, message)
        }
        Step::Change(object) => {
            let config = read(&object.config);
            // A kind of which a change leaves options out is sent as it is compared.
            let own = sent.get(&object.key).filter(|_| config.change.is_empty());
            let message = own.map_or_else(|| changing(config.change, config.message), Vec::as_slice);
            let handle = now.handles.get(&object.key).copied();
            sending(object.key, CHANGE_FLAGS, handle, message)
        }
    }
}

// The type of the request that makes an object; 0 of what no request makes.
fn new_type(key: Key) -> u16 {
    match key {
        Key::Place { .. } => 36,
        Key::Class { .. } => 40,
        Key::Filter { .. } => 44,
        Key::Action { .. } => 48,
        Key::Chain { .. } => 100,
        Key::Priority { .. } | Key::Block { .. } => 0,
    }
}

// The request that makes an object with this message, or changes the one with this handle.
fn sending(key: Key, flags: u16, handle: Option<u32>, message: &[u8]) -> Result<Option<PlanRequest>, AllocError> {
    let message_type = new_type(key);
    if message_type == 0 || message.is_empty() {
        return Ok(None);
    }
    Ok(Some(PlanRequest { key, message_type, flags, message: message_by(key, handle, message)? }))
}

fn message_by(key: Key, handle: Option<u32>, message: &[u8]) -> Result<Vec<u8>, AllocError> {
    match key {
        Key::Place { index, .. } => addressed(index, handle, message),
        Key::Class { index, .. } => addressed(index, handle, message),
        Key::Chain { index, .. } => addressed(index, handle, message),
        Key::Priority { index, .. } => addressed(index, handle, message),
        Key::Filter { index, .. } => addressed(index, handle, message),
        Key::Action { .. } | Key::Block { .. } => fallible::copy(message),
    }
}

// A message for this interface, and for the object that has this handle there.
fn addressed(index: i32, handle: Option<u32>, message: &[u8]) -> Result<Vec<u8>, AllocError> {
    let mut made = front(index)?;
    match handle {
        Some(handle) => {
            made.try_extend(&u32_bytes(handle))?;
            made.try_extend(after(message, 12))?;
        }
        None => made.try_extend(after(message, 8))?,
    }
    Ok(made)
}

// The first bytes of `struct tcmsg`: no family, and an interface.
fn front(index: i32) -> Result<Vec<u8>, AllocError> {
    let mut made = fallible::copy(&[0, 0, 0, 0])?;
    made.try_extend(&i32_bytes(index))?;
    Ok(made)
}

// The request that deletes what the kernel has of this key, with this handle.
fn deleting(key: Key, handle: Option<u32>) -> Result<Option<PlanRequest>, AllocError> {
    let (message_type, message) = match key {
        Key::Place { index, parent } => {
            let handle = handle.unwrap_or(0);
            (37, header_bytes(index, handle, parent, 0)?)
        }
        Key::Class { index, handle } => (41, header_bytes(index, handle, 0, 0)?),
        Key::Chain { index, parent, number } => {
            let message = header_bytes(index, 0, parent, 0)?;
            (101, with_chain(message, number)?)
        }
        Key::Priority { index, parent, number, priority } => {
            let message = header_bytes(index, 0, parent, priority)?;
            (45, with_chain_if(message, number)?)
        }
        Key::Filter { index, parent, number, priority, handle: own } => {
            let handle = handle.unwrap_or(own);
            let message = header_bytes(index, handle, parent, priority)?;
            (45, with_chain_if(message, number)?)
        }
        Key::Action { kind, index } => (49, action_bytes(kind, index)?),
        Key::Block { .. } => return Ok(None),
    };
    Ok(Some(PlanRequest { key, message_type, flags: DELETE_FLAGS, message }))
}

// `struct tcmsg` with this handle, parent and priority.
fn header_bytes(index: i32, handle: u32, parent: u32, priority: u32) -> Result<Vec<u8>, AllocError> {
    let mut made = front(index)?;
    made.try_extend(&u32_bytes(handle))?;
    made.try_extend(&u32_bytes(parent))?;
    made.try_extend(&u32_bytes(priority % 0x1_0000 * 0x1_0000))?;
    Ok(made)
}

// A message, and the chain in it (`TCA_CHAIN`).
fn with_chain(message: Vec<u8>, number: u32) -> Result<Vec<u8>, AllocError> {
    let mut made = message;
    made.try_extend(&[8, 0, 11, 0])?;
    made.try_extend(&u32_bytes(number))?;
    Ok(made)
}

// The same, unless it is chain 0.
fn with_chain_if(message: Vec<u8>, number: u32) -> Result<Vec<u8>, AllocError> {
    if number == 0 { Ok(message) } else { with_chain(message, number) }
}

// `struct tcamsg`, and the kind and the index of an action.
fn action_bytes(kind: [u8; 16], index: u32) -> Result<Vec<u8>, AllocError> {
    let mut name = name_in(&kind)?;
    name.try_push(0)?;
    let number = fallible::copy(&u32_bytes(index))?;
    let mut frames = Vec::new();
    frames.try_push(DefaultNla::new(1, name))?;
    frames.try_push(DefaultNla::new(3, number))?;
    let action = framed(&frames)?;
    let actions = in_frame(action)?;
    let list = in_frame(actions)?;
    let mut made = fallible::copy(&[0, 0, 0, 0])?;
    made.try_extend(&list)?;
    Ok(made)
}

// A frame of the type 1 with this value.
fn in_frame(value: Vec<u8>) -> Result<Vec<u8>, AllocError> {
    let mut frames = fallible::with_capacity(1)?;
    frames.try_push(DefaultNla::new(1, value))?;
    framed(&frames)
}
