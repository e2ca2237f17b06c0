//! The configuration of what a dump shows: the request that restores it, in normal form.

use crate::user::prelude::*;

use crate::plan::configs::compared::compared;
use crate::plan::configs::config::NEVER;
use crate::plan::configs::configured::{chain, configured, plain};
use crate::plan::configs::frames::emitted;
use crate::plan::configs::normal::{normal, normal_action_dump};
use crate::plan::configs::sort::Sort;
use crate::restore::{
    Object, RestoreError, RootTable, kind_of_action, kind_of_message, request_of, request_of_actions,
};
use crate::tc_action_messages::{TcActionMessage, TcActionMessageAttribute};
use crate::tc_actions::TcAction;
use crate::tc_messages::TcMessage;
use crate::tc_records::{TcActionMessageHeader, TcHandle, TcHeader};

/// A configuration, and its request.
pub struct Configured {
    /// The request that makes the object, or the dump of one that no request makes.
    pub message: TcMessage,
    /// The bytes of the configuration.
    pub config: Vec<u8>,
    /// The message that is sent, where that isn't the one that is compared.
    pub sent: Option<Vec<u8>>,
}

/// The configuration of the object that a dump shows, which has this type and is named by this parent: the request that restores the dump,
/// with counters of 0, or else the dump without counts and times. `roots` are the root tables of u32 in all dumps. `None` if the message is too
/// long to be written.
///
/// # Errors
///
/// A [`AllocError`].
pub fn config_of(
    roots: &[RootTable],
    object: Object,
    sort: Sort,
    parent: u32,
    dump: TcMessage,
) -> Result<Option<Configured>, AllocError> {
    let kind = fallible::text(kind_of_message(&dump))?;
    let (request, can_make) = request_or_dump(roots, object, dump)?;
    let message = settled(object, parent, request);
    match written_config(sort, kind.as_str(), &message, can_make)? {
        Some((config, sent)) => Ok(Some(Configured { message, config, sent })),
        None => Ok(None),
    }
}

// The request that restores a dump, and true; or if there is none, the dump and false.
fn request_or_dump(roots: &[RootTable], object: Object, dump: TcMessage) -> Result<(TcMessage, bool), AllocError> {
    let copy = copied(&dump)?;
    match request_of(roots, object, dump) {
        Ok(request) => Ok((request.message, true)),
        Err(error) => {
            other_than_memory(error)?;
            Ok((copy, false))
        }
    }
}

// The same message.
fn copied(message: &TcMessage) -> Result<TcMessage, AllocError> {
    let header = &message.header;
    let copy = TcMessage {
        header: TcHeader {
            family: header.family,
            index: header.index,
            handle: header.handle,
            parent: header.parent,
            info: header.info,
        },
        attributes: message.attributes.clone(),
    };
    // The copy is equal, but the contract of `clone` doesn't say so: this test does.
    if copy != *message {
        return Err(AllocError);
    }
    Ok(copy)
}

/// The configuration of an action of this type: the request that restores it, if it isn't one that only filters can make, or else its dump
/// without counts and times. `None` if the message is too long to be written.
///
/// # Errors
///
/// A [`AllocError`].
pub fn config_of_action(sort: Sort, by_filters: bool, action: TcAction) -> Result<Option<Vec<u8>>, AllocError> {
    let kind = fallible::text(kind_of_action(&action))?;
    let dump = alone(action)?;
    let (message, is_restored) = actions_or_dump(dump)?;
    let can_make = is_restored && !by_filters;
    let config = written_action(sort, kind.as_str(), &message, is_restored, can_make)?;
    Ok(config)
}

// A message of this action.
fn alone(action: TcAction) -> Result<TcActionMessage, AllocError> {
    let mut actions = Vec::new();
    actions.try_push(action)?;
    let mut attributes = Vec::new();
    attributes.try_push(TcActionMessageAttribute::Actions(actions))?;
    Ok(TcActionMessage { header: TcActionMessageHeader::default(), attributes })
}

// The request that restores a dump of actions, and true; or if there is none, the dump and false.
fn actions_or_dump(dump: TcActionMessage) -> Result<(TcActionMessage, bool), AllocError> {
    let copy = dump.clone();
    // The copy is equal, but the contract of `clone` doesn't say so: this test does.
    if copy != dump {
        return Err(AllocError);
    }
    match request_of_actions(dump) {
        Ok(request) => Ok((request.message, true)),
        Err(error) => {
            other_than_memory(error)?;
            Ok((copy, false))
        }
    }
}

// The configuration of a request that makes an action of this kind, or of a dump. None if its message is too long.
fn written_action(
    sort: Sort,
    kind: &str,
    message: &TcActionMessage,
    is_restored: bool,
    can_make: bool,
) -> Result<Option<Vec<u8>>, AllocError> {
    let Some(bytes) = emitted(message)? else {
        return Ok(None);
    };
    let bytes = action_bytes(is_restored, bytes)?;
    let config = if can_make { configured(sort, kind, &bytes)? } else { plain(NEVER, &bytes)? };
    Ok(Some(config))
}

// The bytes of a request, or the normal form of a dump.
fn action_bytes(is_restored: bool, bytes: Vec<u8>) -> Result<Vec<u8>, AllocError> {
    if is_restored { Ok(bytes) } else { normal_action_dump(&bytes) }
}

// Fails if memory ran out.
fn other_than_memory(error: RestoreError) -> Result<(), AllocError> {
    match error {
        RestoreError::OutOfMemory => Err(AllocError),
        _ => Ok(()),
    }
}

// A configuration, and the message that is sent if that isn't its own.
type Written = (Vec<u8>, Option<Vec<u8>>);

// The configuration of a request that makes an object of this kind, or of a dump. None if its message is too long.
fn written_config(sort: Sort, kind: &str, message: &TcMessage, can_make: bool) -> Result<Option<Written>, AllocError> {
    let Some(bytes) = emitted(message)? else {
        return Ok(None);
    };
    let bytes = normal(!can_make, kind, bytes)?;
    let compared = compared(sort, kind, &bytes)?;
    let own = compared.as_deref().unwrap_or(&bytes);
    let config = match (can_make, sort) {
        (false, _) => plain(NEVER, own)?,
        (true, Sort::Chain) if kind.is_empty() => chain(Some(own))?,
        (true, _) => configured(sort, kind, own)?,
    };
    let sent = compared.is_some().then_some(bytes);
    Ok(Some((config, sent)))
}

// A message with one parent for all that is under ingress, and without the word of a qdisc or a class (`tcm_info`), which isn't
// configured.
fn settled(object: Object, parent: u32, message: TcMessage) -> TcMessage {
    let TcMessage { header, attributes } = message;
    TcMessage { header: header_settled(object, parent, header), attributes }
}

fn header_settled(object: Object, parent: u32, header: TcHeader) -> TcHeader {
    TcHeader {
        family: header.family,
        index: header.index,
        handle: header.handle,
        parent: TcHandle::from(parent),
        info: info_settled(object, header.info),
    }
}

fn info_settled(object: Object, info: u32) -> u32 {
    match object {
        Object::Qdisc | Object::Class => 0,
        Object::Filter | Object::Chain => info,
    }
}
