//! Restoring messages.

use crate::fallible::prelude::*;

use crate::restore::restore::{Around, NOTHING_AROUND, Restore, is_of, restore_all, restore_own, sole_kind};
use crate::restore::restore_actions::has_estimator;
use crate::restore::restore_error::RestoreError;
use crate::restore::restore_filters::restored_kept;
use crate::restore::restore_options::restored_options;
use crate::restore::root_tables::{RootTable, has_two_roots, is_in_root, is_root, links_to_root, within_table};
use crate::restore::standalone::standalone_restored;
use crate::tc_action_messages::{TcActionMessage, TcActionMessageAttribute};
use crate::tc_messages::{TcAttribute, TcMessage};
use crate::tc_options::{TcFilterFlowerOption, TcOption};
use crate::tc_records::{TcHandle, TcHeader};

/// The type of object that a traffic control message is about.
#[derive(Clone, Copy, PartialEq, Eq, Debug, Hash)]
pub enum Object {
    /// A qdisc.
    Qdisc,
    /// A class.
    Class,
    /// A filter.
    Filter,
    /// A chain of filters.
    Chain,
}

impl Object {
    /// The message type of the request that makes one: `RTM_NEWQDISC`, `RTM_NEWTCLASS`, `RTM_NEWTFILTER` or `RTM_NEWCHAIN` of
    /// `linux/rtnetlink.h`.
    #[must_use]
    pub fn new_type(self) -> u16 {
        match self {
            Object::Qdisc => 36,
            Object::Class => 40,
            Object::Filter => 44,
            Object::Chain => 100,
        }
    }
}

/// The message type of the request that makes actions, `RTM_NEWACTION` of `linux/rtnetlink.h`.
pub const RTM_NEWACTION: u16 = 48;

/// The flags of a request that makes a new object and asks for an answer: `NLM_F_REQUEST`, `NLM_F_ACK`, `NLM_F_EXCL` and
/// `NLM_F_CREATE` of `linux/netlink.h`.
pub const NEW_FLAGS: u16 = 0x605;

/// A request: fields of its netlink header, and the message after it.
#[derive(Debug)]
pub struct Request<M> {
    /// The message type (`nlmsg_type`).
    pub message_type: u16,
    /// The flags (`nlmsg_flags`).
    pub flags: u16,
    /// The message.
    pub message: M,
}

/// Makes the request that restores a dumped object. `roots` are the root tables of u32 in all dumps, found by `root_table`. The
/// request has no statistics, times, padding or other attributes that occur only in dumps. `InHw` and `NotInHw` are cleared in a
/// filter's flags, its actions are counted from 1, and the ones that only it holds have index 0. A u32 filter in the root table of
/// its priority has the hash `TC_U32_ROOT`, and a handle without the table's number.
///
/// # Errors
///
/// A [`RestoreError`].
pub fn request_of(roots: &[RootTable], object: Object, dump: TcMessage) -> Result<Request<TcMessage>, RestoreError> {
    let in_root = is_in_root(roots, object, &dump);
    let message = restored(roots, object, dump)?;
    if !message.is_settled() {
        return Err(RestoreError::NotSettled);
    }
    let steady = is_steady(in_root, &message)?;
    if !steady {
        return Err(RestoreError::NotSteady);
    }
    Ok(Request { message_type: object.new_type(), flags: NEW_FLAGS, message })
}

/// Makes the request that restores the standalone actions of a dump. An action that only one filter holds is made with the filter,
/// and left out.
///
/// # Errors
///
/// A [`RestoreError`].
pub fn request_of_actions(dump: TcActionMessage) -> Result<Request<TcActionMessage>, RestoreError> {
    let message = restored_actions(dump)?;
    if !message.is_settled() {
        return Err(RestoreError::NotSettled);
    }
    let steady = are_steady(&message)?;
    if !steady {
        return Err(RestoreError::NotSteady);
    }
    Ok(Request { message_type: RTM_NEWACTION, flags: NEW_FLAGS, message })
}

// True if restoring the request as if it were a dump leads to the same request, or if its kind has times, which change then.
fn is_steady(in_root: bool, request: &TcMessage) -> Result<bool, RestoreError> {
    if has_times(kind_of_message(request)) {
        return Ok(true);
    }
    let copy = fallible::copied(request)?;
    // A clone is equal.
    if copy != *request {
        return Err(RestoreError::OutOfMemory);
    }
    match restored_message(in_root, copy) {
        Ok(again) => Ok(again == *request),
        Err(error) => {
            let is = is_of_request(error)?;
            Ok(is)
        }
    }
}

// True if restoring the request as if it were a dump leads to the same request.
fn are_steady(request: &TcActionMessage) -> Result<bool, RestoreError> {
    let copy = fallible::copied(request)?;
    // A clone is equal.
    if copy != *request {
        return Err(RestoreError::OutOfMemory);
    }
    match restored_actions(copy) {
        Ok(again) => Ok(again == *request),
        Err(error) => {
            let is = is_of_request(error)?;
            Ok(is)
        }
    }
}

// Returns false for an error that is due to the request, and `OutOfMemory` itself.
fn is_of_request(error: RestoreError) -> Result<bool, RestoreError> {
    match error {
        RestoreError::OutOfMemory => Err(RestoreError::OutOfMemory),
        _ => Ok(false),
    }
}

fn has_times(kind: &str) -> bool {
    matches!(kind, "fq_codel" | "codel")
}

/// True if the kernel makes the object itself: a default qdisc, a root class and a class of a kind that makes its classes, a classifier, and
/// a root table of u32.
#[must_use]
pub fn is_made(object: Object, dump: &TcMessage) -> bool {
    match object {
        Object::Qdisc => u32::from(dump.header.handle) == 0,
        Object::Class => dump.header.handle.minor == 0 || !is_own_class(dump),
        Object::Filter => u32::from(dump.header.handle) == 0 || is_root(Object::Filter, dump),
        Object::Chain => false,
    }
}

// True for a flower filter of a terse dump.
fn is_terse(object: Object, dump: &TcMessage) -> bool {
    match object {
        Object::Filter => is_flower(dump) && !any_count(dump),
        _ => false,
    }
}

fn is_flower(dump: &TcMessage) -> bool {
    kind_of_message(dump) == "flower"
}

fn any_count(dump: &TcMessage) -> bool {
    dump.attributes.iter().any(|attribute| has_count(attribute))
}

fn has_count(attribute: &TcAttribute) -> bool {
    match attribute {
        TcAttribute::Options(options) => any_count_among(options),
        _ => false,
    }
}

fn any_count_among(options: &[TcOption]) -> bool {
    for option in options {
        if is_count(option) {
            return true;
        }
    }
    false
}

fn is_count(option: &TcOption) -> bool {
    matches!(option, TcOption::Flower(TcFilterFlowerOption::InHwCount(_)))
}

// True for a class of a qdisc whose classes are made by requests.
fn is_own_class(dump: &TcMessage) -> bool {
    has_own_classes(kind_of_message(dump))
}

/// The one kind that a message sets (`TCA_KIND`), or "".
#[must_use]
pub fn kind_of_message(dump: &TcMessage) -> &str {
    sole_kind(&dump.attributes)
}

// True for the kinds of qdiscs whose classes are made by requests.
fn has_own_classes(kind: &str) -> bool {
    matches!(kind, "htb" | "hfsc" | "drr" | "qfq" | "cbq" | "atm")
}

// Restores a message; fails if the kernel makes the object itself, or if this dump isn't enough to make it.
fn restored(roots: &[RootTable], object: Object, dump: TcMessage) -> Result<TcMessage, RestoreError> {
    if has_two_roots(roots, object, &dump) {
        Err(RestoreError::RootTables)
    } else if is_made(object, &dump) {
        Err(RestoreError::MadeByKernel)
    } else if is_terse(object, &dump) {
        Err(RestoreError::Terse)
    } else if links_to_root(roots, object, &dump) {
        Err(RestoreError::LinkToRoot)
    } else {
        let in_root = is_in_root(roots, object, &dump);
        restored_message(in_root, dump)
    }
}

fn restored_message(in_root: bool, dump: TcMessage) -> Result<TcMessage, RestoreError> {
    let TcMessage { header, attributes } = dump;
    let around = Around { info: header.info, in_root };
    let attributes = restore_own(attributes, around)?;
    if attributes.is_empty() {
        return Err(RestoreError::NothingLeft);
    }
    Ok(TcMessage { header: header_restored(in_root, header), attributes })
}

// The header of a request.
fn header_restored(in_root: bool, header: TcHeader) -> TcHeader {
    TcHeader {
        family: header.family,
        index: header.index,
        handle: handle_restored(in_root, header.handle),
        parent: header.parent,
        info: header.info,
    }
}

fn handle_restored(in_root: bool, handle: TcHandle) -> TcHandle {
    if in_root { TcHandle::from(within_table(u32::from(handle))) } else { handle }
}

fn restored_actions(dump: TcActionMessage) -> Result<TcActionMessage, RestoreError> {
    let TcActionMessage { header, attributes } = dump;
    let attributes = restore_all(attributes, "", NOTHING_AROUND)?;
    if attributes.is_empty() {
        return Err(RestoreError::NothingLeft);
    }
    Ok(TcActionMessage { header, attributes })
}

impl Restore for TcActionMessageAttribute {
    fn restore(
        self,
        _kind: &str,
        _around: Around,
        _types: &[u16],
        _place: usize,
    ) -> Result<Option<TcActionMessageAttribute>, RestoreError> {
        match self {
            TcActionMessageAttribute::Actions(actions) => {
                let actions = standalone_restored(actions)?;
                Ok(Some(TcActionMessageAttribute::Actions(actions)))
            }
            TcActionMessageAttribute::RootCount(_) => Ok(None),
            TcActionMessageAttribute::RootExtWarnMsg(_) => Ok(None),
            attribute => Ok(Some(attribute)),
        }
    }
}

impl Restore for TcAttribute {
    fn restore(
        self,
        kind: &str,
        around: Around,
        _types: &[u16],
        _place: usize,
    ) -> Result<Option<TcAttribute>, RestoreError> {
        match self {
            TcAttribute::Options(options) => {
                let options = restored_options(kind, around, options)?;
                Ok(Some(TcAttribute::Options(options)))
            }
            TcAttribute::OptionsRaw(nla) => {
                let nla = restored_kept(kind, nla)?;
                Ok(Some(TcAttribute::OptionsRaw(nla)))
            }
            TcAttribute::Stats2(stats) => {
                if has_estimator(&stats) {
                    Err(RestoreError::Estimator)
                } else {
                    Ok(None)
                }
            }
            TcAttribute::Stats(_) | TcAttribute::Xstats(_) | TcAttribute::Fcnt(_) | TcAttribute::HwOffload(_) => {
                Ok(None)
            }
            TcAttribute::Stab(bytes) => {
                if lacks_table(&bytes) {
                    Err(RestoreError::SizeTable)
                } else {
                    Ok(Some(TcAttribute::Stab(bytes)))
                }
            }
            TcAttribute::Other(nla) => {
                if is_of(&[9, 16], &nla) {
                    Ok(None)
                } else {
                    Ok(Some(TcAttribute::Other(nla)))
                }
            }
            attribute => Ok(Some(attribute)),
        }
    }
}

// True if a size table has only its parameters, and these have a size.
fn lacks_table(bytes: &[u8]) -> bool {
    bytes.len() == 28 && 0 < bytes[24] as u32 + bytes[25] as u32 + bytes[26] as u32 + bytes[27] as u32
}
