//! Builders of requests.

use crate::fallible::prelude::*;

use crate::nla_frames::{AddressFamily, DefaultNla};
use crate::tc_action_messages::{TcActionMessage, TcActionMessageAttribute};
use crate::tc_actions::{TcAction, TcActionAttribute, TcActionMirror, TcActionNat, TcActionOption, TcActionTunnelKey};
use crate::tc_messages::{TcAttribute, TcMessage};
use crate::tc_options::TcOption;
use crate::tc_records::{TcActionMessageHeader, TcHeader};
use crate::tc_texts::filter_info;
use crate::typed_requests::error::RequestError;
use crate::typed_requests::kinds::{ActionKindOption, FilterOption, OptionOf, QdiscOption, TcKindOption};
use crate::typed_requests::places::{doubled, doubled_in};
use crate::typed_requests::settled::{first_unsettled, settled_options};
use crate::typed_requests::target::Target;

/// Builds a request about a qdisc with options of one kind. Fails if an option isn't settled.
///
/// # Errors
///
/// A [`RequestError`].
pub fn qdisc<O: QdiscOption>(target: &Target, options: Vec<O>) -> Result<TcMessage, RequestError> {
    message(target.header(0), None, options)
}

/// Builds a request about a filter with a priority, a protocol (an EtherType), a chain if one is given, and options of one kind.
/// Fails if an option isn't settled, or if two actions of an option have the same order number.
///
/// # Errors
///
/// A [`RequestError`].
pub fn filter<O: FilterOption>(
    target: &Target,
    priority: u16,
    protocol: u16,
    chain: Option<u32>,
    options: Vec<O>,
) -> Result<TcMessage, RequestError> {
    message(target.header(filter_info(priority, protocol)), chain, options)
}

// Builds a message from a header, a chain if one is given, and options of one kind.
fn message<O: TcKindOption>(header: TcHeader, chain: Option<u32>, options: Vec<O>) -> Result<TcMessage, RequestError> {
    let options = settled_options(O::kind(), options)?;
    if let Some(place) = doubled_in(&options) {
        return Err(RequestError::SamePlace(place));
    }
    let attributes = parts(O::kind(), chain, options)?;
    Ok(sealed(TcMessage { header, attributes }))
}

// The attributes of a message: the kind, the chain if one is given, and the options.
fn parts(kind: &str, chain: Option<u32>, options: Vec<TcOption>) -> Result<Vec<TcAttribute>, RequestError> {
    let kind = TcAttribute::Kind(fallible::text(kind)?);
    let options = TcAttribute::Options(options);
    let mut made = fallible::with_capacity(3)?;
    made.try_push(kind)?;
    match chain {
        None => {
            made.try_push(options)?;
            Ok(made)
        }
        Some(chain) => {
            made.try_push(TcAttribute::Chain(chain))?;
            made.try_push(options)?;
            Ok(made)
        }
    }
}

// Returns a settled message; the contract of the test says that its bytes are canonical.
fn sealed(message: TcMessage) -> TcMessage {
    message.is_settled();
    message
}

/// Builds a request about a qdisc without options: of a kind that has none, such as `clsact`, or of any kind with its defaults.
///
/// # Errors
///
/// A [`RequestError`].
pub fn plain_qdisc(target: &Target, kind: &str) -> Result<TcMessage, RequestError> {
    let kind = TcAttribute::Kind(fallible::text(kind)?);
    let mut attributes = fallible::with_capacity(1)?;
    attributes.try_push(kind)?;
    Ok(sealed(TcMessage { header: target.header(0), attributes }))
}

/// Builds a request about a chain of filters.
///
/// # Errors
///
/// A [`RequestError`].
pub fn chain(target: &Target, number: u32) -> Result<TcMessage, RequestError> {
    let mut attributes = fallible::with_capacity(1)?;
    attributes.try_push(TcAttribute::Chain(number))?;
    Ok(sealed(TcMessage { header: target.header(0), attributes }))
}

/// Builds an action with this order number in its list, counted from 1, and options of one kind. Fails if the number is 0 or an
/// option isn't settled.
///
/// # Errors
///
/// A [`RequestError`].
pub fn action<O: ActionKindOption>(place: u16, options: Vec<O>) -> Result<TcAction, RequestError> {
    action_of(place, O::kind(), options)
}

/// Builds an action of a kind whose options have no types here, such as `gact`, from raw options, with this order number in its
/// list, counted from 1. Fails if the number is 0, an option isn't settled, or the kind's options have types (`mirred`, `nat`,
/// `tunnel_key`).
///
/// # Errors
///
/// A [`RequestError`].
pub fn raw_action(place: u16, kind: &str, options: Vec<DefaultNla>) -> Result<TcAction, RequestError> {
    let made = action_of(place, kind, options)?;
    if is_known_kind(kind) {
        return Err(RequestError::KnownKind);
    }
    Ok(made)
}

// True if options of this kind of action have types here.
fn is_known_kind(kind: &str) -> bool {
    kind == TcActionMirror::KIND || kind == TcActionNat::KIND || kind == TcActionTunnelKey::KIND
}

// Builds an action from a kind and options, which must be settled under it.
fn action_of<O: OptionOf<TcActionOption>>(place: u16, kind: &str, options: Vec<O>) -> Result<TcAction, RequestError> {
    if place == 0 {
        return Err(RequestError::NoPlace);
    }
    let options = settled_options(kind, options)?;
    let kind = TcActionAttribute::Kind(fallible::text(kind)?);
    let mut attributes = fallible::with_capacity(2)?;
    attributes.try_push(kind)?;
    attributes.try_push(TcActionAttribute::Options(options))?;
    Ok(TcAction { tab: place, attributes })
}

/// Builds a request about these actions, whose types `tab` are their order numbers, counted from 1. Fails if an action isn't
/// settled, or if two have the same number.
///
/// # Errors
///
/// A [`RequestError`].
pub fn action_message(actions: Vec<TcAction>) -> Result<TcActionMessage, RequestError> {
    match first_unsettled(&actions, "") {
        Some(place) => Err(RequestError::NotSettled { place }),
        None => message_of_distinct(actions),
    }
}

// Builds a message from settled actions; fails if two have the same order number.
fn message_of_distinct(actions: Vec<TcAction>) -> Result<TcActionMessage, RequestError> {
    match doubled(&actions) {
        Some(place) => Err(RequestError::SamePlace(place)),
        None => message_of_actions(actions),
    }
}

// Builds a message from settled actions.
fn message_of_actions(actions: Vec<TcAction>) -> Result<TcActionMessage, RequestError> {
    let mut attributes = fallible::with_capacity(1)?;
    attributes.try_push(TcActionMessageAttribute::Actions(actions))?;
    let header = TcActionMessageHeader { family: AddressFamily::Unspec };
    Ok(sealed_actions(TcActionMessage { header, attributes }))
}

// Returns a settled action message; the contract of the test says that its bytes are canonical.
fn sealed_actions(message: TcActionMessage) -> TcActionMessage {
    message.is_settled();
    message
}
