//! The kernel's present objects, from the lines of a dump.

use crate::user::prelude::*;

use crate::make::lines::NetlinkHeader;
use crate::make::messages::BuiltMessage;
use crate::make::requests::complaint::Complaint;
use crate::make::requests::lines::{Dumped, Lines, Source};
use crate::make::requests::restore::{Dump, dump_of, emitted, restored};
use crate::nla_frames::ParseableBytes;
use crate::plan::restored::{
    Action, Dependencies, Fate, Key, Named, Now, dependencies_of, fate_of_action, held_by, name_of_action,
};
use crate::restore::{Object, RTM_NEWACTION, actions_of_filter, standalone_index, unheld, use_of_action};
use crate::tc_action_messages::{TcActionMessage, TcActionMessageAttribute};
use crate::tc_actions::TcAction;
use crate::tc_capture::MessageType;
use crate::tc_messages::TcMessage;
use crate::tc_records::TcActionMessageHeader;

/// An action of a dump by itself.
pub(crate) struct Single {
    /// Its dump.
    pub(crate) made: BuiltMessage,
    /// Its kind and its index, if it has one.
    pub(crate) name: Option<Named>,
    /// The number of filters that hold it.
    pub(crate) filters: usize,
}

/// A comparison of actions with the kernel's.
#[derive(Clone, Copy, PartialEq, Eq)]
pub(crate) enum Counts {
    /// With their counts, so that a filter's own is one.
    Kept,
    /// As if nothing held them, so that each has a request by itself, with its index.
    Cleared,
}

/// The actions of a dump of actions, each by itself.
pub(crate) fn singles_of(dump: &BuiltMessage, counts: Counts) -> Result<Vec<Single>, Complaint> {
    let TcActionMessage { header, attributes } = TcActionMessage::parse(&dump.bytes)?;
    let mut singles = Vec::new();
    for attribute in attributes {
        if let TcActionMessageAttribute::Actions(actions) = attribute {
            put_singles(&dump.given, &header, actions, counts, &mut singles)?;
        }
    }
    Ok(singles)
}

fn put_singles(
    given: &NetlinkHeader,
    header: &TcActionMessageHeader,
    actions: Vec<TcAction>,
    counts: Counts,
    singles: &mut Vec<Single>,
) -> Result<(), Complaint> {
    for action in actions {
        let single = single_of(given, header, action, counts)?;
        singles.try_push(single)?;
    }
    Ok(())
}

fn single_of(
    given: &NetlinkHeader,
    header: &TcActionMessageHeader,
    action: TcAction,
    counts: Counts,
) -> Result<Single, Complaint> {
    let name = name_of_action(&action);
    let filters = match use_of_action(&action) {
        Some(found) => found.filters as usize,
        None => 0,
    };
    let action = match counts {
        Counts::Kept => action,
        Counts::Cleared => unheld(action)?,
    };
    let mut actions = Vec::new();
    actions.try_push(action)?;
    let mut attributes = Vec::new();
    attributes.try_push(TcActionMessageAttribute::Actions(actions))?;
    let message = TcActionMessage { header: header.clone(), attributes };
    let bytes = emitted(&message)?;
    let made = BuiltMessage {
        given: NetlinkHeader { holds: MessageType::Action, kind: Some(RTM_NEWACTION), ..*given },
        bytes,
        settled: Vec::new(),
    };
    Ok(Single { made, name, filters })
}

/// The kernel's present objects.
pub(crate) fn now_of(lines: &mut Lines) -> Result<Now, AllocError> {
    let mut found = Now { actions: Vec::new(), held: Vec::new() };
    let mut shared = Vec::new();
    let mut wrong = Vec::new();
    for dump in &lines.dumps {
        if let Err(complaint) = keep(dump, &mut found, &mut shared) {
            wrong.try_push((dump.number, complaint))?;
        }
    }
    for (number, complaint) in &wrong {
        lines.fail_with(Source::Now, *number, complaint)?;
    }
    Ok(found)
}

// Keeps what a dump shows.
fn keep(dump: &Dumped, found: &mut Now, shared: &mut Vec<Key>) -> Result<(), Complaint> {
    match dump_of(dump.made.given.kind)? {
        Dump::Actions => keep_actions(&dump.made, found),
        Dump::Of(Object::Filter) => keep_filter(&dump.made.bytes, found, shared),
        Dump::Of(_) => Ok(()),
    }
}

fn keep_actions(dump: &BuiltMessage, found: &mut Now) -> Result<(), Complaint> {
    for single in singles_of(dump, Counts::Cleared)? {
        let Single { made, name, filters } = single;
        if let Some(name) = name {
            let request = request_bytes(&made)?;
            found.actions.try_push(Action { name, request, filters })?;
        }
    }
    Ok(())
}

// The request that makes an action; none of one that can't be made by itself.
fn request_bytes(made: &BuiltMessage) -> Result<Vec<u8>, Complaint> {
    match restored(&[], made) {
        Ok(made) => Ok(made.bytes),
        Err(Complaint::Restore(_)) => Ok(Vec::new()),
        Err(complaint) => Err(complaint),
    }
}

// Keeps the actions that a filter holds. One of a block that interfaces share may be dumped more than once.
fn keep_filter(bytes: &[u8], found: &mut Now, shared: &mut Vec<Key>) -> Result<(), Complaint> {
    let filter = TcMessage::parse(bytes)?;
    if filter.header.index == -1 {
        let dump = dependencies_of(0, Fate::Request, Object::Filter, &[], &filter)?;
        if is_known(shared, &dump) {
            return Ok(());
        }
        shared.try_extend(&dump.objects)?;
    }
    let held = held_by(filter)?;
    found.held.try_extend(&held)?;
    Ok(())
}

/// Why a filter can't be made with the present actions: it shares one that differs, and no dump has that action by itself
/// (`listed` has all that one has), so that no request changes it.
pub(crate) fn unlisted_in(
    now: &Now,
    listed: &[Named],
    given: &NetlinkHeader,
    filter: TcMessage,
) -> Result<Option<Named>, Complaint> {
    let header = TcActionMessageHeader::default();
    for action in actions_of_filter(filter)? {
        if let (Some(_), Some(name)) = (standalone_index(&action), name_of_action(&action)) {
            if !listed.contains(&name) {
                let single = single_of(given, &header, action, Counts::Cleared)?;
                let request = request_bytes(&single.made)?;
                match fate_of_action(now, false, name, &request) {
                    Fate::Change | Fate::Refused(_) => return Ok(Some(name)),
                    _ => {}
                }
            }
        }
    }
    Ok(None)
}

fn is_known(shared: &[Key], filter: &Dependencies) -> bool {
    filter.objects.iter().any(|key| shared.contains(key))
}
