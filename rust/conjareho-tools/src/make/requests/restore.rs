//! The request that restores what a line shows of a dump.

use crate::user::prelude::*;

use crate::make::lines::{NetlinkHeader, packet_at};
use crate::make::messages::{Actual, BuiltMessage, LineError};
use crate::make::requests::complaint::Complaint;
use crate::nla_frames::{Emitable, ParseableBytes};
use crate::restore::{Object, RTM_NEWACTION, Request, RootTable, request_of, request_of_actions};
use crate::tc_action_messages::TcActionMessage;
use crate::tc_capture::MessageType;
use crate::tc_messages::TcMessage;

/// The type of a dumped object.
#[derive(Clone, Copy, PartialEq, Eq)]
pub enum Dump {
    /// A qdisc, a class, a filter or a chain.
    Of(Object),
    /// Actions.
    Actions,
}

// Message types of `linux/rtnetlink.h`. Actions are dumped under the type of the request for them.
const RTM_NEWQDISC: u16 = 36;

const RTM_NEWTCLASS: u16 = 40;

const RTM_NEWTFILTER: u16 = 44;

const RTM_GETACTION: u16 = 50;

const RTM_NEWCHAIN: u16 = 100;

/// Makes of the message of a dump the request that restores it, with the dump's sequence number and time. `roots` are the root
/// tables of u32 that all dumps show.
///
/// # Errors
///
/// A [`Complaint`].
pub fn restored(roots: &[RootTable], made: &BuiltMessage) -> Result<BuiltMessage, Complaint> {
    let dump = dump_of(made.given.kind)?;
    let request = request_for(roots, dump, &made.bytes)?;
    Ok(BuiltMessage {
        given: NetlinkHeader {
            holds: held_by(dump),
            kind: Some(request.message_type),
            flags: request.flags,
            sequence: made.given.sequence,
            port: 0,
            packet: packet_at(made.given.packet.time),
        },
        bytes: request.message,
        settled: Vec::new(),
    })
}

// Which of the two messages the dump is.
fn held_by(dump: Dump) -> MessageType {
    match dump {
        Dump::Of(_) => MessageType::Tc,
        Dump::Actions => MessageType::Action,
    }
}

fn request_for(roots: &[RootTable], dump: Dump, bytes: &[u8]) -> Result<Request<Vec<u8>>, Complaint> {
    match dump {
        Dump::Of(object) => restored_tc(roots, object, bytes),
        Dump::Actions => restored_actions(bytes),
    }
}

/// The type of the object that a message type dumps.
///
/// # Errors
///
/// A [`Complaint`].
pub fn dump_of(kind: Option<u16>) -> Result<Dump, Complaint> {
    match kind {
        Some(number) => match dumped_as(number) {
            Some(dump) => Ok(dump),
            None => Err(no_dump(Actual::Type(number))),
        },
        None => Err(no_dump(Actual::Nothing)),
    }
}

// The type of the object that this message type dumps.
fn dumped_as(kind: u16) -> Option<Dump> {
    match kind {
        RTM_NEWQDISC => Some(Dump::Of(Object::Qdisc)),
        RTM_NEWTCLASS => Some(Dump::Of(Object::Class)),
        RTM_NEWTFILTER => Some(Dump::Of(Object::Filter)),
        RTM_NEWCHAIN => Some(Dump::Of(Object::Chain)),
        RTM_NEWACTION | RTM_GETACTION => Some(Dump::Actions),
        _ => None,
    }
}

// The complaint about a message that is no dump, with the type that was found.
fn no_dump(found: Actual) -> Complaint {
    Complaint::Line(LineError::Member {
        name: "type",
        found,
        wanted: "RTM_NEWQDISC, RTM_NEWTCLASS, RTM_NEWTFILTER, RTM_NEWCHAIN, RTM_NEWACTION or RTM_GETACTION",
    })
}

// The request that restores a qdisc, a class, a filter or a chain.
fn restored_tc(roots: &[RootTable], object: Object, bytes: &[u8]) -> Result<Request<Vec<u8>>, Complaint> {
    let dump = TcMessage::parse(bytes)?;
    let request = request_of(roots, object, dump)?;
    Ok(Request { message_type: request.message_type, flags: request.flags, message: emitted(&request.message)? })
}

// The request that restores actions.
fn restored_actions(bytes: &[u8]) -> Result<Request<Vec<u8>>, Complaint> {
    let dump = TcActionMessage::parse(bytes)?;
    let request = request_of_actions(dump)?;
    Ok(Request { message_type: request.message_type, flags: request.flags, message: emitted(&request.message)? })
}

/// The bytes of a message.
pub(crate) fn emitted<M: Emitable>(message: &M) -> Result<Vec<u8>, Complaint> {
    match message.checked_len() {
        Some(len) => {
            let mut bytes = fallible::filled(0u8, len)?;
            message.emit(&mut bytes);
            Ok(bytes)
        }
        None => Err(Complaint::TooLong),
    }
}
