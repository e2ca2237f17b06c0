//! What a message does, and who says so.

use crate::user::prelude::*;

use crate::show::brief::Object;
use crate::show::columns::Root;
use crate::show::json::{Message, NetlinkHeader, Origin};
use crate::show::lines::past::{Request, Requests, get_of, has_flag, is_request, modifiers, was_sent};

// `NLM_F_MULTI` (`linux/netlink.h`).
const NLM_F_MULTI: u16 = 2;

/// What a message does: a request by iproute2's flags for its object, or what the kernel says.
#[derive(Clone, Copy, PartialEq, Eq, Debug)]
pub(crate) enum Verb {
    Add,
    Replace,
    Change,
    Del,
    /// Deletes all actions of a kind.
    Flush,
    Get,
    Dump,
    /// Another request, with these `nlmsg_flags`.
    Send(u16),
    /// The object as it is: a dump, or the answer to a get.
    Is,
    New,
    Gone,
    /// Of a message without a netlink header.
    Unsaid,
}

/// What a message does, and the port id of a notification. 0 for none.
#[derive(Clone, Copy)]
pub(crate) struct Speech {
    pub verb: Verb,
    pub port: u32,
}

/// The object of messages of this root.
pub(crate) fn object_in(root: Root) -> Object {
    match root {
        Root::Qdisc => Object::Qdisc,
        Root::Class => Object::Class,
        Root::Filter | Root::U32Filter => Object::Filter,
        Root::Chain => Object::Chain,
        Root::Action | Root::Flush => Object::Action,
    }
}

fn is_new(kind: u16) -> bool {
    kind % 4 == 0
}

fn is_del(kind: u16) -> bool {
    kind % 4 == 1
}

fn changes(object: Object) -> bool {
    matches!(object, Object::Qdisc | Object::Class | Object::Filter)
}

fn replaces(object: Object, modifiers: u16) -> bool {
    match object {
        Object::Qdisc | Object::Action => modifiers == 5,
        Object::Chain => false,
        Object::Class | Object::Filter => modifiers == 4,
    }
}

fn new_verb(object: Object, flags: u16) -> Verb {
    let of_type = modifiers(flags);
    if of_type == 6 {
        return Verb::Add;
    }
    if replaces(object, of_type) {
        return Verb::Replace;
    }
    if of_type == 0 && changes(object) { Verb::Change } else { Verb::Send(flags) }
}

fn flushes(object: Object, modifiers: u16) -> bool {
    match object {
        Object::Action => modifiers == 1,
        _ => false,
    }
}

fn del_verb(object: Object, flags: u16) -> Verb {
    if modifiers(flags) == 0 {
        Verb::Del
    } else if flushes(object, modifiers(flags)) {
        Verb::Flush
    } else {
        Verb::Send(flags)
    }
}

fn get_verb(flags: u16) -> Verb {
    if modifiers(flags) == 0 {
        Verb::Get
    } else if modifiers(flags) == 3 {
        Verb::Dump
    } else {
        Verb::Send(flags)
    }
}

// What a request of this type with these flags does.
fn request_verb(object: Object, header: &NetlinkHeader) -> Verb {
    if is_new(header.kind) {
        new_verb(object, header.flags)
    } else if is_del(header.kind) {
        del_verb(object, header.flags)
    } else {
        get_verb(header.flags)
    }
}

fn kernels_verb(before: &[Request], header: &NetlinkHeader) -> Verb {
    if is_del(header.kind) {
        return Verb::Gone;
    }
    if is_new(header.kind)
        && !(has_flag(header.flags, NLM_F_MULTI) || was_sent(before, get_of(header.kind), false, header))
    {
        Verb::New
    } else {
        Verb::Is
    }
}

fn port_of(verb: Verb, port: u32) -> u32 {
    match verb {
        Verb::New | Verb::Gone => port,
        _ => 0,
    }
}

fn speech_by(past: &Requests, origin: &Origin, object: Object, header: &NetlinkHeader) -> Speech {
    if is_request(past, origin, header) {
        return Speech { verb: request_verb(object, header), port: 0 };
    }
    let verb = kernels_verb(past.requests.as_slice(), header);
    Speech { verb, port: port_of(verb, header.port) }
}

/// What a message that is a request does.
pub(crate) fn asked_verb(object: Object, header: &Option<NetlinkHeader>) -> Verb {
    match header {
        Some(header) => request_verb(object, header),
        None => Verb::Unsaid,
    }
}

/// What a message does, after these messages. Without a netlink header nobody says it.
pub(crate) fn speech_of(past: &Requests, found: &Message<'_>) -> Speech {
    match &found.header {
        Some(header) => speech_by(past, &found.origin, object_in(found.root()), header),
        None => Speech { verb: Verb::Unsaid, port: 0 },
    }
}
