//! What a request does.

use crate::constants::{
    NLM_F_ACK, NLM_F_CREATE, NLM_F_DUMP, NLM_F_ECHO, NLM_F_EXCL, NLM_F_REPLACE, NLM_F_REQUEST, RTM_NEWACTION,
};
use crate::requests::Object;

/// What a request does. Type and flags of the request are those that iproute2 6.1 sends.
#[derive(Clone, Copy, PartialEq, Eq, Hash, PartialOrd, Ord, Debug)]
pub enum Verb {
    /// Makes what isn't there.
    Add,
    /// Makes what isn't there, or replaces what is.
    Replace,
    /// Changes what is there. Of actions: the same as `Replace`.
    Change,
    /// Deletes what is there.
    Delete,
    /// Asks for one.
    Get,
    /// Asks for all: the classes, filters and chains of the interface that the request names, and the qdiscs of every interface.
    Dump,
}

impl Verb {
    /// `nlmsg_type` of the request for an object.
    #[must_use]
    pub fn message_type(self, object: Object) -> u16 {
        object.new_type() + self.offset()
    }

    /// `nlmsg_type` of the request for actions.
    #[must_use]
    pub const fn action_type(self) -> u16 {
        RTM_NEWACTION + self.offset()
    }

    /// `nlmsg_flags` of the request for an object.
    #[must_use]
    pub fn flags(self, object: Object) -> u16 {
        match (self, object) {
            // tc leaves out NLM_F_REPLACE for all but qdiscs.
            (Verb::Replace, Object::Class | Object::Filter | Object::Chain) => NLM_F_REQUEST | NLM_F_ACK | NLM_F_CREATE,
            (Verb::Replace, Object::Qdisc) => NLM_F_REQUEST | NLM_F_ACK | NLM_F_CREATE | NLM_F_REPLACE,
            (Verb::Change, _) => NLM_F_REQUEST | NLM_F_ACK,
            // Without NLM_F_ECHO the kernel sends the answer to listeners only.
            (Verb::Get, _) => NLM_F_REQUEST | NLM_F_ECHO,
            (Verb::Add | Verb::Delete | Verb::Dump, _) => self.action_flags(),
        }
    }

    /// `nlmsg_flags` of the request for actions.
    #[must_use]
    pub const fn action_flags(self) -> u16 {
        match self {
            Verb::Add => NLM_F_REQUEST | NLM_F_ACK | NLM_F_CREATE | NLM_F_EXCL,
            Verb::Replace | Verb::Change => NLM_F_REQUEST | NLM_F_ACK | NLM_F_CREATE | NLM_F_REPLACE,
            Verb::Delete => NLM_F_REQUEST | NLM_F_ACK,
            Verb::Get => NLM_F_REQUEST,
            Verb::Dump => NLM_F_REQUEST | NLM_F_DUMP,
        }
    }

    /// The distance of the type from the one that makes something.
    const fn offset(self) -> u16 {
        match self {
            Verb::Add | Verb::Replace | Verb::Change => 0,
            Verb::Delete => 1,
            Verb::Get | Verb::Dump => 2,
        }
    }
}
