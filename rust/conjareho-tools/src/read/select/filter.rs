//! Filters of messages.

use super::header::{chain_in, handle_in, interface_in, parent_in, priority_in};
use super::kinds::has_kind;
use super::types::Types;
use crate::tc_capture::{MessageType, Time};

/// A filter of messages. A message matches if it matches each option: if it has one of the option's values, or the
/// option has no values.
#[derive(Clone, Copy)]
pub struct Filter<'a> {
    /// Kinds of the message or of one of its actions.
    pub kinds: &'a [&'a str],
    /// Message types.
    pub types: &'a [Types],
    /// Interface numbers.
    pub interfaces: &'a [u32],
    /// Names of interfaces. An interface with one of the numbers or one of the names matches.
    pub names: &'a [&'a str],
    /// Handles.
    pub handles: &'a [u32],
    /// Parents.
    pub parents: &'a [u32],
    /// Chains.
    pub chains: &'a [u32],
    /// Priorities of filters.
    pub priorities: &'a [u32],
    /// The earliest time of capture.
    pub since: Option<Time>,
    /// The latest time of capture.
    pub until: Option<Time>,
    /// True if only refused messages match.
    pub refused: bool,
}

/// The parts of a message that a filter looks at.
#[derive(Clone, Copy)]
pub struct Message<'a> {
    /// The time of capture.
    pub time: Option<Time>,
    /// `nlmsg_type`. `None` for a message without a netlink header.
    pub rtm: Option<u16>,
    /// The type of message in the payload.
    pub holds: MessageType,
    /// The bytes after the netlink header.
    pub payload: &'a [u8],
    /// The name of its interface, if it is known.
    pub name: Option<&'a str>,
}

impl<'a> Filter<'a> {
    /// A filter that every message matches.
    pub const ALL: Filter<'static> = Filter {
        kinds: &[],
        types: &[],
        interfaces: &[],
        names: &[],
        handles: &[],
        parents: &[],
        chains: &[],
        priorities: &[],
        since: None,
        until: None,
        refused: false,
    };

    /// True if the message matches all options except `refused`.
    #[must_use]
    pub fn matches(&self, message: &Message<'_>) -> bool {
        is_within(self.since, self.until, message.time)
            && self.matches_type(message)
            && self.matches_header(message)
            && self.matches_chain(message)
            && self.matches_kind(message)
    }

    /// True if a message with this verdict matches the option `refused`.
    #[must_use]
    pub fn matches_verdict(&self, refused: bool) -> bool {
        !self.refused || refused
    }

    fn matches_kind(&self, message: &Message<'_>) -> bool {
        self.kinds.is_empty() || has_kind(self.kinds, message.holds, message.payload)
    }

    fn matches_type(&self, message: &Message<'_>) -> bool {
        let is_in = |rtm| self.types.iter().any(|range| (range.first..=range.last).contains(&rtm));
        self.types.is_empty() || message.rtm.is_some_and(is_in)
    }

    fn matches_interface(&self, message: &Message<'_>) -> bool {
        (self.interfaces.is_empty() && self.names.is_empty())
            || is_among(self.interfaces, interface_in(message.holds, message.payload))
            || message.name.is_some_and(|name| self.names.contains(&name))
    }

    fn matches_header(&self, message: &Message<'_>) -> bool {
        let (holds, payload) = (message.holds, message.payload);
        self.matches_interface(message)
            && allows(self.handles, handle_in(holds, payload))
            && allows(self.parents, parent_in(holds, payload))
    }

    fn matches_chain(&self, message: &Message<'_>) -> bool {
        let (rtm, holds, payload) = (message.rtm, message.holds, message.payload);
        (self.chains.is_empty() || is_among(self.chains, chain_in(rtm, holds, payload)))
            && allows(self.priorities, priority_in(rtm, holds, payload))
    }
}

// True if there are no values, or one of them is the number.
fn allows(values: &[u32], number: Option<u32>) -> bool {
    values.is_empty() || is_among(values, number)
}

// True if one of the values is the number.
fn is_among(values: &[u32], number: Option<u32>) -> bool {
    number.is_some_and(|number| values.contains(&number))
}

// True if a time is in a span. One that isn't known is in the span without ends alone.
fn is_within(since: Option<Time>, until: Option<Time>, time: Option<Time>) -> bool {
    let Some(time) = time.map(nanoseconds) else {
        return since.is_none() && until.is_none();
    };
    since.is_none_or(|first| nanoseconds(first) <= time) && until.is_none_or(|last| time <= nanoseconds(last))
}

fn nanoseconds(time: Time) -> u128 {
    u128::from(time.seconds).saturating_mul(1_000_000_000).saturating_add(u128::from(time.nanoseconds))
}
