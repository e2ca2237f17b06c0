//! Keys of the objects that requests provide and need.

use crate::user::prelude::*;

/// An object that a request provides or needs.
#[derive(Clone, Copy, PartialEq, Eq, Hash, Debug)]
pub enum Key {
    /// All standalone actions. A filter may share one by its index.
    Actions,
    /// An action: its kind, padded with zeros, and its index in that kind.
    Action { kind: [u8; 16], index: u32 },
    /// A qdisc or a class of an interface, and the number of its handle.
    Node { index: i32, handle: u32 },
    /// The clsact qdisc of an interface.
    Clsact { index: i32 },
    /// A block that interfaces share, and its number.
    Block { number: u32 },
    /// A chain of filters under this parent.
    Chain { index: i32, parent: u32, number: u32 },
    /// A filter in this chain.
    InChain { index: i32, parent: u32, number: u32 },
    /// A hash table of u32 below this qdisc, or in this shared block. Its number is the upper 12 bits of its handle.
    Table { index: i32, parent: u32, number: u32 },
    /// A filter of a chain: its handle, and the word of its priority and its protocol.
    Filter { index: i32, parent: u32, number: u32, handle: u32, info: u32 },
}

impl Key {
    /// True if it is in a shared block, which each of its interfaces dumps.
    pub(crate) fn is_shared(&self) -> bool {
        match self {
            Key::Filter { index, .. } | Key::Chain { index, .. } => *index == -1,
            _ => false,
        }
    }
}
