//! The types of objects.

use crate::user::prelude::*;

/// The type of a dumped object.
#[derive(Clone, Copy, PartialEq, Eq, Debug)]
pub enum Sort {
    /// A qdisc.
    Qdisc,
    /// A class.
    Class,
    /// A chain of filters.
    Chain,
    /// A priority of a chain, which has one kind of filters and one protocol.
    Priority,
    /// A filter.
    Filter,
    /// A hash table of u32.
    Table,
    /// An action of this kind, padded with zeros.
    Action([u8; 16]),
    /// A block that interfaces share. No request makes it: it is there as long as a qdisc has it.
    Block,
    /// What the priorities of u32 of a qdisc, or of a block, have in common: the hash tables. It is there as long as one of these is.
    Common,
}
