//! Objects as dumps show them.

use crate::user::prelude::*;

use crate::plan::configs::Sort;
use crate::tc_changes::Key;

/// An object as its dump shows it: itself, and the numbers by which it names others.
#[derive(Debug)]
pub struct DumpedObject {
    pub sort: Sort,
    /// The interface (`tcm_ifindex`), or -1 in a block that interfaces share.
    pub index: i32,
    /// The handle (`tcm_handle`), or the index of an action.
    pub handle: u32,
    /// The parent (`tcm_parent`), or the number of the block.
    pub parent: u32,
    /// The number of a chain, or of a filter's chain (`TCA_CHAIN`).
    pub chain: u32,
    /// The priority of a filter (the upper half of `tcm_info`).
    pub priority: u32,
    /// Handles of the classes that a filter names.
    pub classes: Vec<u32>,
    /// Other objects that it refers to: a filter to actions that it shares and to hash tables of u32, a qdisc to its blocks, a priority of u32 to what it has in
    /// common with others.
    pub others: Vec<Key>,
    /// The bytes of its configuration.
    pub config: Vec<u8>,
}
