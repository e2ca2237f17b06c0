//! Root tables of u32, which the kernel makes and numbers.

use crate::fallible::prelude::*;

use crate::restore::restore_messages::{Object, kind_of_message};
use crate::tc_messages::{TcAttribute, TcMessage};
use crate::tc_options::{TcFilterU32Option, TcOption};
use crate::tc_texts::info_priority;

/// A root table of u32 in a dump: the table of a block, a chain and a priority that has a number of 0x800 or above and one bucket.
#[derive(Clone, Copy, PartialEq, Eq, Debug, Hash)]
pub struct RootTable {
    /// The index of the interface. -1 if interfaces share the block.
    pub index: i32,
    /// The parent, or the number of the shared block.
    pub parent: u32,
    /// The number of the chain.
    pub chain: u32,
    /// The priority.
    pub priority: u16,
    /// The table's number, the upper 12 bits of its handle.
    pub number: u32,
}

/// The root table that a dump shows, if any.
#[must_use]
pub fn root_table(object: Object, dump: &TcMessage) -> Option<RootTable> {
    if is_root(object, dump) { Some(root_of(dump)) } else { None }
}

/// The number of the chain that a message names first. 0 if it names no chain.
#[must_use]
pub fn chain_number(attributes: &[TcAttribute]) -> u32 {
    for attribute in attributes {
        if let TcAttribute::Chain(number) = attribute {
            return *number;
        }
    }
    0
}

// The number of the table in a handle.
fn table_number(handle: u32) -> u32 {
    handle / 0x10_0000
}

/// The lower 20 bits of a handle of u32: bucket and key, or 0 for the table itself.
#[must_use]
pub fn within_table(handle: u32) -> u32 {
    handle % 0x10_0000
}

// The block, the chain and the priority of a message, and the number of its table.
fn root_of(dump: &TcMessage) -> RootTable {
    let header = &dump.header;
    RootTable {
        index: header.index,
        parent: u32::from(header.parent),
        chain: chain_number(&dump.attributes),
        priority: info_priority(header.info),
        number: table_number(u32::from(header.handle)),
    }
}

// True for a filter or a table of u32.
fn is_u32(object: Object, dump: &TcMessage) -> bool {
    match object {
        Object::Filter => u32::from(dump.header.handle) != 0 && is_kind_u32(dump),
        _ => false,
    }
}

fn is_kind_u32(dump: &TcMessage) -> bool {
    kind_of_message(dump) == "u32"
}

// True for a root table.
pub(crate) fn is_root(object: Object, dump: &TcMessage) -> bool {
    let handle = u32::from(dump.header.handle);
    is_u32(object, dump) && table_number(handle) >= 0x800 && within_table(handle) == 0 && any_single(dump)
}

fn any_single(dump: &TcMessage) -> bool {
    dump.attributes.iter().any(|attribute| has_single(attribute))
}

fn has_single(attribute: &TcAttribute) -> bool {
    match attribute {
        TcAttribute::Options(options) => any_single_among(options),
        _ => false,
    }
}

fn any_single_among(options: &[TcOption]) -> bool {
    for option in options {
        if is_single(option) {
            return true;
        }
    }
    false
}

// True for a divisor of 1.
fn is_single(option: &TcOption) -> bool {
    match option {
        TcOption::U32(TcFilterU32Option::Divisor(n)) => *n == 1,
        _ => false,
    }
}

fn is_of_block(table: RootTable, root: &RootTable) -> bool {
    root.index == table.index && root.parent == table.parent
}

fn is_of_priority(table: RootTable, root: &RootTable) -> bool {
    is_of_block(table, root) && root.chain == table.chain && root.priority == table.priority
}

fn is_that(table: RootTable, root: &RootTable) -> bool {
    is_of_priority(table, root) && root.number == table.number
}

fn is_another(table: RootTable, root: &RootTable) -> bool {
    is_of_priority(table, root) && root.number != table.number
}

/// True for a u32 filter in one of these root tables, and for such a table itself.
#[must_use]
pub fn is_at_root(roots: &[RootTable], object: Object, dump: &TcMessage) -> bool {
    let table = root_of(dump);
    is_u32(object, dump) && has_that(roots, table)
}

fn has_that(roots: &[RootTable], table: RootTable) -> bool {
    roots.iter().any(|root| is_that(table, root))
}

fn has_another(roots: &[RootTable], table: RootTable) -> bool {
    roots.iter().any(|root| is_another(table, root))
}

// True for a filter in a root table.
pub(crate) fn is_in_root(roots: &[RootTable], object: Object, dump: &TcMessage) -> bool {
    is_at_root(roots, object, dump) && within_table(u32::from(dump.header.handle)) != 0
}

/// True for a u32 filter in one of these root tables, and for such a table itself, if there is another one of the same priority.
#[must_use]
pub fn has_two_roots(roots: &[RootTable], object: Object, dump: &TcMessage) -> bool {
    let table = root_of(dump);
    is_at_root(roots, object, dump) && has_another(roots, table)
}

// True for a filter that links to a root table.
pub(crate) fn links_to_root(roots: &[RootTable], object: Object, dump: &TcMessage) -> bool {
    let table = root_of(dump);
    is_u32(object, dump) && any_root_link(roots, table, dump)
}

fn any_root_link(roots: &[RootTable], table: RootTable, dump: &TcMessage) -> bool {
    dump.attributes.iter().any(|attribute| has_root_link(roots, table, attribute))
}

fn has_root_link(roots: &[RootTable], table: RootTable, attribute: &TcAttribute) -> bool {
    match attribute {
        TcAttribute::Options(options) => any_root_link_among(roots, table, options),
        _ => false,
    }
}

fn any_root_link_among(roots: &[RootTable], table: RootTable, options: &[TcOption]) -> bool {
    for option in options {
        if is_root_link(roots, table, option) {
            return true;
        }
    }
    false
}

fn is_root_link(roots: &[RootTable], table: RootTable, option: &TcOption) -> bool {
    match option {
        TcOption::U32(TcFilterU32Option::Link(n)) => has_linked(roots, *n, table),
        _ => false,
    }
}

fn has_linked(roots: &[RootTable], link: u32, table: RootTable) -> bool {
    roots.iter().any(|root| is_linked(link, table, root))
}

fn is_linked(link: u32, table: RootTable, root: &RootTable) -> bool {
    is_of_block(table, root) && root.number == table_number(link)
}
