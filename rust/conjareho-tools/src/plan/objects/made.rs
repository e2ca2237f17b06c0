//! Objects that the kernel makes itself, and the handles of the others in their requests: as `tc_restore` refuses and makes them.

use crate::user::prelude::*;

use crate::restore::{Object, RootTable, has_two_roots, is_at_root, is_made, within_table};
use crate::tc_messages::TcMessage;

/// True if the kernel makes the object itself.
pub(crate) fn is_by_kernel(roots: &[RootTable], object: Object, dump: &TcMessage) -> bool {
    !has_two_roots(roots, object, dump) && is_made(object, dump)
}

/// The handle that names an object: the one in its request.
pub(crate) fn handle_named(roots: &[RootTable], object: Object, dump: &TcMessage) -> u32 {
    let handle = u32::from(dump.header.handle);
    if is_in_own_root(roots, object, dump) { within_table(handle) } else { handle }
}

// True for a filter in the root table of its priority.
fn is_in_own_root(roots: &[RootTable], object: Object, dump: &TcMessage) -> bool {
    is_at_root(roots, object, dump) && !has_two_roots(roots, object, dump)
}
