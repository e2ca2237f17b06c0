//! Restoring lists of parts of a dump.

use crate::fallible::prelude::*;

use crate::nla_frames::{DefaultNla, NLA_TYPE_MASK, Nla, OnlyKind, SetsKind, only_kind_set};
use crate::restore::restore_error::RestoreError;

// The context of an option of a message.
#[derive(Clone, Copy)]
pub(crate) struct Around {
    // The word `info` of the message's header: priority and protocol of a filter.
    pub(crate) info: u32,
    // True for a u32 filter in the root table of its priority.
    pub(crate) in_root: bool,
}

// The context of actions, which don't depend on it.
pub(crate) const NOTHING_AROUND: Around = Around { info: 0, in_root: false };

// A part of a dump that can be turned into the part of a request.
pub(crate) trait Restore: Sized {
    // Turns the part at `place` of its list, counted from 1, into the part of a request; `None` leaves it out. `kind` is the kind
    // that the list sets, or "". Options of actions with one of `types` are left out.
    fn restore(self, kind: &str, around: Around, types: &[u16], place: usize) -> Result<Option<Self>, RestoreError>;
}

// Restores all parts of a list.
pub(crate) fn restore_all<T: Restore>(items: Vec<T>, kind: &str, around: Around) -> Result<Vec<T>, RestoreError> {
    restore_after(Vec::new(), items, kind, around, &[])
}

// Restores all parts of a list but those of `types`, and appends them to `front`.
pub(crate) fn restore_after<T: Restore>(
    front: Vec<T>,
    items: Vec<T>,
    kind: &str,
    around: Around,
    types: &[u16],
) -> Result<Vec<T>, RestoreError> {
    let mut made = front;
    made.try_grow(items.len())?;
    let mut place = 0;
    for item in items {
        place += 1;
        match item.restore(kind, around, types, place)? {
            Some(one) => made.try_push(one)?,
            None => {}
        }
    }
    Ok(made)
}

// Restores all parts of a list, under the kind that it sets itself.
pub(crate) fn restore_own<T: Restore + SetsKind>(items: Vec<T>, around: Around) -> Result<Vec<T>, RestoreError> {
    // The kind is copied, since the list that has it is consumed.
    let kind = fallible::text(sole_kind(&items))?;
    restore_all(items, kind.as_str(), around)
}

// The one kind that a list sets, or "".
pub(crate) fn sole_kind<T: SetsKind>(items: &[T]) -> &str {
    match only_kind_set(items) {
        OnlyKind::One(kind) => kind,
        OnlyKind::Missing => "",
        OnlyKind::Several => "",
    }
}

// True if a raw attribute has one of these types.
pub(crate) fn is_of(types: &[u16], nla: &DefaultNla) -> bool {
    let kind = nla.kind() & NLA_TYPE_MASK;
    types.contains(&kind)
}
