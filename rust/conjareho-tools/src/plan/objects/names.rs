//! The objects that handles name.

use crate::user::prelude::*;

use crate::plan::configs::Sort;
use crate::plan::objects::dumped_object::DumpedObject;
use crate::tc_changes::Key;
use std::collections::HashMap;

/// The objects of a state by key: the qdisc or class of each handle, under a class's key, and each chain.
pub type Names = HashMap<Key, Key>;

/// The names of what dumps show.
///
/// # Errors
///
/// A [`AllocError`].
pub fn names_of(shown: &[DumpedObject]) -> Result<Names, AllocError> {
    let mut names = HashMap::new();
    for one in shown {
        names = with_name(names, one)?;
    }
    Ok(names)
}

// The names, and that of one more object.
fn with_name(names: Names, shown: &DumpedObject) -> Result<Names, AllocError> {
    let mut names = names;
    if let Some((name, key)) = named(shown) {
        names.insert(name, key);
    }
    Ok(names)
}

// The name of an object, and its key: none of a qdisc without a handle, which has nothing under it, or of a filter.
fn named(shown: &DumpedObject) -> Option<(Key, Key)> {
    let DumpedObject { index, handle, parent, chain, .. } = *shown;
    let by_handle = Key::Class { index, handle };
    match shown.sort {
        Sort::Qdisc => {
            if handle == 0 {
                None
            } else {
                Some((by_handle, Key::Place { index, parent }))
            }
        }
        Sort::Class => Some((by_handle, by_handle)),
        Sort::Chain => {
            let key = Key::Chain { index, parent, number: chain };
            Some((key, key))
        }
        Sort::Priority | Sort::Filter | Sort::Table | Sort::Action(_) | Sort::Block | Sort::Common => None,
    }
}
