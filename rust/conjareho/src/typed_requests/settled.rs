//! Checks that options and actions read back as themselves.

use crate::fallible::prelude::*;

use crate::nla_frames::Settle;
use crate::typed_requests::error::RequestError;
use crate::typed_requests::kinds::OptionOf;

// Finds the first element that isn't settled under this kind.
pub(crate) fn first_unsettled<T: Settle>(items: &[T], kind: &str) -> Option<usize> {
    for (place, item) in items.iter().enumerate() {
        if !item.is_settled_under(kind) {
            return Some(place);
        }
    }
    None
}

// Wraps options in the variants of their kind; fails if one isn't settled under it.
pub(crate) fn settled_options<T: Settle, O: OptionOf<T>>(kind: &str, options: Vec<O>) -> Result<Vec<T>, RequestError> {
    let made = converted(options)?;
    match first_unsettled(&made, kind) {
        Some(place) => Err(RequestError::NotSettled { place }),
        None => Ok(made),
    }
}

// Wraps options in the variants of their kind.
fn converted<T: Settle, O: OptionOf<T>>(options: Vec<O>) -> Result<Vec<T>, RequestError> {
    let mut made = fallible::with_capacity(options.len())?;
    for option in options {
        made.try_push(option.into_option())?;
    }
    Ok(made)
}
