//! Priorities without filters. A kernel lists such a priority as a filter whose handle is 0.

use crate::user::prelude::*;

use crate::tc_changes::{Key, Object};
use std::collections::HashSet;

type Keys = HashSet<Key>;

/// The priorities that have a filter in one of two states.
pub(crate) fn with_filters(before: &[Object], after: &[Object]) -> Result<Keys, AllocError> {
    let mut keys = HashSet::new();
    put_priorities(before, &mut keys)?;
    put_priorities(after, &mut keys)?;
    Ok(keys)
}

fn put_priorities(objects: &[Object], keys: &mut Keys) -> Result<(), AllocError> {
    for object in objects {
        for key in &object.under {
            if let Key::Priority { .. } = key {
                keys.insert(*key);
            }
        }
    }
    Ok(())
}

// The attributes' types (`linux/rtnetlink.h`).
const TCA_KIND: u16 = 1;

const TCA_CHAIN: u16 = 11;

/// A priority without filters as a kernel lists it. Its configuration is the word of the protocol and the kind.
pub(crate) fn filter_of_priority(key: Key, config: &[u8]) -> Result<Vec<u8>, AllocError> {
    let mut message = Vec::new();
    if let (Key::Priority { index, parent, number, priority }, Some((protocol, kind))) =
        (key, config.split_at_checked(4))
    {
        message.try_extend(&[0; 4])?;
        message.try_extend(&index.to_le_bytes())?;
        message.try_extend(&[0; 4])?;
        message.try_extend(&parent.to_le_bytes())?;
        message.try_extend(protocol.get(..2).unwrap_or(&[]))?;
        message.try_extend(&priority.to_le_bytes()[..2])?;
        let mut text = fallible::copy(kind)?;
        text.try_push(0)?;
        put_attribute(&mut message, TCA_KIND, &text)?;
        if number != 0 {
            put_attribute(&mut message, TCA_CHAIN, &number.to_le_bytes())?;
        }
    }
    Ok(message)
}

// Appends an attribute. A value of 64 KiB has none.
fn put_attribute(message: &mut Vec<u8>, kind: u16, value: &[u8]) -> Result<(), AllocError> {
    let Ok(length) = u16::try_from(value.len().saturating_add(4)) else {
        return Ok(());
    };
    let padding: &[u8] = match value.len() % 4 {
        0 => &[],
        1 => &[0, 0, 0],
        2 => &[0, 0],
        _ => &[0],
    };
    message.try_extend(&length.to_le_bytes())?;
    message.try_extend(&kind.to_le_bytes())?;
    message.try_extend(value)?;
    message.try_extend(padding)
}
