//! The first fault of a message in its line.

use crate::user::prelude::*;

use crate::paths::Path;
use crate::show::json::message::Message;
use crate::tc_faults::Fault;

/// The offset and the pointer of a message's first fault.
pub(crate) struct Place {
    pub(crate) offset: usize,
    pub(crate) pointer: String,
}

/// The place of a message's first fault; 0 and an empty text if it has none.
pub(crate) fn place_of_fault(found: &Message<'_>) -> Result<Place, AllocError> {
    let fault = found.first_fault();
    let pointer = pointer_of(found, &fault)?;
    Ok(Place { offset: offset_of(&fault), pointer })
}

fn offset_of(fault: &Option<Fault>) -> usize {
    match fault {
        Some(fault) => fault.offset,
        None => 0,
    }
}

fn pointer_of(found: &Message<'_>, fault: &Option<Fault>) -> Result<String, AllocError> {
    match fault {
        Some(fault) => pointer_at(found, fault),
        None => Ok(String::new()),
    }
}

fn pointer_at(found: &Message<'_>, fault: &Fault) -> Result<String, AllocError> {
    match found.path_to(&fault.error, fault.offset)? {
        Some(path) => {
            let Path { pointer, .. } = path;
            Ok(pointer)
        }
        None => Ok(String::new()),
    }
}
