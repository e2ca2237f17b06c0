//! Members of a line that aren't what they have to be.

use serde_json::Value;

use crate::forms_text::brief;
use crate::line::Member;
use crate::make::messages::error::{Actual, LineError};

/// The value of a member; `None` if it is missing.
///
/// # Errors
///
/// The member is something else than `wanted`.
pub(crate) fn or_wrong<T: Clone>(
    name: &'static str,
    member: &Member<T>,
    wanted: &'static str,
) -> Result<Option<T>, LineError> {
    match member {
        Member::Missing => Ok(None),
        Member::Right(value) => Ok(Some(value.clone())),
        Member::Wrong(held) => Err(wrong(name, held, wanted)),
    }
}

/// The number of a member, if it has one.
///
/// # Errors
///
/// The member is something else than `wanted`, a number of at most `most`.
pub(crate) fn number_of(
    json: &Value,
    name: &'static str,
    most: u64,
    wanted: &'static str,
) -> Result<Option<u64>, LineError> {
    let Some(held) = json.get(name) else {
        return Ok(None);
    };
    held.as_u64().filter(|number| *number <= most).map(Some).ok_or_else(|| wrong(name, held, wanted))
}

/// The error for a member that isn't there.
#[must_use]
pub fn missing(name: &'static str, wanted: &'static str) -> LineError {
    LineError::Member { name, found: Actual::Nothing, wanted }
}

/// The error for a member.
#[must_use]
pub fn wrong(name: &'static str, held: &Value, wanted: &'static str) -> LineError {
    match brief(held) {
        Ok(text) => LineError::Member { name, found: Actual::Json(text), wanted },
        Err(_) => LineError::NoMemory,
    }
}
