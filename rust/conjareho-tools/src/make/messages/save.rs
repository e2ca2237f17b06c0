//! The first and the last line of a save, which hold no message.

use serde_json::Value;

/// True if the line is the first or the last line of a save.
#[must_use]
pub fn is_of_save(json: &Value) -> bool {
    is_head(json) || is_end(json)
}

/// True for the first line of a save: `{"save":1,..}`.
#[must_use]
pub fn is_head(json: &Value) -> bool {
    json.get("save").is_some() && json.get("message").is_none()
}

/// True for the last line of a save: `{"end":39}`.
#[must_use]
pub fn is_end(json: &Value) -> bool {
    json.get("end").is_some() && json.get("message").is_none()
}
