//! Errors about attributes that a table doesn't have.

use serde_json::Value;

use crate::forms_json::MakeError;
use crate::forms_values::Wanted;
use crate::make::messages::error::LineError;

/// An error, with the kind whose table lacks an attribute, if the error is about one.
pub(crate) fn with_kind(message: &Value, error: LineError) -> LineError {
    match error {
        LineError::Make(MakeError::Wrong { path, found, wanted: Wanted::Attribute }) => {
            let kind = kind_before(message, &path).map(String::from);
            LineError::Attribute { path, found, kind }
        }
        error => error,
    }
}

// The last kind before a place: that of the lists that the place is in.
fn kind_before<'a>(message: &'a Value, path: &str) -> Option<&'a str> {
    let mut value = message;
    let mut kind = None;
    for name in path.split('/').filter(|name| !name.is_empty()) {
        value = match value.as_array() {
            Some(items) => {
                let at = name.parse::<usize>().ok()?;
                let kinds = items.iter().take(at).filter_map(|attribute| attribute.get("Kind")?.as_str());
                kind = kinds.last().or(kind);
                items.get(at)?
            }
            None => match value.get(name) {
                Some(held) => held,
                None => return kind,
            },
        };
    }
    kind
}
