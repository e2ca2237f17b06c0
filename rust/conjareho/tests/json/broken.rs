//! The JSON of messages, broken in one place at a time: the error names the place.

use crate::{bytes_of, form_of};
use conjareho::forms::{Form, MakeError, PLACES, Part, Shown, StrictError, Tables, TcTables, made_strictly};
use conjareho::tc::{is_canonical_action, is_canonical_tc};
use serde_json::{Map, Value};
use std::path::Path;

/// What is wrong with a value, or with a member of an object.
#[derive(Clone, Copy, Debug, PartialEq)]
enum Fault {
    /// Null instead of the value.
    Null,
    /// A list instead of the value, and an object instead of a list.
    Bracket,
    /// A number that no field holds.
    Range,
    /// A text with a character more.
    Garbled,
    /// An object with a member more.
    Extra,
    /// An object without this member.
    Missing,
    /// This member under a name that nothing has.
    Name,
    /// This attribute under the name of the options of another kind.
    Kind,
}

const FAULTS: [Fault; 8] =
    [Fault::Null, Fault::Bracket, Fault::Range, Fault::Garbled, Fault::Extra, Fault::Missing, Fault::Name, Fault::Kind];

/// True if a member of this name may have any text.
fn is_any_text(name: &str) -> bool {
    let is_text = |form: Form| matches!(form, Form::Text | Form::Bare);
    (0..PLACES).any(|place| match TcTables.part(place) {
        Part::Rows(_, rows) => rows.iter().any(|row| row.name == name && is_text(row.form)),
        Part::Fields(fields) => fields.iter().any(|field| field.name == name && is_text(field.form)),
        _ => false,
    })
}

/// Members that are there only if they say something: bytes are made without them too.
const EXTRAS: [&str; 4] = ["word", "pad", "bare", "rest"];

/// A value with a fault, if it can have this one.
fn faulty(fault: Fault, name: &str, value: &Value) -> Option<Value> {
    match (fault, value) {
        (Fault::Null, _) => Some(Value::Null),
        (Fault::Bracket, Value::Array(_)) => Some(Value::Object(Map::new())),
        (Fault::Bracket, _) => Some(Value::Array(Vec::new())),
        (Fault::Range, Value::Number(_)) => Some(Value::from(0.5)),
        (Fault::Garbled, Value::String(text)) if name != "Kind" && !is_any_text(name) => {
            Some(Value::String(format!("{text}~")))
        }
        _ => None,
    }
}

/// Takes a member from the object at a place, if it has it, and puts it under another name, if there is one.
fn rename(json: &mut Value, path: &str, old: &str, new: Option<&str>) -> Option<()> {
    let members = json.pointer_mut(path)?.as_object_mut()?;
    let held = members.remove(old)?;
    if let Some(new) = new {
        members.insert(new.to_string(), held);
    }
    Some(())
}

/// Breaks the value at a place, or its name. None if there can't be this fault.
fn damage(json: &mut Value, path: &str, fault: Fault) -> Option<()> {
    let (parent, name) = path.rsplit_once('/').unwrap_or(("", ""));
    match fault {
        Fault::Extra => {
            json.pointer_mut(path)?.as_object_mut()?.insert("Nobody".to_string(), Value::Null);
            Some(())
        }
        Fault::Missing | Fault::Name | Fault::Kind if path.is_empty() => None,
        Fault::Missing if EXTRAS.contains(&name) => None,
        Fault::Missing => rename(json, parent, name, None),
        Fault::Name => rename(json, parent, name, Some("Nobody")),
        Fault::Kind => rename(json, parent, name, Some(if name == "TunnelKey" { "Mirror" } else { "TunnelKey" })),
        Fault::Null | Fault::Bracket | Fault::Range | Fault::Garbled => {
            let held = json.pointer_mut(path)?;
            *held = faulty(fault, name, held)?;
            Some(())
        }
    }
}

/// All places of a value, as JSON pointers.
fn places(value: &Value, path: String, found: &mut Vec<String>) {
    match value {
        Value::Array(items) => {
            for (index, item) in items.iter().enumerate() {
                places(item, format!("{path}/{index}"), found);
            }
        }
        Value::Object(members) => {
            for (name, member) in members {
                places(member, format!("{path}/{name}"), found);
            }
        }
        _ => {}
    }
    found.push(path);
}

/// The list of attributes that a kind at this place is in.
fn list_of_kind<'p>(json: &Value, path: &'p str) -> Option<&'p str> {
    let item = path.strip_suffix("/Kind").unwrap_or(path);
    json.pointer(item)?.get("Kind")?;
    Some(item.rsplit_once('/')?.0)
}

/// True if an error is of this place, or near it: of what it is a part of, or of a part of either. If a kind is broken, of the list that it is in.
fn is_named(whole: &Value, error: &StrictError, path: &str, fault: Fault) -> bool {
    let found = match error {
        StrictError::Make(MakeError::Wrong { path, .. }) => path.as_str(),
        StrictError::Differs(difference) => difference.path.as_str(),
        StrictError::Make(MakeError::OutOfMemory) => return false,
    };
    if fault == Fault::Extra {
        return found.strip_suffix("/Nobody") == Some(path);
    }
    match list_of_kind(whole, path) {
        Some(list) => found.starts_with(list),
        None => {
            let (parent, _) = path.rsplit_once('/').unwrap_or(("", ""));
            found.strip_prefix(parent).is_some_and(|rest| rest.split('/').count() <= 3)
        }
    }
}

/// Breaks the JSON of a message at each of its places, or at some of many, in each way. Returns how often that could be done.
fn broken_everywhere(form: Form, bytes: &[u8]) -> usize {
    let whole = serde_json::to_value(Shown { table: TcTables, form, bytes }).expect("memory");
    let mut all = Vec::new();
    places(&whole, String::new(), &mut all);
    let step = all.len() / 20 * 2 + 1;
    let mut count = 0;
    for path in all.iter().step_by(step) {
        for fault in FAULTS {
            let mut json = whole.clone();
            if damage(&mut json, path, fault).is_some() {
                let error = made_strictly(TcTables, form, &json).err().unwrap_or_else(|| panic!("{fault:?} at {path}"));
                assert!(is_named(&whole, &error, path, fault), "{fault:?} at {path}: {error}");
                count += 1;
            }
        }
    }
    count
}

#[test]
fn errors_name_their_place() {
    let path = Path::new(env!("CARGO_MANIFEST_DIR")).join("../../crates/judge/stdin");
    let messages = std::fs::read_to_string(path).expect("messages");
    let mut count = 0;
    for line in messages.lines().take(400) {
        let (word, hex) = line.split_once(' ').expect("a form, and hex");
        let bytes = bytes_of(hex);
        if if word == "tc" { is_canonical_tc(&bytes) } else { is_canonical_action(&bytes) } {
            count += broken_everywhere(form_of(word), &bytes);
        }
    }
    assert!(count >= 2000, "{count}");
}
