//! JSON in which no object has a name twice, by the real `serde_json`. It stands for `read` and `repeated` of `forms_text`.

use crate::forms_text::ReadError;
use ::serde::de::{DeserializeSeed, Deserializer, MapAccess, SeqAccess, Visitor};
use alloc::string::{String, ToString as _};
use alloc::{format, vec::Vec};
use core::fmt;
use serde_json::{Error, Map, Number, Value};

/// A place in JSON, shown as a JSON pointer.
enum Place<'a> {
    Whole,
    Member(&'a Place<'a>, &'a str),
    Item(&'a Place<'a>, usize),
}

impl fmt::Display for Place<'_> {
    fn fmt(&self, f: &mut fmt::Formatter<'_>) -> fmt::Result {
        match self {
            Place::Whole => Ok(()),
            Place::Member(of, name) => write!(f, "{of}/{}", name.replace('~', "~0").replace('/', "~1")),
            Place::Item(of, index) => write!(f, "{of}/{index}"),
        }
    }
}

/// A value at a place, and the place of the first name that an object has twice.
struct Strict<'a> {
    place: Place<'a>,
    repeated: &'a mut Option<String>,
}

impl<'de> DeserializeSeed<'de> for Strict<'_> {
    type Value = Value;

    fn deserialize<D: Deserializer<'de>>(self, from: D) -> Result<Value, D::Error> {
        from.deserialize_any(self)
    }
}

impl<'de> Visitor<'de> for Strict<'_> {
    type Value = Value;

    fn expecting(&self, f: &mut fmt::Formatter<'_>) -> fmt::Result {
        f.write_str("any value")
    }

    fn visit_unit<E>(self) -> Result<Value, E> {
        Ok(Value::Null)
    }

    fn visit_bool<E>(self, v: bool) -> Result<Value, E> {
        Ok(v.into())
    }

    fn visit_i64<E>(self, v: i64) -> Result<Value, E> {
        Ok(v.into())
    }

    fn visit_u64<E>(self, v: u64) -> Result<Value, E> {
        Ok(v.into())
    }

    fn visit_f64<E: ::serde::de::Error>(self, v: f64) -> Result<Value, E> {
        Number::from_f64(v).map(Value::Number).ok_or_else(|| E::custom("number out of range"))
    }

    fn visit_str<E>(self, v: &str) -> Result<Value, E> {
        Ok(v.into())
    }

    fn visit_seq<A: SeqAccess<'de>>(self, mut list: A) -> Result<Value, A::Error> {
        let mut items = Vec::new();
        loop {
            let place = Place::Item(&self.place, items.len());
            match list.next_element_seed(Strict { place, repeated: &mut *self.repeated })? {
                Some(item) => items.push(item),
                None => return Ok(Value::Array(items)),
            }
        }
    }

    fn visit_map<A: MapAccess<'de>>(self, mut object: A) -> Result<Value, A::Error> {
        let mut members = Map::new();
        while let Some(name) = object.next_key::<String>()? {
            let place = Place::Member(&self.place, &name);
            if members.contains_key(&name) && self.repeated.is_none() {
                *self.repeated = Some(place.to_string());
            }
            let member = object.next_value_seed(Strict { place, repeated: &mut *self.repeated })?;
            members.insert(name, member);
        }
        Ok(Value::Object(members))
    }
}

fn read(text: &str, repeated: &mut Option<String>) -> Result<Value, Error> {
    let mut from = serde_json::Deserializer::from_str(text);
    let value = Strict { place: Place::Whole, repeated }.deserialize(&mut from)?;
    from.end()?;
    Ok(value)
}

/// Reads a text as JSON. Where an object has a name twice, `Value::from_slice` of `serde_json` keeps the last of its values. This
/// function fails.
///
/// # Errors
///
/// A [`ReadError`].
pub fn read_json(text: &[u8]) -> Result<Value, ReadError> {
    let text = core::str::from_utf8(text).map_err(|e| {
        let before = &text[..e.valid_up_to()];
        let line = before.iter().filter(|byte| **byte == b'\n').count() + 1;
        let column = before.iter().rev().take_while(|byte| **byte != b'\n').count() + 1;
        ReadError::NotJson { line, column }
    })?;
    let mut repeated = None;
    match (read(text, &mut repeated), repeated) {
        (Ok(_), Some(path)) => Err(ReadError::Repeated { path }),
        (Ok(json), None) => Ok(json),
        (Err(e), _) => {
            let (line, column) = (e.line(), e.column());
            match format!("{e}").starts_with("recursion limit exceeded") {
                true => Err(ReadError::TooDeep { line, column }),
                false => Err(ReadError::NotJson { line, column }),
            }
        }
    }
}
