//! A member of a line.

use serde::de::DeserializeOwned;
use serde::{Deserialize, Deserializer, Serialize, Serializer};
use serde_json::Value;

/// A member: not there, a value of its type, or something else.
#[derive(Clone, PartialEq, Debug, Default)]
pub(crate) enum Member<T> {
    #[default]
    Missing,
    Right(T),
    Wrong(Value),
}

impl<T> Member<T> {
    pub(crate) fn is_missing(&self) -> bool {
        matches!(self, Member::Missing)
    }
}

impl<T> From<T> for Member<T> {
    fn from(value: T) -> Member<T> {
        Member::Right(value)
    }
}

impl<T> From<Option<T>> for Member<T> {
    fn from(value: Option<T>) -> Member<T> {
        value.map_or(Member::Missing, Member::Right)
    }
}

impl<T: Serialize> Serialize for Member<T> {
    fn serialize<S: Serializer>(&self, to: S) -> Result<S::Ok, S::Error> {
        match self {
            Member::Missing => to.serialize_none(),
            Member::Right(value) => value.serialize(to),
            Member::Wrong(value) => value.serialize(to),
        }
    }
}

impl<'de, T: DeserializeOwned> Deserialize<'de> for Member<T> {
    fn deserialize<D: Deserializer<'de>>(from: D) -> Result<Member<T>, D::Error> {
        let value = Value::deserialize(from)?;
        Ok(T::deserialize(&value).map_or_else(|_| Member::Wrong(value.clone()), Member::Right))
    }
}
