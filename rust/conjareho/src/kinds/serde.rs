//! Messages as JSON, by the forms: the same as [`forms::Shown`](crate::forms::Shown) of their bytes.

use super::{ActionMessage, Message};
use crate::forms::{ACTION_MESSAGE, Form, Shown, TC_MESSAGE, TcTables, made_strictly};
use ::serde::de::Error as _;
use ::serde::ser::Error as _;
use ::serde::{Deserialize, Deserializer, Serialize, Serializer};
use alloc::vec::Vec;

fn bytes_from<'de, D: Deserializer<'de>>(form: Form, from: D) -> Result<Vec<u8>, D::Error> {
    let json = serde_json::Value::deserialize(from)?;
    made_strictly(TcTables, form, &json).map_err(D::Error::custom)
}

macro_rules! json {
    ($name:ident, $form:ident) => {
        impl Serialize for $name {
            fn serialize<S: Serializer>(&self, to: S) -> Result<S::Ok, S::Error> {
                let bytes = self.to_bytes().map_err(S::Error::custom)?;
                Serialize::serialize(&Shown { table: TcTables, form: $form, bytes: &bytes }, to)
            }
        }

        impl<'de> Deserialize<'de> for $name {
            /// The JSON has to be that of a message, up to the order of members. If an object has a name twice, the last of its values counts.
            fn deserialize<D: Deserializer<'de>>(from: D) -> Result<Self, D::Error> {
                $name::parse(&bytes_from($form, from)?).map_err(D::Error::custom)
            }
        }
    };
}

json! { Message, TC_MESSAGE }
json! { ActionMessage, ACTION_MESSAGE }
