//! The serializer that the sources send events to, and the same events as a value of the real `serde`.

use crate::fallible::{self, AllocError, Fallible as _};
use ::serde::ser::{Error as _, SerializeMap as _, SerializeSeq as _};
use alloc::{string::String, vec::Vec};
use core::{cell::Cell, ops::Range};
use serde_json::{Map, Value};

/// What events are sent to.
pub trait Serializer: Sized {
    /// Why an event isn't taken.
    type Error;
    /// `true` or `false`.
    fn bool(&mut self, v: bool) -> Result<(), Self::Error>;
    /// A signed number.
    fn i64(&mut self, v: i64) -> Result<(), Self::Error>;
    /// A number.
    fn u64(&mut self, v: u64) -> Result<(), Self::Error>;
    /// A text.
    fn str(&mut self, v: &str) -> Result<(), Self::Error>;
    /// A list begins. Its length may be known.
    fn begin_seq(&mut self, len: Option<usize>) -> Result<(), Self::Error>;
    /// It ends.
    fn end_seq(&mut self) -> Result<(), Self::Error>;
    /// An object begins. Its length may be known.
    fn begin_map(&mut self, len: Option<usize>) -> Result<(), Self::Error>;
    /// It ends.
    fn end_map(&mut self) -> Result<(), Self::Error>;
    /// The name of the member that comes next.
    fn key(&mut self, name: &str) -> Result<(), Self::Error>;
    /// An error with this text.
    fn custom(&self, message: &str) -> Self::Error;
}

/// What can be sent.
pub trait Serialize {
    /// Sends it.
    fn serialize<S: Serializer>(&self, out: &mut S) -> Result<(), S::Error>;
}

enum Event {
    Bool(bool),
    I64(i64),
    U64(u64),
    /// A text that is these bytes of all texts.
    Text(Range<usize>),
    List,
    Object,
    End,
}

/// What takes each event by one call, with its text.
trait Taker {
    fn take(&mut self, event: Event, text: &str) -> Result<(), AllocError>;
}

impl<T: Taker> Serializer for T {
    type Error = AllocError;

    fn bool(&mut self, v: bool) -> Result<(), AllocError> {
        self.take(Event::Bool(v), "")
    }

    fn i64(&mut self, v: i64) -> Result<(), AllocError> {
        self.take(Event::I64(v), "")
    }

    fn u64(&mut self, v: u64) -> Result<(), AllocError> {
        self.take(Event::U64(v), "")
    }

    fn str(&mut self, v: &str) -> Result<(), AllocError> {
        self.take(Event::Text(0..v.len()), v)
    }

    fn begin_seq(&mut self, _len: Option<usize>) -> Result<(), AllocError> {
        self.take(Event::List, "")
    }

    fn end_seq(&mut self) -> Result<(), AllocError> {
        self.take(Event::End, "")
    }

    fn begin_map(&mut self, _len: Option<usize>) -> Result<(), AllocError> {
        self.take(Event::Object, "")
    }

    fn end_map(&mut self) -> Result<(), AllocError> {
        self.take(Event::End, "")
    }

    fn key(&mut self, name: &str) -> Result<(), AllocError> {
        self.str(name)
    }

    fn custom(&self, _message: &str) -> AllocError {
        AllocError
    }
}

/// Events, with their texts one after the other.
#[derive(Default)]
struct Events {
    all: Vec<Event>,
    texts: String,
}

impl Taker for Events {
    fn take(&mut self, event: Event, text: &str) -> Result<(), AllocError> {
        let begin = self.texts.len();
        self.texts.try_reserve(text.len()).map_err(|_| AllocError)?;
        self.texts.push_str(text);
        let is_text = matches!(event, Event::Text(_));
        self.all.try_push(if is_text { Event::Text(begin..self.texts.len()) } else { event })
    }
}

/// JSON as it is built, without its events: the lists and objects that go on, each after its name in the one around it, and the name of
/// what comes next.
#[derive(Default)]
struct Tree {
    open: Vec<(Option<String>, Value)>,
    name: Option<String>,
    whole: Value,
}

impl Tree {
    fn put(&mut self, value: Value) -> Result<(), AllocError> {
        match self.open.last_mut() {
            Some((_, Value::Array(items))) => items.try_push(value)?,
            Some((_, Value::Object(members))) => _ = members.insert(self.name.take().unwrap_or_default(), value),
            _ => self.whole = value,
        }
        Ok(())
    }
}

impl Taker for Tree {
    fn take(&mut self, event: Event, text: &str) -> Result<(), AllocError> {
        match event {
            Event::Bool(v) => self.put(v.into()),
            Event::I64(v) => self.put(v.into()),
            Event::U64(v) => self.put(v.into()),
            Event::Text(_) if self.name.is_none() && matches!(self.open.last(), Some((_, Value::Object(_)))) => {
                self.name = Some(fallible::text(text)?);
                Ok(())
            }
            Event::Text(_) => self.put(fallible::text(text)?.into()),
            Event::List => self.open.try_push((self.name.take(), Value::Array(Vec::new()))),
            Event::Object => self.open.try_push((self.name.take(), Value::Object(Map::new()))),
            Event::End => {
                let (name, value) = self.open.pop().unwrap_or_default();
                self.name = name;
                self.put(value)
            }
        }
    }
}

/// `serde_json`, but for its `to_value`.
pub mod json {
    pub use super::to_value;
    pub use ::serde_json::*;
}

/// What is sent, as JSON.
pub fn to_value<T: Serialize>(value: &T) -> Result<Value, AllocError> {
    let mut tree = Tree::default();
    value.serialize(&mut tree)?;
    Ok(tree.whole)
}

/// The value that comes next, and the texts.
struct Next<'a>(&'a Cell<&'a [Event]>, &'a str);

impl<'a> Next<'a> {
    /// Whether a list or an object goes on. If it ends, the end is taken.
    fn goes_on(&self) -> bool {
        let is_end = matches!(self.0.get(), [Event::End, ..] | []);
        if is_end {
            self.take();
        }
        !is_end
    }

    fn take(&self) -> Option<&'a Event> {
        let (first, rest) = self.0.get().split_first()?;
        self.0.set(rest);
        Some(first)
    }
}

impl ::serde::Serialize for Next<'_> {
    fn serialize<S: ::serde::Serializer>(&self, to: S) -> Result<S::Ok, S::Error> {
        match self.take() {
            Some(Event::Bool(v)) => to.serialize_bool(*v),
            Some(Event::I64(v)) => to.serialize_i64(*v),
            Some(Event::U64(v)) => to.serialize_u64(*v),
            Some(Event::Text(v)) => to.serialize_str(&self.1[v.clone()]),
            Some(Event::List) => {
                let mut list = to.serialize_seq(None)?;
                while self.goes_on() {
                    list.serialize_element(self)?;
                }
                list.end()
            }
            Some(Event::Object) => {
                let mut object = to.serialize_map(None)?;
                while self.goes_on() {
                    object.serialize_entry(self, self)?;
                }
                object.end()
            }
            Some(Event::End) | None => Err(S::Error::custom("an end without a beginning")),
        }
    }
}

/// Sends a value to a serializer of the real `serde`.
pub fn serialize<T: Serialize, S: ::serde::Serializer>(value: &T, to: S) -> Result<S::Ok, S::Error> {
    let mut events = Events::default();
    value.serialize(&mut events).map_err(S::Error::custom)?;
    ::serde::Serialize::serialize(&Next(&Cell::new(&events.all), &events.texts), to)
}

impl<T: crate::forms_json::Tables> ::serde::Serialize for crate::forms_json::Shown<'_, T> {
    fn serialize<S: ::serde::Serializer>(&self, to: S) -> Result<S::Ok, S::Error> {
        serialize(self, to)
    }
}
