//! The JSON of typed values, from the values alone. Tests compare it with what the proved forms show of the same bytes. It is built with
//! `--cfg kinds_json` and the feature `serde`.

use super::forms::{Array, Bare, Be, Code, Coded, Each, Empty, Fixed, Kind, List, Number, Pad, Text, Times, Truth};
use super::list::{Attrs, Indexed};
use super::values::{Bytes, Handle, Mac, Prob, Ticks};
use super::aside::{Aside, Odd};
use super::frames::{Attr, Kinds};
use super::wire::{Form, Key};
use super::{ActionMessage, Message};
use alloc::boxed::Box;
use alloc::string::{String, ToString as _};
use alloc::vec::Vec;
use core::net::{Ipv4Addr, Ipv6Addr};
use serde_json::{Map, Value};

/// Where a value is shown: under this kind, each attribute of a list in an object of this name, and with these bytes after it.
#[derive(Clone, Copy)]
pub struct Seen<'a> {
    pub kind: &'a str,
    pub layer: &'static str,
    pub rest: &'a [u8],
}

impl<'a> Seen<'a> {
    pub fn layer(self, layer: &'static str) -> Self {
        Seen { layer, ..self }
    }

    pub fn rest(self, rest: &'a [u8]) -> Self {
        Seen { rest, ..self }
    }
}

/// A form whose values are shown.
pub trait Json: Form {
    /// The JSON of a value.
    fn json(value: &Self::Value, seen: Seen<'_>) -> Value;

    /// The name and the value of the member that an attribute is shown as.
    fn member(value: &Self::Value, name: &'static str, seen: Seen<'_>) -> (&'static str, Value) {
        (name, Self::json(value, seen))
    }

    /// Padding isn't shown if it is zero.
    fn is_left_out(_value: &Self::Value) -> bool {
        false
    }
}

/// An attribute that is shown: its name, its value, and its `nla_type` if that isn't the table's.
pub trait JsonAttr: Attr {
    fn json(&self, seen: Seen<'_>) -> (&'static str, Value, Option<u16>);
}

/// A named number: its name, if it has one.
pub trait JsonCode: Code {
    fn name(&self) -> Result<&'static str, Value>;
}

pub fn hex(bytes: &[u8]) -> Value {
    bytes.iter().map(|byte| alloc::format!("{byte:02x}")).collect::<String>().into()
}

pub fn object<const N: usize>(members: [(&str, Value); N]) -> Value {
    members.into_iter().map(|(name, value)| (name.to_string(), value)).collect::<Map<_, _>>().into()
}

pub fn raw(bytes: &[u8]) -> Value {
    object([("raw", hex(bytes))])
}

/// An object with the bytes after it, if there are any.
pub fn with_rest(mut members: Map<String, Value>, rest: &[u8]) -> Value {
    if !rest.is_empty() {
        members.insert("rest".into(), hex(rest));
    }
    members.into()
}

macro_rules! shown {
    ([$($params:tt)*] $form:ty, $value:ident => $shown:expr) => {
        impl<$($params)*> Json for $form {
            fn json($value: &Self::Value, _seen: Seen<'_>) -> Value {
                $shown
            }
        }
    };
}

macro_rules! numbers_shown {
    ($($number:ident)*) => { $(
        shown! { [] $number, it => (*it).into() }
        shown! { [] Be<$number>, it => (*it).into() }
    )* };
}

numbers_shown! { u8 u16 u32 u64 i8 i16 i32 i64 }
shown! { [] Empty, _it => true.into() }
shown! { [] Truth, it => (*it).into() }
shown! { [] Text, it => it.clone().into() }
shown! { [] Bare, it => it.clone().into() }
shown! { [] Kind, it => it.clone().into() }
shown! { [] Bytes, it => hex(it) }
shown! { [const N: usize] Fixed<N>, it => hex(it) }
shown! { [] Mac, it => it.to_string().into() }
shown! { [] Ipv4Addr, it => it.to_string().into() }
shown! { [] Ipv6Addr, it => it.to_string().into() }

impl<const N: usize> Json for Pad<N> {
    fn json(value: &[u8; N], _seen: Seen<'_>) -> Value {
        hex(value)
    }

    fn is_left_out(value: &[u8; N]) -> bool {
        *value == [0; N]
    }
}

impl<C: JsonCode, F: Form<Value: Number>> Json for Coded<C, F> {
    fn json(value: &C, _seen: Seen<'_>) -> Value {
        value.name().map_or_else(|number| number, Into::into)
    }
}

impl JsonCode for Handle {
    fn name(&self) -> Result<&'static str, Value> {
        Err(self.to_string().into())
    }
}

impl JsonCode for Ticks {
    fn name(&self) -> Result<&'static str, Value> {
        Err(self.0.into())
    }
}

impl JsonCode for Prob {
    fn name(&self) -> Result<&'static str, Value> {
        Err(self.0.into())
    }
}

impl<F: Json> Json for Array<F> {
    fn json(value: &Vec<F::Value>, seen: Seen<'_>) -> Value {
        let rest = (!seen.rest.is_empty()).then(|| raw(seen.rest));
        value.iter().map(|it| F::json(it, seen.rest(&[]))).chain(rest).collect()
    }
}

impl<const N: usize, F: Json> Json for Times<N, F> {
    fn json(value: &[F::Value; N], seen: Seen<'_>) -> Value {
        value.iter().map(|it| F::json(it, seen.rest(&[]))).collect()
    }
}

/// What is kept beside each attribute of a list.
fn odd_at(aside: &Option<Box<Aside>>, at: usize) -> Odd {
    aside.iter().flat_map(|aside| &aside.odd).find(|odd| odd.at == at).cloned().unwrap_or_default()
}

fn with_tail(mut list: Vec<Value>, aside: &Option<Box<Aside>>) -> Value {
    list.extend(aside.iter().filter(|aside| !aside.tail.is_empty()).map(|aside| raw(&aside.tail)));
    list.into()
}

impl<A: JsonAttr> Json for List<A> {
    fn json(value: &Attrs<A>, seen: Seen<'_>) -> Value {
        let mut kind = seen.kind;
        if A::KINDS == Kinds::Own {
            kind = value.iter().find_map(|item| item.kind()).unwrap_or("");
        }
        let mut list = Vec::new();
        for (at, item) in value.iter().enumerate() {
            let odd = odd_at(&value.aside, at);
            if let (Kinds::InForce, Some(set)) = (A::KINDS, item.kind()) {
                kind = set;
            }
            let (name, shown, word) = item.json(Seen { kind, layer: "", rest: &odd.rest });
            let beside = [
                odd.is_bare.then(|| ("bare", true.into())),
                odd.word.or(word).map(|word| ("word", word.into())),
                odd.padding.map(|padding| ("pad", hex(&padding))),
            ];
            let members = [Some((name, shown))].into_iter().chain(beside).flatten();
            let attribute: Map<_, _> = members.map(|(name, value)| (name.to_string(), value)).collect();
            list.push(if seen.layer.is_empty() { attribute.into() } else { object([(seen.layer, attribute.into())]) });
        }
        with_tail(list, &value.aside)
    }
}

impl<F: Json> Json for Each<F> {
    fn json(value: &Indexed<F::Value>, seen: Seen<'_>) -> Value {
        let mut list = Vec::new();
        for (at, (word, item)) in value.iter().enumerate() {
            let odd = odd_at(&value.aside, at);
            let held = F::json(item, Seen { layer: "", rest: &odd.rest, ..seen });
            let padding = odd.padding.map(|padding| ("pad".to_string(), hex(&padding)));
            let members = [("tab".to_string(), (*word).into()), ("attributes".to_string(), held)];
            list.push(members.into_iter().chain(padding).collect::<Map<_, _>>().into());
        }
        with_tail(list, &value.aside)
    }
}

macro_rules! record_json {
    ($name:ident { $($field:ident $json:literal $layer:literal ($form:ty),)* }) => {
        impl Json for $name {
            fn json(value: &Self, seen: Seen<'_>) -> serde_json::Value {
                let mut members = serde_json::Map::new();
                $(
                    if !<$form as Json>::is_left_out(&value.$field) {
                        // What a field of any width leaves belongs to it.
                        let rest = if <$form as Form>::WIDTH.is_none() { seen.rest } else { &[] };
                        members.insert($json.into(), <$form as Json>::json(&value.$field, Seen { layer: $layer, rest, ..seen }));
                    }
                )*
                with_rest(members, if Self::WIDTH.is_none() { &[] } else { seen.rest })
            }
        }
    };
}

macro_rules! attrs_json {
    ($name:ident { $($variant:ident $json:literal $layer:literal $number:literal $flags:literal ($form:ty),)* }) => {
        impl JsonAttr for $name {
            fn json(&self, seen: Seen<'_>) -> (&'static str, serde_json::Value, Option<u16>) {
                let _ = seen;
                match self {
                    $($name::$variant(value) => {
                        let (name, value) = <$form as Json>::member(value, $json, seen.layer($layer));
                        (name, value, None)
                    })*
                    $($name::Other(nla) if nla.word & NLA_TYPE_MASK == $number && $json != "Kind" => {
                        ($json, raw(&nla.value), (nla.word != $number | $flags).then_some(nla.word))
                    })*
                    $name::Other(nla) => ("Other", object([("word", nla.word.into()), ("value", hex(&nla.value))]), None),
                }
            }
        }
    };
}

macro_rules! names_json {
    ($name:ident { $($variant:ident $json:literal,)* }) => {
        impl JsonCode for $name {
            fn name(&self) -> Result<&'static str, serde_json::Value> {
                match self {
                    $($name::$variant => Ok($json),)*
                    $name::Other(number) => Err(object([("Other", (*number).into())])),
                }
            }
        }
    };
}

macro_rules! bits_json {
    ($name:ident) => {
        impl JsonCode for $name {
            fn name(&self) -> Result<&'static str, serde_json::Value> {
                Err(self.0.into())
            }
        }
    };
}

macro_rules! choice_json {
    ($name:ident { $($variant:ident $json:literal $layer:literal [$($start:literal),*] $len:expr, ($form:ty),)* }) => {
        impl Json for $name {
            fn json(value: &Self, seen: Seen<'_>) -> serde_json::Value {
                let _ = seen;
                match value {
                    $($name::$variant(value) => object([($json, <$form as Json>::json(value, seen.layer($layer)))]),)*
                    $name::Other(bytes) => {
                        $(
                            if let Some(held) = chosen(bytes, &[$($start),*], $len) {
                                return object([($json, raw(held))]);
                            }
                        )*
                        object([("Other", hex(bytes))])
                    }
                }
            }
        }
    };
}

/// What options or statistics are shown as: statistics in an object, with the bytes after a record beside it.
pub fn of_kind<F: Json>(value: &F::Value, name: &'static str, seen: Seen<'_>) -> Value {
    match (name, F::WIDTH) {
        ("", _) => F::json(value, seen),
        (_, None) => object([(name, F::json(value, seen))]),
        _ => with_rest([(name.to_string(), F::json(value, seen.rest(&[])))].into_iter().collect(), seen.rest),
    }
}

/// What options or statistics are shown as that don't fit: statistics of a length of their own have no name then.
pub fn unread<F: Form>(bytes: &[u8], name: &'static str) -> Value {
    if name.is_empty() || F::WIDTH.is_some() { raw(bytes) } else { object([(name, raw(bytes))]) }
}

macro_rules! by_kind_json {
    ($name:ident $other:literal $shown:ident ($other_form:ty) { $($variant:ident $json:literal $layer:literal ($form:ty) = $($kind:literal)|+,)* }) => {
        impl Json for $name {
            fn json(value: &Self, seen: Seen<'_>) -> serde_json::Value {
                Self::member(value, "", seen).1
            }

            fn member(value: &Self, name: &'static str, seen: Seen<'_>) -> (&'static str, serde_json::Value) {
                match (value, seen.kind) {
                    $(($name::$variant(value), _) => (name, of_kind::<$form>(value, $json, seen.layer($layer))),)*
                    $(($name::Other(bytes), $($kind)|+) => (name, unread::<$form>(bytes, $json)),)*
                    ($name::Other(bytes), kind) => {
                        let levels = super::wire::DEEPEST;
                        let shown = within::<$other_form>(bytes, Place { kind: Key::of(kind.as_bytes()), levels, is_broken: &Default::default() }).map(|(value, _)| <$other_form as Json>::json(&value, seen));
                        (if stringify!($shown) == "hex" { $other } else { name }, shown.unwrap_or_else(|| raw(bytes)))
                    }
                }
            }
        }
    };
}

impl Message {
    /// The JSON of the typed value.
    #[doc(hidden)]
    pub fn typed_json(&self) -> Value {
        Self::json(self, Seen { kind: "", layer: "", rest: &[] })
    }
}

impl ActionMessage {
    /// The JSON of the typed value.
    #[doc(hidden)]
    pub fn typed_json(&self) -> Value {
        Self::json(self, Seen { kind: "", layer: "", rest: &[] })
    }
}
