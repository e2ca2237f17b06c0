//! The JSON of a message from what a visitor is shown.

use conjareho::DecodeError;
use conjareho::kinds::visit::{Group, Mark, Names, Row, Value, Visit};
use conjareho::kinds::{ActionMessage, Message};
use serde_json::{Map, Value as Json, json};
use std::net::{Ipv4Addr, Ipv6Addr};

/// An open group: its sort, its row, and what it holds so far: members, or items.
struct Open {
    group: Group,
    row: &'static Row,
    members: Map<String, Json>,
    items: Vec<Json>,
}

/// The groups that are open, the innermost last, and what came after them all.
#[derive(Default)]
struct Built {
    open: Vec<Open>,
    message: Option<Json>,
}

fn hex(bytes: &[u8]) -> Json {
    bytes.iter().map(|octet| format!("{octet:02x}")).collect::<String>().into()
}

fn number(row: &Row, number: i64, plain: Json) -> Json {
    match (row.names, row.names.of(number)) {
        (Names::Enum(_), Some(name)) => name.name.into(),
        (Names::Enum(_), None) => json!({ "Other": plain }),
        _ => plain,
    }
}

/// An address as `inet_ntop` writes it: `::192.0.2.1`, which Rust writes in hex.
fn ipv6(address: Ipv6Addr) -> String {
    match (address.segments(), address.octets()) {
        ([0, 0, 0, 0, 0, 0, high, _], [.., a, b, c, d]) if high > 0 => format!("::{}", Ipv4Addr::new(a, b, c, d)),
        _ => address.to_string(),
    }
}

fn value_of(row: &Row, value: Value<'_>) -> Json {
    match value {
        Value::Flag => true.into(),
        Value::Bool(it) => it.into(),
        Value::Unsigned(it) => number(row, i64::try_from(it).unwrap_or(i64::MAX), it.into()),
        Value::Signed(it) => number(row, it, it.into()),
        Value::Handle(it) => it.to_string().into(),
        Value::Text(it) => it.into(),
        Value::Bytes(it) => hex(it),
        Value::Mac(it) => it.to_string().into(),
        Value::Ipv4(it) => it.to_string().into(),
        Value::Ipv6(it) => ipv6(it).into(),
        Value::Raw(it) => json!({ "raw": hex(it) }),
        Value::Unknown(word, it) => json!({ "word": word, "value": hex(it) }),
        it => panic!("{it:?}"),
    }
}

impl Built {
    fn put(&mut self, row: &Row, value: Json) {
        let Some(open) = self.open.last_mut() else { return self.message = Some(value) };
        match open.group {
            Group::Record | Group::Choice => _ = open.members.insert(row.name.into(), value),
            Group::Element(_) => _ = open.members.insert("attributes".into(), value),
            Group::List => open.items.push(json!({ row.name: value })),
            _ => open.items.push(value),
        }
    }
}

impl<'b> Visit<'b> for Built {
    fn value(&mut self, row: &'static Row, value: Value<'b>) {
        self.put(row, value_of(row, value));
    }

    fn open(&mut self, row: &'static Row, group: Group) -> bool {
        let mut members = Map::new();
        if let Group::Element(tab) = group {
            members.insert("tab".into(), tab.into());
        }
        self.open.push(Open { group, row, members, items: Vec::new() });
        true
    }

    fn close(&mut self, group: Group) {
        let Some(open) = self.open.pop() else { panic!("nothing is open") };
        assert_eq!(open.group, group);
        let value = match group {
            Group::Record | Group::Choice | Group::Element(_) => open.members.into(),
            Group::List if !open.row.layer.is_empty() => {
                let is_attribute = |it: &Json| it.get("raw").is_none();
                let around = |it| if is_attribute(&it) { json!({ open.row.layer: it }) } else { it };
                open.items.into_iter().map(around).collect()
            }
            _ => open.items.into(),
        };
        self.put(open.row, value);
    }

    fn mark(&mut self, mark: Mark<'b>) {
        let Some(open) = self.open.last_mut() else { panic!("nothing is open") };
        let (name, value) = match mark {
            Mark::Bare => ("bare", true.into()),
            Mark::Word(word) => ("word", word.into()),
            Mark::Padding(bytes) => ("pad", hex(bytes)),
            Mark::Rest(bytes) => ("rest", hex(bytes)),
            it => panic!("{it:?}"),
        };
        let beside = match (open.group, mark) {
            (Group::Array | Group::List | Group::Indexed, Mark::Rest(bytes)) => {
                return open.items.push(json!({ "raw": hex(bytes) }));
            }
            (Group::List, _) => open.items.last_mut().and_then(Json::as_object_mut),
            _ => Some(&mut open.members),
        };
        beside.map(|members| members.insert(name.into(), value)).expect("an attribute");
    }
}

/// The JSON of a message.
pub fn json_of(is_action: bool, bytes: &[u8]) -> Result<Json, DecodeError> {
    let mut built = Built::default();
    let visit = if is_action { ActionMessage::visit(bytes, &mut built) } else { Message::visit(bytes, &mut built) };
    visit.map(|()| built.message.expect("a message"))
}
