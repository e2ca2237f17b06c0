//! The interfaces that a line of JSON names by their indices: in each column with the unit `ifindex`, so that a kind that comes later needs nothing
//! here. Those of the extended match `meta` are under a condition, so they are no columns: `tcmake --names` has a list of them.

use crate::show::columns::{KindColumns, Root};
use crate::show::attributes::{Column, Columns, Display};
use crate::make::requests::interfaces::{META_NUMBER, OF_META, Side};
use ::serde_json::Value;
use std::collections::BTreeSet;

/// The indices in a line, as `tcshow --json` writes them. Index 0 is no interface, and -1 a block.
pub fn indices_in(line: &Value) -> BTreeSet<u32> {
    let mut found = BTreeSet::new();
    if let (Some(root), Some(message)) = (root_of(line), line.get("message")) {
        let columns = KindColumns { root, interfaces: &[], links: None, all: true };
        let place = columns.root();
        walk(&columns, place, place, message, &mut found);
    }
    found
}

// The root of the columns of a line.
fn root_of(line: &Value) -> Option<Root> {
    match line.get("type")?.as_str()?.get("RTM_".len() + 3..)? {
        "QDISC" => Some(Root::Qdisc),
        "TCLASS" => Some(Root::Class),
        "TFILTER" => Some(Root::Filter),
        "CHAIN" => Some(Root::Chain),
        "ACTION" => Some(Root::Action),
        _ => None,
    }
}

// Walks along the columns of a place. The columns of a kind, which an item of a list says for those after it, come before those of the list.
// Returns the place by the kind.
fn walk(columns: &KindColumns<'_>, base: usize, place: usize, value: &Value, found: &mut BTreeSet<u32>) -> usize {
    match value {
        Value::Array(items) => {
            take_meta(items, found);
            items.iter().fold(place, |place, item| walk(columns, base, place, item, found))
        }
        Value::Object(members) => members.iter().fold(place, |place, (key, value)| {
            let column = column_in(columns, place, key).or_else(|| column_in(columns, base, key));
            column.map_or(place, |column| walk_column(columns, base, place, column, value, found))
        }),
        _ => place,
    }
}

fn column_in(columns: &KindColumns<'_>, place: usize, key: &str) -> Option<&'static Column<'static>> {
    columns.columns(place).iter().find(|column| column.key == key)
}

fn walk_column(
    columns: &KindColumns<'_>,
    base: usize,
    place: usize,
    column: &Column<'_>,
    value: &Value,
    found: &mut BTreeSet<u32>,
) -> usize {
    match column.display {
        Display::Kind => return value.as_str().map_or(place, |kind| columns.under(base, kind)),
        Display::Interface | Display::Index(_) => found.extend(index_in(value)),
        Display::Nested(within)
        | Display::Inline(within)
        | Display::Below(within)
        | Display::Elements(within)
        | Display::SameLine(within) => {
            walk(columns, within, within, value, found);
        }
        _ => {}
    }
    place
}

fn index_in(value: &Value) -> Option<u32> {
    value.as_u64().and_then(|number| u32::try_from(number).ok()).filter(|number| (1..=i32::MAX as u32).contains(number))
}

// ---- The ematch meta

// The value that a list of `em_meta` compares an interface with.
fn take_meta(items: &[Value], found: &mut BTreeSet<u32>) {
    let member = |name: &str| items.iter().rev().find_map(|item| item.get(name));
    let Some(header) = member("Hdr") else { return };
    let kind_of = |side: &str| header.get(side)?.get("kind").and_then(number_in);
    let (left, right) = (kind_of("left"), kind_of("right"));
    for value in &OF_META {
        let (own, other) = match value.other {
            Side::Left => (right, left),
            Side::Right => (left, right),
        };
        let is_among = |kind: u64| value.kinds.iter().any(|it| u64::from(*it) == kind);
        if own == Some(META_NUMBER.into()) && other.is_some_and(is_among) {
            found.extend(member(value.name).and_then(word_in));
        }
    }
}

// A number, which may be shown in hex.
fn number_in(value: &Value) -> Option<u64> {
    let in_hex = |text: &str| u64::from_str_radix(text.strip_prefix("0x").unwrap_or(text), 16).ok();
    value.as_u64().or_else(|| value.as_str().and_then(in_hex))
}

// The number of four or eight bytes in hex.
fn word_in(value: &Value) -> Option<u32> {
    let text = value.as_str().filter(|text| text.is_ascii())?;
    let bytes: Vec<u8> = (0..text.len())
        .step_by(2)
        .map(|at| u8::from_str_radix(text.get(at..at + 2)?, 16).ok())
        .collect::<Option<_>>()?;
    let number = match bytes.len() {
        4 => u64::from(u32::from_ne_bytes(bytes.try_into().ok()?)),
        8 => u64::from_ne_bytes(bytes.try_into().ok()?),
        _ => return None,
    };
    u32::try_from(number).ok().filter(|number| *number != 0)
}

#[cfg(test)]
mod tests {
    use super::indices_in;
    use crate::netlink::attributes::put;
    use crate::netlink::message::{RTM_NEWACTION, RTM_NEWTFILTER, Tcmsg, request, tc_request};
    use crate::shown::lines_of;
    use ::serde_json::from_str;

    const OPTIONS: u16 = 2;

    // The indices in a message whose attributes are these.
    fn indices(mut message: Vec<u8>, attributes: &[(u16, Vec<u8>)]) -> Vec<u32> {
        for (kind, value) in attributes {
            put(&mut message, *kind, value);
        }
        let len = message.len() as u32;
        message[..4].copy_from_slice(&len.to_ne_bytes());
        let shown = lines_of(&[message]).expect("a line");
        indices_in(&from_str(&shown.text).expect("JSON")).into_iter().collect()
    }

    fn filter(index: i32) -> Vec<u8> {
        tc_request(RTM_NEWTFILTER, 0, Tcmsg { index, handle: 1, parent: 9, info: 0x1_0008 })
    }

    fn nest(attributes: &[(u16, Vec<u8>)]) -> Vec<u8> {
        let mut bytes = Vec::new();
        for (kind, value) in attributes {
            put(&mut bytes, *kind, value);
        }
        bytes
    }

    fn kind(name: &str) -> (u16, Vec<u8>) {
        (1, [name.as_bytes(), &[0]].concat())
    }

    // The options of basic with an ematch `meta`.
    fn meta(left: u16, right: u16, values: &[(u16, Vec<u8>)]) -> (u16, Vec<u8>) {
        let side = |kind: u16| [&kind.to_ne_bytes()[..], &[0, 0]].concat();
        let attributes = nest(&[&[(1, [side(left), side(right)].concat())], values].concat());
        let ematch = [&[0, 0, 4, 0, 0, 0, 0, 0], &attributes[..]].concat();
        let tree = nest(&[(1, vec![1, 0, 0, 0]), (2, nest(&[(1, ematch)]))]);
        (OPTIONS, nest(&[(2, tree)]))
    }

    // The options of mirred, to an interface.
    fn mirred(index: u32) -> Vec<u8> {
        let mut parms = vec![0; 28];
        parms[24..].copy_from_slice(&index.to_ne_bytes());
        nest(&[kind("mirred"), (OPTIONS, nest(&[(2, parms)]))])
    }

    #[test]
    fn header_and_block() {
        assert_eq!(indices(filter(7), &[kind("u32")]), [7]);
        assert!(indices(filter(-1), &[kind("u32")]).is_empty(), "a shared block");
    }

    #[test]
    fn actions() {
        let list = nest(&[(1, mirred(5)), (2, mirred(6))]);
        // TCA_U32_ACT, TCA_BPF_ACT, TCA_FLOWER_ACT, TCA_BASIC_ACT
        for (name, number) in [("u32", 7), ("bpf", 1), ("flower", 3), ("basic", 3)] {
            assert_eq!(
                indices(filter(7), &[kind(name), (OPTIONS, nest(&[(number, list.clone())]))]),
                [5, 6, 7],
                "{name}"
            );
        }
        assert_eq!(indices(request(RTM_NEWACTION, 0, &[0; 4]), &[(1, list)]), [5, 6]);
    }

    #[test]
    fn route() {
        assert_eq!(indices(filter(7), &[kind("route"), (OPTIONS, nest(&[(4, 3u32.to_ne_bytes().to_vec())]))]), [3, 7]);
    }

    #[test]
    fn metadata() {
        let number = |side: u16, index: u32| (side, index.to_ne_bytes().to_vec());
        let found =
            |left, right, value: (u16, Vec<u8>)| indices(filter(7), &[kind("basic"), meta(left, right, &[value])]);
        // TCF_META_ID_DEV, RTIIF and SK_BOUND_IF as numbers, beside a number
        for id in [5, 15, 19] {
            assert_eq!(found(0x1000 | id, 0x1000, number(3, 4)), [4, 7], "{id}");
            assert_eq!(found(0x1000, 0x1000 | id, number(2, 4)), [4, 7], "{id} on the right");
            assert_eq!(found(0x1000 | id, 0x1000, number(2, 4)), [7], "the mask of {id}");
            assert_eq!(found(0x1000 | id, 0x1005, number(3, 4)), [7], "the mask of another interface");
        }
        assert_eq!(found(0x1000 | 5, 0x1000, (3, 4u64.to_ne_bytes().to_vec())), [4, 7], "of eight bytes");
        assert_eq!(found(0x1000 | 6, 0x1000, number(3, 4)), [7], "a priority");
        assert_eq!(found(5, 0, (3, b"wan\0".to_vec())), [7], "a name");
    }
}
