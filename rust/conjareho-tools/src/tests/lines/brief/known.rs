//! Known lines: those of `model/printed`, which an independent model and `tc` agree with, and lines that show a rule.

use crate::show::brief::{Object, Said, lines_of};
use crate::show::columns::{KindColumns, Root};

const PRINTED: &str = include_str!("../../../../testdata/lines/printed");
const OTHERS: &str = include_str!("../../../../testdata/lines/others");

/// A message and its lines.
struct Known<'a> {
    label: &'a str,
    root: Root,
    object: Object,
    verb: &'a str,
    port: u64,
    bytes: Vec<u8>,
    lines: String,
    /// Its lines with statistics, if they are tested.
    counted: Option<String>,
}

/// The root and the object with this name.
fn object_of(name: &str) -> (Root, Object) {
    match name {
        "qdisc" => (Root::Qdisc, Object::Qdisc),
        "class" => (Root::Class, Object::Class),
        "filter" => (Root::Filter, Object::Filter),
        "u32_filter" => (Root::U32Filter, Object::Filter),
        "chain" => (Root::Chain, Object::Chain),
        "action" => (Root::Action, Object::Action),
        "flush" => (Root::Flush, Object::Action),
        _ => panic!("no object is called {name}"),
    }
}

/// The rows of an item that begin with a mark, a line each.
fn marked(item: &str, mark: &str) -> Option<String> {
    let lines: String = item.lines().filter_map(|row| row.strip_prefix(mark)).map(|line| format!("{line}\n")).collect();
    (!lines.is_empty()).then_some(lines)
}

fn known(item: &str) -> Option<Known<'_>> {
    let label = item.lines().find(|row| !row.starts_with('#'))?;
    let (_, about) = item.split_once("\n: ")?;
    let mut words = about.lines().next()?.split(' ');
    let (root, object) = object_of(words.next()?);
    let (verb, port) = (words.next()?, words.next()?.parse().ok()?);
    let bytes = crate::hex::decode(marked(item, "= ")?.trim().as_bytes()).ok()?;
    Some(Known { label, root, object, verb, port, bytes, lines: marked(item, "> ")?, counted: marked(item, "+ ") })
}

/// The messages of a file. Remarks alone are none.
fn all(text: &str) -> impl Iterator<Item = Known<'_>> {
    let items = text.split("\n\n").filter(|item| item.lines().any(|row| !row.starts_with('#')));
    items.map(|item| known(item).unwrap_or_else(|| panic!("{item}")))
}

fn text_of(known: &Known, statistics: bool) -> String {
    let columns = KindColumns { root: known.root, interfaces: &[], links: None, all: false };
    let said = Said { begin: known.verb.as_bytes(), object: known.object, statistics, port: known.port, end: &[] };
    let text = lines_of(columns, &said, &known.bytes);
    String::from_utf8(text.expect("memory")).expect("lines are text")
}

#[test]
fn lines_are_known() {
    for known in all(PRINTED).chain(all(OTHERS)) {
        assert_eq!(text_of(&known, false), known.lines, "{}", known.label);
        if let Some(counted) = &known.counted {
            assert_eq!(text_of(&known, true), *counted, "{}, with statistics", known.label);
        }
    }
}

#[test]
fn no_message_is_passed_over() {
    assert_eq!(all(PRINTED).count(), PRINTED.matches("\n= ").count());
    assert_eq!(all(OTHERS).count(), OTHERS.matches("\n= ").count());
    assert!(all(PRINTED).any(|known| known.counted.is_some()));
}
