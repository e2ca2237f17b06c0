//! Differences as lines: `-` for what only the first state has, `+` for what only the second one has, `~` for what both have with other
//! configurations, and below it the values that differ, as outlines have them.
//!
//! ```text
//! - class htb 1:30 dev eth0 parent 1:1 rate 5Mbit ceil 5Mbit
//! ~ class htb 1:10 dev eth0 parent 1:1 rate 50Mbit ceil 50Mbit
//!     options/parms/rate/rate 1250000 B/s (10Mbit) -> 6250000 B/s (50Mbit)
//! ```

use crate::user::prelude::*;

use crate::forms_json::Form;
use crate::forms_kinds::{ACTION_MESSAGE, TC_MESSAGE, TcTables};
use crate::plan::objects::State;
use crate::read::select::kind_of;
use crate::show::brief::{Object as Words, Said, lines_of};
use crate::show::columns::{KindColumns, Root};
use crate::show::differences::difference::Difference;
use crate::show::differences::priorities::{filter_of_priority, with_filters};
use crate::show::differences::states::differences;
use crate::show::differences::values::put_values;
use crate::show::outline::{Layout, Page, outline};
use crate::streams::Stop;
use crate::tc_changes::Key;
use crate::tc_changes::places::{index_of, look_up};
use core::str;

/// The lines of the differences between two states.
pub struct DifferenceLines {
    pub text: Vec<u8>,
    /// True if there are differences.
    pub differ: bool,
}

/// The lines of the differences between two states, with these names of interfaces. A priority has a line only if neither state has a
/// filter in it.
///
/// # Errors
///
/// A [`Stop`].
pub fn difference_lines(names: &[(u32, &str)], before: &State, after: &State) -> Result<DifferenceLines, Stop> {
    let found = differences(&before.objects, &after.objects)?;
    let text = difference_text(names, before, after, &found)?;
    let differ = !found.is_empty();
    Ok(DifferenceLines { text, differ })
}

fn difference_text(
    names: &[(u32, &str)],
    before: &State,
    after: &State,
    found: &[Difference],
) -> Result<Vec<u8>, Stop> {
    let was = index_of(&before.objects)?;
    let is = index_of(&after.objects)?;
    let filled = with_filters(&before.objects, &after.objects)?;
    let mut text = Vec::new();
    for difference in found {
        if !filled.contains(&difference.key) {
            let old = look_up(&before.objects, &was, difference.key).map(|object| before.message_of(object));
            let new = look_up(&after.objects, &is, difference.key).map(|object| after.message_of(object));
            put_difference(names, difference.key, old, new, &mut text)?;
        }
    }
    Ok(text)
}

fn put_difference(
    names: &[(u32, &str)],
    key: Key,
    old: Option<&[u8]>,
    new: Option<&[u8]>,
    text: &mut Vec<u8>,
) -> Result<(), Stop> {
    match (old, new) {
        (Some(old), Some(new)) => {
            put_object(names, b"~", key, new, text)?;
            put_changes(names, key, old, new, text)
        }
        (Some(old), None) => put_object(names, b"-", key, old, text),
        (None, Some(new)) => put_object(names, b"+", key, new, text),
        (None, None) => Ok(()),
    }
}

// Appends the line of an object with this message after a sign. What comes with others has no message, and no line.
fn put_object(names: &[(u32, &str)], sign: &[u8], key: Key, message: &[u8], text: &mut Vec<u8>) -> Result<(), Stop> {
    match (key, root_of(key, message)) {
        _ if message.is_empty() => Ok(()),
        (_, Some((root, words))) => put_line(names, sign, root, words, message, text),
        (Key::Priority { .. }, None) => {
            let filter = filter_of_priority(key, message)?;
            put_line(names, sign, Root::Filter, Words::Filter, &filter, text)
        }
        _ => Ok(()),
    }
}

// Appends the line of a message after a sign.
fn put_line(
    names: &[(u32, &str)],
    sign: &[u8],
    root: Root,
    words: Words,
    message: &[u8],
    text: &mut Vec<u8>,
) -> Result<(), Stop> {
    let said = Said { begin: sign, object: words, statistics: false, port: 0, end: b"" };
    match lines_of(columns_of(root, names), &said, message) {
        Ok(line) => Ok(text.try_extend(&line)?),
        Err(_) => Err(Stop::NoMemory),
    }
}

fn columns_of<'a>(root: Root, names: &'a [(u32, &'a str)]) -> KindColumns<'a> {
    KindColumns { root, interfaces: names, links: None, all: false }
}

// Appends the values that differ between the messages of two objects.
fn put_changes(names: &[(u32, &str)], key: Key, old: &[u8], new: &[u8], text: &mut Vec<u8>) -> Result<(), Stop> {
    let Some((root, _)) = root_of(key, new).filter(|_| !new.is_empty()) else {
        return Ok(());
    };
    let was = outline_of(names, root, old)?;
    let is = outline_of(names, root, new)?;
    put_values(text_of(&was), text_of(&is), text)
}

fn outline_of(names: &[(u32, &str)], root: Root, message: &[u8]) -> Result<Page, AllocError> {
    let mut page = Page::new(Layout::Lines);
    outline(&mut page, message, columns_of(root, names))?;
    Ok(page)
}

fn text_of(page: &Page) -> &str {
    core::str::from_utf8(page.bytes()).unwrap_or("")
}

// How an object with this message is shown. `None` for a priority and for a block, which have no message.
fn root_of(key: Key, message: &[u8]) -> Option<(Root, Words)> {
    match key {
        Key::Place { .. } => Some((Root::Qdisc, Words::Qdisc)),
        Key::Class { .. } => Some((Root::Class, Words::Class)),
        Key::Chain { .. } => Some((Root::Chain, Words::Chain)),
        Key::Filter { .. } => Some((filter_root(kind_of(message)), Words::Filter)),
        Key::Action { .. } => Some((Root::Action, Words::Action)),
        Key::Priority { .. } | Key::Block { .. } => None,
    }
}

fn filter_root(kind: &[u8]) -> Root {
    if kind == "u32".as_bytes() { Root::U32Filter } else { Root::Filter }
}

fn form_of(root: Root) -> Form {
    match root {
        Root::Action | Root::Flush => ACTION_MESSAGE,
        _ => TC_MESSAGE,
    }
}
