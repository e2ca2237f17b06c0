//! The words of a line.

use crate::user::prelude::*;

// The place of the first byte of this number, or the text's length if it has none.
fn place_of(text: &[u8], number: u8) -> usize {
    let mut at = 0;
    let mut left = text;
    'each: while let [byte, rest @ ..] = left {
        if *byte == number {
            return at;
        }
        at += 1;
        left = rest;
    }
    at
}

/// The parts of a text before and after the first byte of this number. If it has none, the text and nothing.
pub(crate) fn cut(text: &[u8], number: u8) -> (&[u8], &[u8]) {
    let at = place_of(text, number);
    if at >= text.len() {
        return (text, b"");
    }
    let (before, rest) = text.split_at(at);
    let (_, after) = rest.split_at(1);
    (before, after)
}

// The word after so many others.
fn word(count: usize, text: &[u8]) -> &[u8] {
    cut(after_words(count, text), b' ').0
}

fn after_words(count: usize, text: &[u8]) -> &[u8] {
    let mut left = text;
    for _ in 0..count {
        left = cut(left, b' ').1;
    }
    left
}

fn is_class(word: &[u8]) -> bool {
    word == b"class".as_slice()
}

fn is_holder(word: &[u8]) -> bool {
    word == b"qdisc".as_slice() || is_class(word)
}

fn is_held(word: &[u8]) -> bool {
    word == b"filter".as_slice() || word == b"chain".as_slice()
}

fn is_interface(word: &[u8]) -> bool {
    word == b"dev".as_slice() || word == b"block".as_slice()
}

/// The words after the verb `is`. Nothing if the verb is another.
pub(crate) fn after_verb(line: &[u8]) -> &[u8] {
    if word(0, line) == b"is".as_slice() {
        after_words(1, line)
    } else if word(1, line) == b"is".as_slice() {
        after_words(2, line)
    } else {
        b""
    }
}

// How many words precede `dev`.
fn heads(said: &[u8]) -> usize {
    if word(0, said) == b"chain".as_slice() { 2 } else { 3 }
}

/// True if these words are about an object on an interface.
pub(crate) fn is_object(said: &[u8]) -> bool {
    (is_holder(word(0, said)) || is_held(word(0, said))) && is_interface(word(heads(said), said))
}

fn after_interface(said: &[u8]) -> &[u8] {
    after_words(heads(said) + 2, said)
}

/// The handle of the qdisc of a handle.
pub(crate) fn major(handle: &[u8]) -> &[u8] {
    if handle.starts_with(b":") {
        return b"-";
    }
    let at = place_of(handle, b':');
    if at >= handle.len() {
        return handle;
    }
    let (major, _) = handle.split_at(at + 1);
    major
}

/// The handle of the class or qdisc that an object is below. Nothing for none.
pub(crate) fn home(said: &[u8]) -> &[u8] {
    let object = word(0, said);
    let place = after_interface(said);
    let first = word(0, place);
    if first == b"parent".as_slice() {
        word(1, place)
    } else if is_class(object) && first == b"root".as_slice() {
        major(word(2, said))
    } else if is_held(object) && (first == b"ingress".as_slice() || first == b"egress".as_slice()) {
        b"ffff:"
    } else {
        b""
    }
}

/// The handle of what other objects are below. Nothing of a filter or a chain.
pub(crate) fn holder(said: &[u8]) -> &[u8] {
    if is_holder(word(0, said)) { word(2, said) } else { b"" }
}

/// Two texts with a blank between. One of them if the other is empty.
pub(crate) fn joined(a: &[u8], b: &[u8]) -> Result<Vec<u8>, AllocError> {
    if a.is_empty() {
        return fallible::copy(b);
    }
    let mut made = fallible::copy(a)?;
    if !b.is_empty() {
        made.try_push(b' ')?;
        made.try_extend(b)?;
    }
    Ok(made)
}

// The first words.
fn front(count: usize, text: &[u8]) -> Result<Vec<u8>, AllocError> {
    let mut made = Vec::new();
    for i in 0..count {
        made = joined(&made, word(i, text))?;
    }
    Ok(made)
}

/// `dev eth0`.
pub(crate) fn interface(said: &[u8]) -> Result<Vec<u8>, AllocError> {
    let at = heads(said);
    joined(word(at, said), word(at + 1, said))
}

fn after_parent(place: &[u8]) -> &[u8] {
    if word(0, place) == b"parent".as_slice() { after_words(2, place) } else { place }
}

/// What is printed of an object.
pub(crate) fn shown(said: &[u8]) -> Result<Vec<u8>, AllocError> {
    let made = front(heads(said), said)?;
    joined(&made, after_parent(after_interface(said)))
}
