//! The node of a line.

use crate::user::prelude::*;

use crate::show::tree::words::{after_verb, holder, home, interface, is_object, joined, major, shown};

/// An interface, an object or a line about no object.
pub(crate) struct Node {
    pub(crate) text: Vec<u8>,
    /// Its interface and its handle. Nothing if no object can be below it.
    pub(crate) key: Vec<u8>,
    /// The key of the class or qdisc that it is below. Nothing for none.
    pub(crate) parent: Vec<u8>,
    /// The key of the qdisc that it is below.
    pub(crate) qdisc: Vec<u8>,
    /// The key of its interface.
    pub(crate) interface: Vec<u8>,
}

fn key_at(on: &[u8], handle: &[u8]) -> Result<Vec<u8>, AllocError> {
    if handle.is_empty() {
        return Ok(Vec::new());
    }
    joined(on, handle)
}

fn object_node(said: &[u8]) -> Result<Node, AllocError> {
    let text = shown(said)?;
    let interface = interface(said)?;
    let key = key_at(&interface, holder(said))?;
    let parent = key_at(&interface, home(said))?;
    let qdisc = key_at(&interface, major(home(said)))?;
    Ok(Node { text, key, parent, qdisc, interface })
}

/// A text that is below nothing.
pub(crate) fn top_node(text: &[u8], key: &[u8]) -> Result<Node, AllocError> {
    Ok(Node {
        text: fallible::copy(text)?,
        key: fallible::copy(key)?,
        parent: Vec::new(),
        qdisc: Vec::new(),
        interface: Vec::new(),
    })
}

/// The node of a line.
pub(crate) fn node_of(line: &[u8]) -> Result<Node, AllocError> {
    let said = after_verb(line);
    if is_object(said) { object_node(said) } else { top_node(line, b"") }
}
