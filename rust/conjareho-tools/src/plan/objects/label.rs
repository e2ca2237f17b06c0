//! The names of objects for people.

use crate::user::prelude::*;

use crate::tc_changes::Key;
use crate::tc_texts::handle_text;
use core::fmt;

/// The name of an object for people: `class 1:10 of interface 2`.
#[derive(Clone, Copy, PartialEq, Eq, Debug)]
pub struct Label(pub Key);

impl fmt::Display for Label {
    fn fmt(&self, f: &mut fmt::Formatter<'_>) -> fmt::Result {
        match self.0 {
            Key::Place { index, parent } => write!(f, "the qdisc at {}", Parent { index, parent }),
            Key::Class { index, handle } => write!(f, "class {}", Parent { index, parent: handle }),
            Key::Block { number } => write!(f, "block {number}"),
            Key::Chain { index, parent, number } => write!(f, "chain {number} at {}", Parent { index, parent }),
            Key::Priority { index, parent, number, priority } => {
                write!(f, "priority {priority} of chain {number} at {}", Parent { index, parent })
            }
            Key::Filter { index, parent, number, priority, handle } => write!(
                f,
                "filter 0x{handle:x} of priority {priority} of chain {number} at {}",
                Parent { index, parent }
            ),
            Key::Action { kind, index } => {
                f.write_str("action ")?;
                for c in kind {
                    if c.is_ascii_graphic() {
                        f.write_char(char::from(c))?;
                    }
                }
                write!(f, " {index}")
            }
        }
    }
}

/// An object of a dump.
#[derive(Clone, Copy, PartialEq, Eq, Debug)]
pub struct Dumped {
    /// The number of the dump, from 0.
    pub place: usize,
    pub object: Label,
}

impl fmt::Display for Dumped {
    fn fmt(&self, f: &mut fmt::Formatter<'_>) -> fmt::Result {
        write!(f, "{}", self.object)
    }
}

// A handle of an interface, or a block that interfaces share.
#[derive(Clone, Copy)]
struct Parent {
    index: i32,
    parent: u32,
}

impl fmt::Display for Parent {
    fn fmt(&self, f: &mut fmt::Formatter<'_>) -> fmt::Result {
        let Parent { index, parent } = *self;
        if index == -1 {
            write!(f, "block {parent}")
        } else {
            f.write_str(handle_text(parent).as_str())?;
            write!(f, " of interface {index}")
        }
    }
}
