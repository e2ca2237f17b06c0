//! The leaves of a message: its values, each with its row and the section of its words.

use conjareho::kinds::visit::{LeftOut, Name, Row, Style};
use conjareho::kinds::{Handle, Mac};
use std::net::{Ipv4Addr, Ipv6Addr};

use crate::show::units::Unit;

/// Where the words of a leaf stand in a line.
#[derive(Clone, Copy, PartialEq, Eq)]
pub(crate) enum Section {
    /// Verb, object, kind, handle, and the place of the object.
    Head,
    /// The kind's words.
    Words,
    /// Hardware flags.
    Hardware,
    /// Statistics of the object, beside its kind's own.
    Statistics,
    /// The words of an action's kind.
    Actions,
    /// The end of an action: its index, and its verdict.
    Control,
    /// Statistics of an action.
    ActionStatistics,
    /// The first leaf of an action.
    Begin,
    /// The kind of an action.
    Kind,
    /// Statistics of the object's kind.
    KindStatistics,
    /// The same in the older attribute.
    OlderStatistics,
}

impl Section {
    /// True in an action.
    pub(crate) fn is_of_action(self) -> bool {
        matches!(self, Section::Begin | Section::Kind | Section::Actions | Section::Control | Section::ActionStatistics)
    }

    /// True for statistics.
    pub(crate) fn is_of_statistics(self) -> bool {
        matches!(self, Section::Statistics | Section::KindStatistics | Section::OlderStatistics | Section::ActionStatistics)
    }
}

/// How a list or a record is written.
#[derive(Clone, Copy, PartialEq, Eq)]
pub(crate) enum Shape {
    /// Its members are written as if they stood in its place.
    Silent,
    /// `{..}`
    Braces,
    /// `[..]`
    Brackets,
}

impl Shape {
    /// The shape of a record in a list of this shape.
    pub(crate) fn of_item(self) -> Shape {
        if self == Shape::Brackets { Shape::Braces } else { Shape::Silent }
    }
}

/// The value of a leaf, or the beginning or end of a list or record that is one word.
#[derive(Clone, Copy)]
pub(crate) enum Value<'b> {
    Bool(bool),
    Unsigned(u64),
    /// A number below zero.
    Signed(i64),
    Handle(Handle),
    Text(&'b str),
    Bytes(&'b [u8]),
    Mac(Mac),
    Ipv4(Ipv4Addr),
    Ipv6(Ipv6Addr),
    /// A number with a name.
    Named(&'static Name, u64),
    /// Malformed bytes instead of a number with names.
    Raw(&'b [u8]),
    /// A mask right after its address, as the length of a prefix.
    Prefix(u64),
    /// The index of an interface.
    Interface(u64),
    /// An attribute that the tables lack: its `nla_type`, and its payload.
    Attribute(u16, &'b [u8]),
    Opens(Shape),
    Closes(Shape),
}

/// How a value is shown, where its row doesn't say it.
#[derive(Clone, Copy, PartialEq, Eq)]
pub(crate) enum Shown {
    /// As the row says.
    ByRow,
    /// Without unit and names.
    Plain,
    /// Not at all.
    Hidden,
    /// A handle, as a number in this unit.
    Handle(Unit),
    /// Four bytes as a number.
    Count,
}

/// A leaf: its name in JSON, its row, what a line makes of the row, the section of its words, and its value.
#[derive(Clone, Copy)]
pub(crate) struct Leaf<'b> {
    pub key: &'static str,
    pub row: &'static Row,
    pub word: &'static str,
    pub style: Style,
    pub with: &'static str,
    pub left: LeftOut,
    pub shown: Shown,
    pub section: Section,
    pub value: Value<'b>,
}
