//! Columns: how the values of attributes and fields are displayed, given their place and their name in JSON.

use crate::user::prelude::*;

use crate::show::units::{Name, Unit};

/// How a value is displayed. A number in a variant is the place of columns or of names.
#[derive(Clone, Copy)]
pub enum Display {
    /// Unchanged.
    Plain,
    /// Padding: displayed only on request, or if it is malformed.
    Hidden,
    /// A kind. It selects the columns of the items after it in its list.
    Kind,
    /// A number in this unit.
    Number(Unit),
    /// A number in this unit, with the names at this place.
    Named(Unit, usize),
    /// A flag word whose bits have the names at this place.
    Flags(usize),
    /// A name in JSON at this place, displayed as the number's name for people and the number.
    Text(usize),
    /// The verdict of an action, whose names in JSON are at this place.
    Verdict(usize),
    /// An interface index, with the name that the caller has for it.
    Interface,
    /// The interface index of a header, after the word `index`. For a block (-1) nothing is displayed, and the columns
    /// at this place apply to the following members first.
    Index(usize),
    /// A handle, as a number in this unit.
    Handle(Unit),
    /// Four bytes in hex, displayed as a little-endian number.
    Count,
    /// An address family after its name, or nothing if it is 0. The place is as in `Text`.
    Family(usize),
    /// `tcm_info` after its name, or nothing if it is 0.
    Info(InfoOf),
    /// Unchanged. The columns at this place apply to the following members first, which are on the same line.
    First(usize),
    /// The minimum of a range, with `-` after it. The columns at this place apply to the following members first, which
    /// are on the same line.
    From(usize),
    /// The mask after an address: `/` and the prefix length, given the names at the first place. A mask that isn't a
    /// prefix is on a line of its own, named as 0 is at the second place.
    Slash(usize, usize),
    /// The maximum of a range, after `-`. If it isn't a leaf, it is on a line of its own, named as 0 is at this place.
    To(usize),
    /// The contents are on lines below this one, with the columns at this place.
    Nested(usize),
    /// The contents are on lines instead of this one, with the columns at this place.
    Inline(usize),
    /// The contents are on lines one level deeper, with the columns at this place. This line isn't written.
    Below(usize),
    /// The elements are below this line, with the columns at this place. Each begins with a line of its own, named as 0
    /// is at this place.
    Elements(usize),
    /// The contents continue the line before this one, with the columns at this place.
    SameLine(usize),
}

/// The meaning of `tcm_info`.
#[derive(Clone, Copy)]
pub enum InfoOf {
    /// Of a qdisc: its number of references.
    Refcnt,
    /// Of a class: the handle of its qdisc.
    Leaf,
    /// Of a filter or a chain: a priority, and a protocol with the names at this place.
    Pref(usize),
}

/// A column: the name of a member in JSON, its name for people, and how its value is displayed. Generic in the text
/// type, since specs can cite a constant only if its type has no lifetime.
#[derive(Clone, Copy)]
pub struct ColumnOf<N> {
    pub key: N,
    pub name: N,
    pub display: Display,
    /// The kernel's name of the member, which `--explain` prints. Empty if there is none. Lines don't depend on it.
    pub kernel: N,
}

/// A column of borrowed texts.
pub type Column<'a> = ColumnOf<&'a str>;

/// Tables of columns and names, at numbered places, with the caller's options.
pub trait Columns: Copy {
    /// The place of a message's columns.
    #[must_use]
    fn root(self) -> usize;

    /// The columns at a place.
    #[must_use]
    fn columns(self, place: usize) -> &'static [Column<'static>];

    /// The place of a list's columns under this kind.
    #[must_use]
    fn under(self, place: usize, kind: &str) -> usize;

    /// The names of numbers at a place.
    #[must_use]
    fn names(self, place: usize) -> &'static [Name<'static>];

    /// The number of a name in JSON, given the place of the names.
    #[must_use]
    fn number(self, place: usize, name: &str) -> Option<u64>;

    /// The caller's name for an interface index.
    #[must_use]
    fn interface(&self, number: u64) -> Option<&str>;

    /// True if padding is displayed.
    #[must_use]
    fn all(self) -> bool;
}
