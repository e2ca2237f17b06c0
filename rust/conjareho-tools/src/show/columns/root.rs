//! The object types of messages, and the columns of each.

use crate::user::prelude::*;

use crate::forms_kinds::{ACTION_MESSAGE, TC_MESSAGE, TcTables};
use crate::forms_values::{Form, KindRows, Part, Tables};
use crate::show::attributes::{Column, Columns};
use crate::show::columns::names::{LinkNames, given_name, link_name};
use crate::show::columns::tables;
use crate::show::units::Name;

/// The object that a message describes, which decides how its header is displayed.
#[derive(Clone, Copy, PartialEq, Eq, Debug)]
pub enum Root {
    /// A qdisc: `tcm_info` is its number of references.
    Qdisc,
    /// A class: `tcm_info` is the handle of its leaf qdisc.
    Class,
    /// A filter: `tcm_info` is a priority and a protocol.
    Filter,
    /// A u32 filter, whose handle is displayed as `tc` writes it: `800::800`.
    U32Filter,
    /// A chain of filters.
    Chain,
    /// An action message.
    Action,
    /// The answer to a flush of actions, in which the attribute of the cookie is the number of flushed actions.
    Flush,
}

impl Root {
    /// The object of messages with this `nlmsg_type` and these `nlmsg_flags`. `None` if they aren't traffic control.
    /// `kind` is the text of the message's first `TCA_KIND`, or empty. An `RTM_DELACTION` with `NLM_F_ROOT` is a flush.
    #[must_use]
    pub fn of(kind_of_message: u16, flags: u16, kind: &str) -> Option<Root> {
        match kind_of_message {
            36..=38 => Some(Root::Qdisc),
            40..=42 => Some(Root::Class),
            44..=46 if kind == "u32" => Some(Root::U32Filter),
            44..=46 => Some(Root::Filter),
            49 if flags / 0x100 % 2 == 1 => Some(Root::Flush),
            48..=50 => Some(Root::Action),
            100..=102 => Some(Root::Chain),
            _ => None,
        }
    }

    /// The form of these messages.
    #[must_use]
    pub fn form(self) -> Form {
        match self {
            Root::Action | Root::Flush => ACTION_MESSAGE,
            _ => TC_MESSAGE,
        }
    }

    // The place of its columns.
    fn place(self) -> usize {
        match self {
            Root::Qdisc => 6000,
            Root::Class => 6001,
            Root::Filter => 6002,
            Root::U32Filter => 6003,
            Root::Chain => 6004,
            Root::Action => 6005,
            Root::Flush => 6006,
        }
    }
}

/// The columns of messages of one object type. They don't allocate.
#[derive(Clone, Copy)]
pub struct KindColumns<'a> {
    /// The object type.
    pub root: Root,
    /// The caller's names of interfaces, by index. The first of an index counts.
    pub interfaces: &'a [(u32, &'a str)],
    /// Names of other interfaces, such as those in a capture.
    pub links: Option<&'a LinkNames>,
    /// True if padding is displayed.
    pub all: bool,
}

/// The kernel's name of the member of a column at a place. Empty if there is none.
#[must_use]
pub fn kernel_name(place: usize, column: Column<'static>) -> &'static str {
    for (member, kernel) in tables::kernels_at(place) {
        if *member == column.key {
            return *kernel;
        }
    }
    column.kernel
}

// The place of a kind's columns; `others` for a kind without any.
fn kind_place(kind: &str, others: usize, kinds: &[KindRows<'_>]) -> usize {
    match kinds.split_first() {
        Some((it, _)) if it.kind == kind => it.rows,
        Some((_, rest)) => kind_place(kind, others, rest),
        None => others,
    }
}

// The number of the first entry with this name in JSON.
fn number_of(names: &[crate::forms_values::Name<'_>], name: &str) -> Option<u64> {
    match names.split_first() {
        Some((it, _)) if it.name == name => Some(it.number),
        Some((_, others)) => number_of(others, name),
        None => None,
    }
}

impl<'a> Columns for KindColumns<'a> {
    fn root(self) -> usize {
        self.root.place()
    }

    fn columns(self, place: usize) -> &'static [Column<'static>] {
        tables::all_columns(place)
    }

    fn under(self, place: usize, kind: &str) -> usize {
        match TcTables.part(place) {
            Part::Kinds(_, others, kinds) => kind_place(kind, others, kinds),
            _ => place,
        }
    }

    fn names(self, place: usize) -> &'static [Name<'static>] {
        tables::all_names(place)
    }

    fn number(self, place: usize, name: &str) -> Option<u64> {
        match TcTables.part(place) {
            Part::Names(names) => number_of(names, name),
            _ => None,
        }
    }

    fn interface(&self, number: u64) -> Option<&str> {
        match given_name(self.interfaces, number) {
            Some(name) => Some(name),
            None => link_name(self.links, number),
        }
    }

    fn all(self) -> bool {
        self.all
    }
}
