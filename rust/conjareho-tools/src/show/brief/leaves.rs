//! From the values of a message to its leaves.

use conjareho::kinds::visit::{self, Group, LeftOut, Mark, Names, OTHER, Row, Style, Visit};
use conjareho::kinds::{ActionMessage, Message};
use std::net::{Ipv4Addr, Ipv6Addr};

use crate::show::brief::leaf::{Leaf, Section, Shape, Shown, Value};
use crate::show::columns::Root;
use crate::show::units::Unit;

/// An open group.
#[derive(Clone, Copy)]
struct Frame {
    row: &'static Row,
    group: Group,
    section: Section,
    shape: Shape,
    /// True if it is part of one word.
    is_inside: bool,
}

/// A visitor that makes leaves, those of statistics only if they are asked for.
struct Leaves<'b> {
    found: Vec<Leaf<'b>>,
    has_statistics: bool,
    root: Root,
    top: Frame,
    around: Vec<Frame>,
    /// The name of the mask of the last leaf, if it is an address.
    mask: &'static str,
    /// True after the index of a block.
    is_block: bool,
}

/// The section of a member of this style, in a group of this section.
fn styled(style: Style, section: Section) -> Section {
    let is_of_action = section.is_of_action();
    match style {
        Style::Actions => Section::Actions,
        Style::Statistics if is_of_action => Section::ActionStatistics,
        Style::Statistics => Section::Statistics,
        Style::Control if is_of_action => Section::Control,
        Style::Hardware if !is_of_action => Section::Hardware,
        Style::Head if !is_of_action => Section::Head,
        _ => section,
    }
}

fn is_flat(style: Style) -> bool {
    matches!(style, Style::Flat | Style::Rate | Style::Actions | Style::Keys | Style::Statistics)
}

/// The length of the prefix that a mask is of, given its bits and how many they are. `None` if it is none.
fn prefix(mask: u128, bits: u32) -> Option<u64> {
    let mask = mask.wrapping_shl(128u32.saturating_sub(bits));
    let length = mask.leading_ones();
    (length == mask.count_ones()).then_some(u64::from(length))
}

fn prefix_of(value: Value<'_>) -> Option<u64> {
    match value {
        Value::Ipv4(it) => prefix(it.to_bits().into(), Ipv4Addr::BITS),
        Value::Ipv6(it) => prefix(it.to_bits(), Ipv6Addr::BITS),
        Value::Mac(it) => prefix(it.0.iter().fold(0, |bits, octet| bits << 8 | u128::from(*octet)), 48),
        _ => None,
    }
}

fn is_address(value: Value<'_>) -> bool {
    matches!(value, Value::Ipv4(_) | Value::Ipv6(_) | Value::Mac(_))
}

/// A number as its row says.
fn number(row: &'static Row, n: u64) -> Value<'static> {
    let name = if let Names::Enum(_) = row.names { row.names.of(n as i64) } else { None };
    match name {
        Some(name) => Value::Named(name, n),
        None if row.unit == visit::Unit::Interface => Value::Interface(n),
        None => Value::Unsigned(n),
    }
}

/// A signed number as its row says.
fn signed(row: &'static Row, n: i64) -> Value<'static> {
    let name = if let Names::Enum(_) = row.names { row.names.of(n) } else { None };
    match (name, u64::try_from(n)) {
        (None, Ok(n)) => number(row, n),
        // The bits of a number of 32.
        (Some(name), _) => Value::Named(name, n as u64 & 0xffff_ffff),
        (None, Err(_)) => Value::Signed(n),
    }
}

impl Frame {
    /// True for an array, whose elements have no names.
    fn is_array(&self) -> bool {
        self.group == Group::Array
    }

    /// True for one of several forms, whose name isn't written. Of an extended match what it compares follows only from that name.
    fn is_choice(&self) -> bool {
        self.group == Group::Choice && self.row.name != "attributes"
    }
}

impl<'b> Leaves<'b> {
    fn section_of(&self, row: &Row, style: Style) -> Section {
        if self.top.is_inside {
            return self.top.section;
        }
        match styled(style, self.top.section) {
            Section::Statistics if row.name == "App" => Section::KindStatistics,
            Section::Statistics if row.name == "Xstats" => Section::OlderStatistics,
            _ if row.name == "header" => Section::Head,
            section => section,
        }
    }

    /// A leaf as its row says.
    fn leaf(&self, row: &'static Row, value: Value<'b>) -> Leaf<'b> {
        // The number of a rate has the word of its record.
        let outer = if row.style == Style::OfRate { self.top.row } else { row };
        let left = if self.has_statistics { outer.left_out_with_statistics } else { outer.left_out };
        let key = if self.top.is_array() { "" } else { row.name };
        let shown = if row.name == "pad" { Shown::Hidden } else { Shown::ByRow };
        let section = self.section_of(row, row.style);
        Leaf { key, row, word: outer.word, style: row.style, with: outer.with, left, shown, section, value }
    }

    /// A leaf with a name alone.
    fn plain(&self, key: &'static str, value: Value<'b>) -> Leaf<'b> {
        let section = self.top.section;
        let row = &OTHER;
        Leaf { key, row, word: "", style: Style::Value, with: "", left: LeftOut::Never, shown: Shown::Plain, section, value }
    }

    fn push(&mut self, leaf: Leaf<'b>) {
        self.mask = "";
        if self.has_statistics || !leaf.section.is_of_statistics() {
            self.found.push(leaf);
        }
    }

    /// A value in the header, whose meaning is that of the object.
    fn head(&mut self, row: &'static Row, value: Value<'b>) {
        let is_filter = matches!(self.root, Root::Filter | Root::U32Filter);
        let shown = match row.name {
            "handle" if self.root == Root::U32Filter => Shown::Handle(Unit::U32Handle),
            "handle" if is_filter => Shown::Handle(Unit::Hex),
            "parent" if self.is_block => Shown::Handle(Unit::Plain),
            _ => Shown::ByRow,
        };
        if row.name == "index" {
            self.is_block = matches!(value, Value::Signed(-1));
        }
        let leaf = Leaf { section: Section::Head, shown, ..self.leaf(row, value) };
        self.push(leaf);
    }

    /// A value that has a row.
    fn put(&mut self, row: &'static Row, value: Value<'b>) {
        let mut leaf = self.leaf(row, value);
        if row.name == "Kind" && !self.top.is_inside {
            leaf.section = if self.top.section.is_of_action() { Section::Kind } else { Section::Head };
        }
        if self.root == Root::Flush && row.kernel == "TCA_ACT_COOKIE" {
            leaf = Leaf { word: "count", style: Style::Value, shown: Shown::Count, section: self.section_of(row, Style::Value), ..leaf };
        }
        if row.name == self.mask && matches!(row.left_out, LeftOut::Equal(_)) {
            leaf.value = prefix_of(value).map_or(value, Value::Prefix);
        }
        self.push(leaf);
        if row.style == Style::Mask && is_address(value) {
            self.mask = row.with;
        }
    }

    /// Bytes that aren't of their form.
    fn raw(&mut self, row: &'static Row, bytes: &'b [u8]) {
        if let Names::Enum(_) = row.names {
            return self.put(row, Value::Raw(bytes));
        }
        let shape = if self.is_transparent(row) || is_flat(row.style) { Shape::Silent } else { Shape::Braces };
        self.enter(row, Group::Record, shape);
        self.push(self.plain("raw", Value::Bytes(bytes)));
        self.leave();
    }

    /// True if the name of what is in this row isn't written.
    fn is_transparent(&self, row: &'static Row) -> bool {
        let is_root = self.around.is_empty() || row.name == "header";
        is_root || self.top.is_choice() || ["Options", "attributes", "generic"].contains(&row.name)
    }

    fn begin(&mut self, row: &'static Row, shape: Shape) {
        if row.style == Style::Actions {
            if !row.word.is_empty() {
                let kind = Leaf { section: Section::Begin, style: Style::Alone, ..self.plain("Kind", Value::Text(row.word)) };
                self.push(kind);
            }
        } else if shape != Shape::Silent {
            let leaf = self.leaf(row, Value::Opens(shape));
            self.push(leaf);
        }
    }

    fn enter(&mut self, row: &'static Row, group: Group, shape: Shape) {
        let section = self.section_of(row, row.style);
        self.begin(row, shape);
        self.around.push(self.top);
        let is_inside = self.top.is_inside || shape != Shape::Silent;
        self.top = Frame { row, group, section, shape, is_inside };
    }

    fn leave(&mut self) {
        if self.top.shape != Shape::Silent {
            let leaf = self.plain("", Value::Closes(self.top.shape));
            self.push(leaf);
        }
        if let Some(frame) = self.around.pop() {
            self.top = frame;
        }
    }

    fn shape_of(&self, row: &'static Row, group: Group) -> Shape {
        if self.top.is_array() {
            return self.top.shape.of_item();
        }
        if group == Group::Array {
            return if is_flat(row.style) { Shape::Silent } else { Shape::Brackets };
        }
        if is_flat(row.style) || self.is_transparent(row) { Shape::Silent } else { Shape::Braces }
    }
}

impl<'b> Visit<'b> for Leaves<'b> {
    fn value(&mut self, row: &'static Row, value: visit::Value<'b>) {
        let value = match value {
            visit::Value::Raw(bytes) => return self.raw(row, bytes),
            visit::Value::Unknown(word, bytes) => return self.push(self.plain("value", Value::Attribute(word, bytes))),
            visit::Value::Flag => Value::Bool(true),
            visit::Value::Bool(it) => Value::Bool(it),
            visit::Value::Unsigned(it) => number(row, it),
            visit::Value::Signed(it) => signed(row, it),
            visit::Value::Handle(it) => Value::Handle(it),
            visit::Value::Text(it) => Value::Text(it),
            visit::Value::Bytes(it) => Value::Bytes(it),
            visit::Value::Mac(it) => Value::Mac(it),
            visit::Value::Ipv4(it) => Value::Ipv4(it),
            visit::Value::Ipv6(it) => Value::Ipv6(it),
            _ => return,
        };
        if self.top.row.name == "header" { self.head(row, value) } else { self.put(row, value) }
    }

    fn open(&mut self, row: &'static Row, group: Group) -> bool {
        if let Group::Element(tab) = group {
            let is_actions = row.style == Style::Actions;
            self.around.push(self.top);
            self.top = Frame { row, group, shape: Shape::Silent, ..self.top };
            let begins = is_actions && self.top.section.is_of_action() && !self.top.is_inside;
            let section = if begins { Section::Begin } else { self.top.section };
            // The numbers of actions and of extended matches follow from their order.
            let left = if is_actions || row.word == "ematch" { LeftOut::Always } else { LeftOut::Never };
            let leaf = Leaf { left, section, ..self.plain("tab", Value::Unsigned(tab.into())) };
            self.push(leaf);
            return true;
        }
        if !self.has_statistics && self.section_of(row, row.style).is_of_statistics() {
            return false;
        }
        let shape = self.shape_of(row, group);
        self.enter(row, group, shape);
        true
    }

    fn close(&mut self, _group: Group) {
        self.leave();
    }

    fn mark(&mut self, mark: Mark<'b>) {
        let leaf = match mark {
            Mark::Bare => self.plain("bare", Value::Bool(true)),
            Mark::Rest(bytes) if self.top.is_array() => {
                let shape = self.top.shape.of_item();
                self.enter(&OTHER, Group::Record, shape);
                self.push(self.plain("raw", Value::Bytes(bytes)));
                return self.leave();
            }
            Mark::Rest(bytes) => {
                let is_list = matches!(self.top.group, Group::List | Group::Indexed);
                self.plain(if is_list { "raw" } else { "rest" }, Value::Bytes(bytes))
            }
            // Flags and padding say nothing to people, but that what follows isn't right after the value.
            _ => Leaf { shown: Shown::Hidden, ..self.plain("word", Value::Bool(true)) },
        };
        self.push(leaf);
    }
}

/// The leaves of a message of this root, with those of statistics or without. None of a message that is shorter than its header.
pub(crate) fn leaves_of(root: Root, has_statistics: bool, bytes: &[u8]) -> Vec<Leaf<'_>> {
    let top = Frame { row: &OTHER, group: Group::Record, section: Section::Words, shape: Shape::Silent, is_inside: false };
    let (found, around) = (Vec::with_capacity(64), Vec::with_capacity(16));
    let mut leaves = Leaves { found, has_statistics, root, top, around, mask: "", is_block: false };
    let is_whole = match root {
        Root::Action | Root::Flush => ActionMessage::visit(bytes, &mut leaves),
        _ => Message::visit(bytes, &mut leaves),
    };
    if is_whole.is_err() {
        // Too short for its header: raw, as a record that isn't of its form.
        leaves.push(leaves.plain("raw", Value::Bytes(bytes)));
    }
    leaves.found
}
