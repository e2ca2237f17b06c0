//! The line of an object.

use crate::user::prelude::*;

use conjareho::kinds::Handle;
use conjareho::kinds::visit::PROTOCOLS;

use crate::show::attributes::Columns;
use crate::show::brief::leaf::{Leaf, Section, Shown, Value};
use crate::show::brief::leaves::leaves_of;
use crate::show::brief::numbers::put_signed;
use crate::show::brief::parts::{Line, Scope, bare, count_in, is_in, tells};
use crate::show::brief::values::{depth_after, is_left_out, is_opening, number_in, put_interface};
use crate::show::columns::{KindColumns, Root};
use crate::show::units::{Unit, put_number as put_exact};

/// The type of an object.
#[derive(Clone, Copy, PartialEq, Eq, Debug)]
pub enum Object {
    Qdisc,
    Class,
    Filter,
    Chain,
    Action,
}

/// What is known of a message beside its bytes.
#[derive(Clone, Copy)]
pub struct Said<'v> {
    /// The text that each of its lines begins with: what the message does, such as `add`, `is` or `gone`, perhaps after its time.
    pub begin: &'v [u8],
    pub object: Object,
    /// True if statistics are written.
    pub statistics: bool,
    /// The port id of a notification's sender. 0 for none.
    pub port: u64,
    /// The text that each of its lines ends with. Mostly empty.
    pub end: &'v [u8],
}

fn object_text(object: Object) -> &'static str {
    match object {
        Object::Qdisc => "qdisc",
        Object::Class => "class",
        Object::Filter => "filter",
        Object::Chain => "chain",
        Object::Action => "action",
    }
}

// The first leaf of this name in the head.
fn in_head<'l, 't>(leaves: &'l [Leaf<'t>], key: &str) -> Option<&'l Leaf<'t>> {
    let mut left = leaves;
    'each: while let [leaf, rest @ ..] = left {
        if is_in(Section::Head, leaf) && leaf.key == key {
            return Some(leaf);
        }
        left = rest;
    }
    None
}

// The handle of a leaf, and how it is shown.
fn handle_of(leaf: &Leaf<'_>) -> Option<(Handle, Shown)> {
    if let Value::Handle(handle) = leaf.value { Some((handle, leaf.shown)) } else { None }
}

fn protocol_in(n: u64) -> u64 {
    n % 0x100 * 0x100 + n / 0x100 % 0x100
}

// The protocol of a filter's header.
fn protocol_of(info: Option<&Leaf<'_>>) -> u64 {
    match info {
        Some(leaf) => match number_in(&leaf.value) {
            Some(n) => protocol_in(n),
            None => 0,
        },
        None => 0,
    }
}

// True for the members of the head that have a place of their own.
fn is_placed(key: &str) -> bool {
    key == "index"
        || (key == "parent"
            || (key == "info"
                || (key == "family"
                    || (key == "handle" || (key == "Kind" || key == "Chain")))))
}

fn is_other(leaf: &Leaf<'_>) -> bool {
    is_in(Section::Head, leaf) && (is_opening(&leaf.value) || !is_placed(leaf.key))
}

// The leaves up to the next action.
fn one_action<'l, 't>(leaves: &'l [Leaf<'t>]) -> &'l [Leaf<'t>] {
    let mut count = 0;
    for leaf in leaves {
        if is_in(Section::Begin, leaf) {
            return &leaves[..count];
        }
        count += 1;
    }
    leaves
}

impl Line<'_> {
    // Writes the value of a leaf, or `-`.
    fn text_or_dash(&mut self, leaf: Option<&Leaf<'_>>) -> Result<(), AllocError> {
        match leaf {
            Some(leaf) => self.alone(leaf),
            None => self.word(b"-"),
        }
    }

    // Writes a handle in a unit.
    fn handle_in(&mut self, unit: Unit, handle: Handle) -> Result<(), AllocError> {
        self.begin();
        put_exact(&mut self.word, unit, u32::from(handle).into())?;
        self.end()
    }

    // Writes a handle as `tc` does.
    fn handle(&mut self, handle: Handle) -> Result<(), AllocError> {
        self.word(handle.to_string().as_bytes())
    }

    // Writes the handle of the object; `-` for 0.
    fn handle_word(&mut self, leaf: Option<&Leaf<'_>>) -> Result<(), AllocError> {
        let Some((handle, shown)) = leaf.and_then(handle_of) else { return self.word(b"-") };
        match shown {
            _ if u32::from(handle) == 0 => self.word(b"-"),
            Shown::Handle(unit) => self.handle_in(unit, handle),
            _ => self.handle(handle),
        }
    }

    // Writes the interface, unless it is 0 or a block.
    fn dev(&mut self, value: &Value<'_>) -> Result<(), AllocError> {
        match value {
            Value::Interface(0) | Value::Signed(-1) => Ok(()),
            Value::Interface(n) => {
                self.word(b"dev")?;
                self.begin();
                put_interface(&mut self.word, *n, self.columns.interface(*n))?;
                self.end()
            }
            Value::Signed(n) => {
                self.word(b"dev")?;
                self.begin();
                put_signed(&mut self.word, Unit::Plain, *n)?;
                self.end()
            }
            _ => Ok(()),
        }
    }

    // Writes the place of an object: `root`, `ingress`, `egress` or a parent.
    fn parent(&mut self, counted: bool, handle: Handle) -> Result<(), AllocError> {
        match u32::from(handle) {
            0 if !counted => Ok(()),
            0 => {
                self.word(b"parent")?;
                self.word(b"none")
            }
            0xffff_ffff => self.word(b"root"),
            0xffff_fff2 => self.word(b"ingress"),
            0xffff_fff3 => self.word(b"egress"),
            _ => {
                self.word(b"parent")?;
                self.handle(handle)
            }
        }
    }

    // Writes the place of an object, or the number of a block.
    fn place_in(&mut self, counted: bool, leaf: &Leaf<'_>) -> Result<(), AllocError> {
        match handle_of(leaf) {
            Some((handle, Shown::Handle(unit))) => {
                self.word(b"block")?;
                self.handle_in(unit, handle)
            }
            Some((handle, _)) => self.parent(counted, handle),
            None => Ok(()),
        }
    }

    // Writes a word and a number, unless the number is 0.
    fn numbered(&mut self, word: &[u8], n: u64) -> Result<(), AllocError> {
        if n == 0 {
            return Ok(());
        }
        self.word(word)?;
        self.decimal(n)
    }

    // Writes a protocol, unless it is 0.
    fn protocol_in(&mut self, n: u64) -> Result<(), AllocError> {
        if n == 0 {
            return Ok(());
        }
        self.word(b"protocol")?;
        match PROTOCOLS.of(n as i64) {
            Some(name) => self.word(name.label.as_bytes()),
            None => {
                self.begin();
                put_exact(&mut self.word, Unit::LongHex, n)?;
                self.end()
            }
        }
    }

    // Writes `tcm_info`: references of a qdisc, the leaf of a class, of others priority and protocol.
    fn info(&mut self, counted: bool, value: &Value<'_>) -> Result<(), AllocError> {
        let Value::Unsigned(n) = *value else { return Ok(()) };
        match self.columns.root {
            Root::Qdisc if counted => {
                self.word(b"refcnt")?;
                self.decimal(n)
            }
            Root::Qdisc => Ok(()),
            Root::Class if n == 0 => Ok(()),
            Root::Class => {
                self.word(b"leaf")?;
                self.handle(Handle((n % 0x1_0000_0000) as u32))
            }
            _ => {
                self.numbered(b"pref", n / 0x10000)?;
                self.protocol_in(protocol_in(n))
            }
        }
    }

    // Writes an address family, unless it is 0.
    fn family(&mut self, value: &Value<'_>) -> Result<(), AllocError> {
        match value {
            Value::Named(_, 0) => Ok(()),
            Value::Named(name, _) => {
                self.word(b"family")?;
                self.word(name.name.as_bytes())
            }
            Value::Unsigned(n) => self.numbered(b"family", *n),
            _ => Ok(()),
        }
    }

    // Writes where the object is.
    fn place(&mut self, counted: bool, leaves: &[Leaf<'_>]) -> Result<(), AllocError> {
        if let Some(leaf) = in_head(leaves, "index") {
            self.dev(&leaf.value)?;
        }
        if let Some(leaf) = in_head(leaves, "parent") {
            self.place_in(counted, leaf)?;
        }
        if let Some(leaf) = in_head(leaves, "info") {
            self.info(counted, &leaf.value)?;
        }
        if let Some(leaf) = in_head(leaves, "family") {
            self.family(&leaf.value)?;
        }
        Ok(())
    }

    // Writes kind and handle; of a chain its number.
    fn kind(&mut self, object: Object, leaves: &[Leaf<'_>]) -> Result<(), AllocError> {
        match object {
            Object::Chain => self.text_or_dash(in_head(leaves, "Chain")),
            _ => {
                self.text_or_dash(in_head(leaves, "Kind"))?;
                self.handle_word(in_head(leaves, "handle"))
            }
        }
    }

    // Writes a word and the value of a leaf, if there is one that isn't left out.
    fn with_word(&mut self, word: &[u8], leaf: Option<&Leaf<'_>>) -> Result<(), AllocError> {
        match leaf {
            Some(leaf) if is_left_out(leaf) => Ok(()),
            Some(leaf) => {
                self.word(word)?;
                self.alone(leaf)
            }
            None => Ok(()),
        }
    }

    // Writes a filter's chain, or the kind of a chain's template.
    fn chain(&mut self, object: Object, leaves: &[Leaf<'_>]) -> Result<(), AllocError> {
        match object {
            Object::Chain => self.with_word(b"kind", in_head(leaves, "Kind")),
            _ => self.with_word(b"chain", in_head(leaves, "Chain")),
        }
    }

    // Writes a count after its word, if it has one.
    fn counted(&mut self, word: &[u8], leaf: Option<&Leaf<'_>>) -> Result<(), AllocError> {
        let leaf = match leaf {
            Some(leaf) => leaf,
            None => return Ok(()),
        };
        if !word.is_empty() {
            self.word(word)?;
        }
        self.alone(leaf)
    }

    // Writes a count after its word, without its unit.
    fn counted_bare(&mut self, word: &[u8], leaf: Option<&Leaf<'_>>) -> Result<(), AllocError> {
        match leaf {
            Some(leaf) => self.counted(word, Some(&bare(leaf))),
            None => Ok(()),
        }
    }

    // Writes an estimate after its word, if it has one, unless it is 0.
    fn estimated(&mut self, word: &[u8], leaf: Option<&Leaf<'_>>) -> Result<(), AllocError> {
        match leaf {
            Some(leaf) if is_left_out(leaf) => Ok(()),
            _ => self.counted(word, leaf),
        }
    }

    // Writes the counts that each line with statistics has.
    fn counts(&mut self, section: Section, leaves: &[Leaf<'_>]) -> Result<(), AllocError> {
        self.counted(b"sent", count_in(section, leaves, "bytes"))?;
        self.counted(b"", count_in(section, leaves, "packets"))?;
        self.counted_bare(b"dropped", count_in(section, leaves, "drops"))?;
        self.counted(b"overlimits", count_in(section, leaves, "overlimits"))?;
        self.counted(b"backlog", count_in(section, leaves, "backlog"))?;
        self.counted(b"", count_in(section, leaves, "qlen"))
    }

    // Writes the estimated rate, unless it is 0.
    fn estimates(&mut self, section: Section, leaves: &[Leaf<'_>]) -> Result<(), AllocError> {
        self.estimated(b"rate", count_in(section, leaves, "bps"))?;
        self.estimated(b"", count_in(section, leaves, "pps"))
    }

    // Writes statistics.
    fn statistics(&mut self, scope: &Scope<'_, '_>, section: Section, leaves: &[Leaf<'_>]) -> Result<(), AllocError> {
        self.counts(section, leaves)?;
        self.estimates(section, leaves)?;
        self.section(scope, section, leaves)
    }

    // Writes the words of an action after its kind.
    fn action(&mut self, scope: &Scope<'_, '_>) -> Result<(), AllocError> {
        self.section(scope, Section::Actions, scope.leaves)?;
        self.section(scope, Section::Control, scope.leaves)
    }

    // Writes an action after its kind, and its statistics in brackets.
    fn counted_action(&mut self, counted: bool, scope: &Scope<'_, '_>) -> Result<(), AllocError> {
        self.action(scope)?;
        if counted && has_any(Section::ActionStatistics, scope.leaves) {
            self.word(b"[")?;
            self.statistics(scope, Section::ActionStatistics, scope.leaves)?;
            self.word(b"]")?;
        }
        Ok(())
    }

    // Writes the kind of an action that begins with a leaf.
    fn action_kind(&mut self, first: &Leaf<'_>, scope: &Scope<'_, '_>) -> Result<(), AllocError> {
        if is_left_out(first) && !has_any(Section::Kind, scope.leaves) {
            self.word(b"-")?;
            return Ok(());
        }
        self.leaf(scope, None, &[], first)?;
        self.section(scope, Section::Kind, scope.leaves)
    }

    // Writes the number of an action.
    fn order(&mut self, counted: bool, value: &Value<'_>) -> Result<(), AllocError> {
        match value {
            Value::Unsigned(n) if counted => {
                self.word(b"order")?;
                self.decimal(*n)
            }
            _ => Ok(()),
        }
    }

    // Writes an action of a filter, which begins with a leaf.
    fn action_of(&mut self, counted: bool, first: &Leaf<'_>, scope: &Scope<'_, '_>) -> Result<(), AllocError> {
        self.word(b"action")?;
        self.action_kind(first, scope)?;
        self.order(counted, &first.value)?;
        self.counted_action(counted, scope)
    }

    // Writes the actions of a filter.
    fn actions(&mut self, counted: bool, protocol: u64, leaves: &[Leaf<'_>]) -> Result<(), AllocError> {
        let mut left = leaves;
        'each: while let [leaf, rest @ ..] = left {
            if is_in(Section::Begin, leaf) {
                let scope = Scope { leaves: one_action(rest), protocol };
                self.action_of(counted, leaf, &scope)?;
            }
            left = rest;
        }
        Ok(())
    }

    // Writes the statistics of an object's kind, once if the older ones are the same.
    fn kind_statistics(&mut self, scope: &Scope<'_, '_>, leaves: &[Leaf<'_>]) -> Result<(), AllocError> {
        let begin = self.text.len();
        self.section(scope, Section::KindStatistics, leaves)?;
        let middle = self.text.len();
        self.section(scope, Section::OlderStatistics, leaves)?;
        if repeats(&self.text, begin, middle) {
            self.text.truncate(middle);
        }
        Ok(())
    }

    // Writes all statistics of an object.
    fn all_statistics(&mut self, scope: &Scope<'_, '_>, leaves: &[Leaf<'_>]) -> Result<(), AllocError> {
        self.statistics(scope, Section::Statistics, leaves)?;
        self.kind_statistics(scope, leaves)
    }

    // Writes the statistics of an object after a semicolon.
    fn object_statistics(&mut self, counted: bool, scope: &Scope<'_, '_>) -> Result<(), AllocError> {
        if !counted || !has_statistics(scope.leaves) {
            return Ok(());
        }
        self.word(b";")?;
        self.all_statistics(scope, scope.leaves)
    }

    // Writes the statistics of an action after a semicolon.
    fn own_statistics(&mut self, counted: bool, scope: &Scope<'_, '_>) -> Result<(), AllocError> {
        if !counted || !has_any(Section::ActionStatistics, scope.leaves) {
            return Ok(());
        }
        self.word(b";")?;
        self.statistics(scope, Section::ActionStatistics, scope.leaves)
    }

    // Writes where the object is, and what it is.
    fn head(&mut self, counted: bool, object: Object, scope: &Scope<'_, '_>) -> Result<(), AllocError> {
        self.word(object_text(object).as_bytes())?;
        self.kind(object, scope.leaves)?;
        self.place(counted, scope.leaves)?;
        self.chain(object, scope.leaves)?;
        self.others(scope, scope.leaves)
    }

    // Writes what has no place of its own in the head.
    fn others(&mut self, scope: &Scope<'_, '_>, leaves: &[Leaf<'_>]) -> Result<(), AllocError> {
        let mut depth = 0;
        let mut left = leaves;
        'each: while let [leaf, rest @ ..] = left {
            if depth == 0 && is_other(leaf) {
                self.leaf(scope, None, rest, leaf)?;
            }
            depth = match depth_after(depth, &leaf.value) {
                Some(depth) => depth,
                None => return Err(AllocError),
            };
            left = rest;
        }
        Ok(())
    }

    // Writes the words of an object's kind, its hardware flags, and its actions.
    fn body(&mut self, counted: bool, scope: &Scope<'_, '_>, leaves: &[Leaf<'_>]) -> Result<(), AllocError> {
        self.section(scope, Section::Words, leaves)?;
        self.section(scope, Section::Hardware, leaves)?;
        let before = Scope { leaves: one_action(leaves), protocol: scope.protocol };
        self.counted_action(counted, &before)?;
        self.actions(counted, scope.protocol, leaves)
    }

    // Writes the line of an object after its verb.
    fn object(&mut self, said: &Said<'_>, leaves: &[Leaf<'_>]) -> Result<(), AllocError> {
        let scope = Scope { leaves, protocol: protocol_of(in_head(leaves, "info")) };
        self.head(said.statistics, said.object, &scope)?;
        self.body(said.statistics, &scope, leaves)?;
        self.numbered(b"by", said.port)?;
        self.object_statistics(said.statistics, &scope)
    }

    // Writes the kind of an action, and where its message is.
    fn own_head(
        &mut self,
        counted: bool,
        all: &[Leaf<'_>],
        first: &Leaf<'_>,
        scope: &Scope<'_, '_>,
    ) -> Result<(), AllocError> {
        self.word(b"action")?;
        self.action_kind(first, scope)?;
        self.word(b"-")?;
        self.order(counted, &first.value)?;
        self.place(counted, all)?;
        self.others(scope, all)
    }

    // Writes the line of an action after its verb.
    fn own_action(
        &mut self,
        said: &Said<'_>,
        all: &[Leaf<'_>],
        first: &Leaf<'_>,
        scope: &Scope<'_, '_>,
    ) -> Result<(), AllocError> {
        self.own_head(said.statistics, all, first, scope)?;
        self.action(scope)?;
        self.section(scope, Section::Words, all)?;
        self.numbered(b"by", said.port)?;
        self.own_statistics(said.statistics, scope)
    }

    // Writes a line for each action, and its end.
    fn own_actions(&mut self, said: &Said<'_>, leaves: &[Leaf<'_>]) -> Result<(), AllocError> {
        let mut left = leaves;
        'each: while let [leaf, rest @ ..] = left {
            if is_in(Section::Begin, leaf) {
                let scope = Scope { leaves: one_action(rest), protocol: 0 };
                self.text.try_extend(said.begin)?;
                self.own_action(said, leaves, leaf, &scope)?;
                self.text.try_extend(said.end)?;
                self.text.try_extend(b"\n")?;
            }
            left = rest;
        }
        Ok(())
    }

    // Writes the lines of a message.
    fn message(&mut self, said: &Said<'_>, leaves: &[Leaf<'_>]) -> Result<(), AllocError> {
        if is_of_actions(said.object) && has_action(leaves) {
            return self.own_actions(said, leaves);
        }
        self.text.try_extend(said.begin)?;
        self.object(said, leaves)?;
        self.text.try_extend(said.end)?;
        self.text.try_extend(b"\n")?;
        Ok(())
    }
}

// True if the bytes from `middle` on are those from `begin` to `middle`.
fn repeats(text: &[u8], begin: usize, middle: usize) -> bool {
    text[..middle][begin..] == text[middle..]
}

// True if a leaf of the section has words.
fn has_any(section: Section, leaves: &[Leaf<'_>]) -> bool {
    let mut left = leaves;
    'each: while let [leaf, rest @ ..] = left {
        if is_in(section, leaf) && tells(leaf, rest) {
            return true;
        }
        left = rest;
    }
    false
}

// True if one of the leaves is the kind of an action.
fn has_action(leaves: &[Leaf<'_>]) -> bool {
    let mut left = leaves;
    'each: while let [leaf, rest @ ..] = left {
        if is_in(Section::Begin, leaf) {
            return true;
        }
        left = rest;
    }
    false
}

// True if the object has statistics that aren't left out.
fn has_statistics(leaves: &[Leaf<'_>]) -> bool {
    has_any(Section::Statistics, leaves)
        || (has_any(Section::KindStatistics, leaves) || has_any(Section::OlderStatistics, leaves))
}

fn is_of_actions(object: Object) -> bool {
    matches!(object, Object::Action)
}

/// The lines of a message, each with a line feed after it: one for each action of an action message, else one. `columns` have the object
/// that `bytes` are about, and names of interfaces.
///
/// # Errors
///
/// A [`AllocError`].
pub fn lines_of(columns: KindColumns<'_>, said: &Said<'_>, bytes: &[u8]) -> Result<Vec<u8>, AllocError> {
    let leaves = leaves_of(columns.root, said.statistics, bytes);
    let mut line = Line { text: Vec::with_capacity(256), word: Vec::with_capacity(64), columns };
    line.message(said, &leaves)?;
    Ok(line.text)
}

/// The line of a message if only its object is known.
///
/// # Errors
///
/// A [`AllocError`].
pub fn lines_of_nothing(said: &Said<'_>) -> Result<Vec<u8>, AllocError> {
    let columns = KindColumns { root: Root::Qdisc, interfaces: &[], links: None, all: false };
    let mut line = Line { text: Vec::with_capacity(64), word: Vec::new(), columns };
    line.message(said, &[])?;
    Ok(line.text)
}
