//! What each event of JSON appends to the text, and the state between events.

use crate::user::prelude::*;

use crate::show::attributes::column::{Column, Columns, Display};
use crate::show::attributes::error::LinesError;
use crate::show::attributes::leaves::{
    is_block, name_at, put_boolean, put_line, put_null, put_signed, put_string, put_unsigned,
};
use crate::show::units::Unit;

/// An open object or list.
#[derive(Clone, Copy)]
pub(crate) enum Frame {
    // An object: the depth of its lines, the place of its list without a kind, its place, and whether it is on one
    // line.
    InMembers(usize, usize, usize, bool),
    // A list: the depth of its lines, its place without a kind, its place, and whether each element has a line of its
    // own.
    InItems(usize, usize, usize, bool),
}

/// The state while the lines of a value are written: the text so far, and the open objects and lists.
pub(crate) struct Walk {
    pub out: Vec<u8>,
    // The place of the columns that are looked up first: those of the last leaf's companion.
    pub companion: usize,
    // Innermost last.
    pub frames: Vec<Frame>,
    pub display: Display,
    pub depth: usize,
    pub inside: usize,
    // True after the name of an `nla_type` on one line.
    pub word: bool,
}

// The place without columns.
const NONE: usize = 65535;

// The column of a name in JSON. It compares four names at a time, only for speed.
fn find(columns: &'static [Column<'static>], key: &str) -> Option<&'static Column<'static>> {
    let mut left = columns;
    'fours: while let [first, second, third, fourth, others @ ..] = left {
        if is_same(first.key, key) {
            return Some(first);
        }
        if is_same(second.key, key) {
            return Some(second);
        }
        if is_same(third.key, key) {
            return Some(third);
        }
        if is_same(fourth.key, key) {
            return Some(fourth);
        }
        left = others;
    }
    'each: while let [first, others @ ..] = left {
        if is_same(first.key, key) {
            return Some(first);
        }
        left = others;
    }
    None
}

// The column of a name in JSON among those of a companion; usually there is none.
#[inline(always)]
fn find_companion<C: Columns>(columns: &C, companion: usize, key: &str) -> Option<&'static Column<'static>> {
    if companion == NONE {
        return None;
    }
    find(columns.columns(companion), key)
}

// The column of a name in JSON, among those of a companion, of the kind or of every kind.
fn column_of<C: Columns>(
    columns: &C,
    companion: usize,
    own: &'static [Column<'static>],
    others: usize,
    key: &str,
) -> Option<&'static Column<'static>> {
    if let Some(column) = find_companion(columns, companion, key) {
        return Some(column);
    }
    if let Some(column) = find(own, key) {
        return Some(column);
    }
    find(columns.columns(others), key)
}

// The column for a name without one.
fn unnamed(key: &str) -> Column<'_> {
    if is_same(key, "word") {
        return Column { key, name: key, display: Display::Number(Unit::LongHex), kernel: "" };
    }
    if is_same(key, "Other") {
        return Column { key, name: "other", display: Display::Plain, kernel: "" };
    }
    Column { key, name: key, display: Display::Plain, kernel: "" }
}

#[inline(always)]
fn is_same(a: &str, b: &str) -> bool {
    a.len() == b.len() && is_equal(a, b)
}

// The same for texts of equal length.
#[inline(never)]
fn is_equal(a: &str, b: &str) -> bool {
    a == b
}

// True if the contents have lines of their own.
fn is_nested(display: &Display) -> bool {
    match display {
        Display::Nested(_) | Display::Inline(_) | Display::Below(_) | Display::Elements(_) | Display::SameLine(_) => {
            true
        }
        _ => false,
    }
}

// The place of the columns of the contents.
fn place_in(display: &Display) -> usize {
    match display {
        Display::Nested(place)
        | Display::Inline(place)
        | Display::Below(place)
        | Display::Elements(place)
        | Display::SameLine(place) => *place,
        _ => 0,
    }
}

// The depth of the contents' lines.
fn depth_in(display: &Display, depth: usize) -> Option<usize> {
    match display {
        Display::Inline(_) | Display::SameLine(_) => Some(depth),
        _ => depth.checked_add(1),
    }
}

// True if each element has a line of its own.
fn has_elements(display: &Display) -> bool {
    matches!(display, Display::Elements(_))
}

// True if the contents are on one line.
fn in_line(display: &Display) -> bool {
    matches!(display, Display::SameLine(_))
}

// True if the name is written.
fn has_name(all: bool, display: &Display) -> bool {
    match display {
        Display::Hidden => all,
        Display::Inline(_)
        | Display::Below(_)
        | Display::SameLine(_)
        | Display::Slash(_, _)
        | Display::To(_)
        | Display::Family(_)
        | Display::Info(_)
        | Display::Index(_) => false,
        _ => true,
    }
}

// The display of the contents of an object or a list on one line.
fn opened(display: &Display) -> Display {
    match display {
        Display::Hidden | Display::First(_) | Display::From(_) | Display::Slash(_, _) | Display::To(_) => {
            Display::Plain
        }
        _ => *display,
    }
}

// Begins the line of a value that isn't a leaf, if its name wasn't written.
fn put_opening<C: Columns>(columns: &C, out: &mut Vec<u8>, depth: usize, display: &Display) -> Result<(), AllocError> {
    match display {
        Display::Hidden if columns.all() => Ok(()),
        Display::Hidden => put_line(out, depth, b"pad"),
        Display::Slash(_, own) | Display::To(own) => put_line(out, depth, name_at(columns, *own).as_bytes()),
        _ => Ok(()),
    }
}

// Appends a name, which continues a line or begins one.
#[inline(always)]
fn put_name(out: &mut Vec<u8>, depth: usize, inline: bool, name: &[u8]) -> Result<(), AllocError> {
    if inline {
        out.try_extend(b" ")?;
        return out.try_extend(name);
    }
    put_line(out, depth, name)
}

// The companion after a leaf.
fn companion_by(display: &Display, block: bool, companion: usize) -> usize {
    match display {
        Display::First(place) | Display::From(place) => *place,
        Display::Index(place) if block => *place,
        Display::Slash(_, _) | Display::To(_) => NONE,
        _ => companion,
    }
}

// Begins an element.
fn put_element<C: Columns>(
    columns: &C,
    out: &mut Vec<u8>,
    depth: usize,
    base: usize,
    each: bool,
) -> Result<(), AllocError> {
    if each {
        return put_line(out, depth, name_at(columns, base).as_bytes());
    }
    Ok(())
}

// Appends a name within a line.
fn put_inside_name(out: &mut Vec<u8>, key: &str) -> Result<(), AllocError> {
    if is_same(key, "Other") {
        return Ok(());
    }
    out.try_extend(b" ")?;
    out.try_extend(key.as_bytes())
}

// Records a kind for the items after it.
fn note<C: Columns>(columns: &C, display: &Display, value: &str, frames: &mut Vec<Frame>) -> Result<(), AllocError> {
    match display {
        Display::Kind => note_kind(columns, value, frames),
        _ => Ok(()),
    }
}

// Records a kind.
fn note_kind<C: Columns>(columns: &C, value: &str, frames: &mut Vec<Frame>) -> Result<(), AllocError> {
    let top = match pop(frames) {
        Some(top) => top,
        None => return Ok(()),
    };
    match top {
        Frame::InMembers(depth, base, _, inline) => {
            push(frames, Frame::InMembers(depth, base, columns.under(base, value), inline))
        }
        Frame::InItems(_, _, _, _) => push(frames, top),
    }
}

// After an object, the items of its list have the columns of the kind in it.
fn settle(place: usize, frames: &mut Vec<Frame>) -> Result<(), AllocError> {
    match top(frames) {
        Some(Frame::InItems(depth, base, before, each)) if before != place => {
            let _ = pop(frames);
            push(frames, Frame::InItems(depth, base, place, each))
        }
        _ => Ok(()),
    }
}

impl Walk {
    /// The state before a value with the columns of `root`, with capacity for `room` bytes.
    pub(crate) fn new(root: usize, room: usize) -> Result<Walk, AllocError> {
        let out = fallible::with_capacity(room)?;
        let mut frames = fallible::with_capacity(16)?;
        push(&mut frames, Frame::InMembers(0, root, root, false))?;
        Ok(Walk { out, companion: NONE, frames, display: Display::Inline(root), depth: 0, inside: 0, word: false })
    }

    // Returns to the state between values.
    fn rest(&mut self) {
        self.display = Display::Plain;
        self.depth = 0;
        self.inside = 0;
        self.word = false;
    }

    // After a leaf that isn't a kind.
    fn leaf_done(&mut self, block: bool) {
        match self.inside.checked_sub(1) {
            Some(_) => self.word = false,
            None => {
                self.companion = companion_by(&self.display, block, self.companion);
                self.rest();
            }
        }
    }

    pub(crate) fn boolean<C: Columns>(&mut self, columns: &C, b: bool) -> Result<(), LinesError> {
        put_boolean(columns, &mut self.out, self.depth, &self.display, b)?;
        self.leaf_done(false);
        Ok(())
    }

    pub(crate) fn unsigned<C: Columns>(&mut self, columns: &C, n: u64) -> Result<(), LinesError> {
        if self.word && self.inside > 0 {
            let display = Display::Number(Unit::LongHex);
            put_unsigned(columns, &mut self.out, self.depth, &display, n)?;
        } else {
            put_unsigned(columns, &mut self.out, self.depth, &self.display, n)?;
        }
        self.leaf_done(false);
        Ok(())
    }

    pub(crate) fn signed<C: Columns>(&mut self, columns: &C, n: i64) -> Result<(), LinesError> {
        put_signed(columns, &mut self.out, self.depth, &self.display, n)?;
        self.leaf_done(is_block(n));
        Ok(())
    }

    pub(crate) fn null<C: Columns>(&mut self, columns: &C) -> Result<(), LinesError> {
        put_null(columns, &mut self.out, self.depth, &self.display)?;
        self.leaf_done(false);
        Ok(())
    }

    pub(crate) fn text<C: Columns>(&mut self, columns: &C, value: &str) -> Result<(), LinesError> {
        put_string(columns, &mut self.out, self.depth, &self.display, value)?;
        match self.inside.checked_sub(1) {
            Some(_) => {
                self.word = false;
                Ok(())
            }
            None => {
                note(columns, &self.display, value, &mut self.frames)?;
                self.companion = companion_by(&self.display, false, self.companion);
                self.rest();
                Ok(())
            }
        }
    }

    /// The place of the columns of the innermost object or list.
    #[inline(always)]
    pub(crate) fn place(&self) -> usize {
        match top(&self.frames) {
            Some(Frame::InMembers(_, _, place, _)) => place,
            _ => NONE,
        }
    }

    /// The name of a member. `own` are the columns of the innermost object.
    ///
    /// # Panics
    ///
    /// It may, unless this holds, which the proved sources ask of callers:
    ///
    /// - `columns_view own.now ≡ (C.table (C.options columns.now)).columns (place_of (first_of (state_of self.old).frames))`
    pub(crate) fn key<C: Columns>(
        &mut self,
        columns: &C,
        own: &'static [Column<'static>],
        name: &str,
    ) -> Result<(), LinesError> {
        match self.inside.checked_sub(1) {
            Some(_) => {
                put_inside_name(&mut self.out, name)?;
                self.word = is_same(name, "word");
                Ok(())
            }
            None => {
                let top = top(&self.frames);
                self.key_in(columns, own, name, top)
            }
        }
    }

    // The name of a member of the innermost object.
    fn key_in<C: Columns>(
        &mut self,
        columns: &C,
        own: &'static [Column<'static>],
        name: &str,
        top: Option<Frame>,
    ) -> Result<(), LinesError> {
        match top {
            Some(Frame::InMembers(depth, base, _, inline)) => {
                match column_of(columns, self.companion, own, base, name) {
                    Some(column) => self.at_column(columns, depth, inline, column),
                    None => self.at_unnamed(columns, depth, inline, name),
                }
            }
            _ => Err(LinesError::NotJson),
        }
    }

    // Before the value of a name without a column.
    #[inline(never)]
    fn at_unnamed<C: Columns>(
        &mut self,
        columns: &C,
        depth: usize,
        inline: bool,
        name: &str,
    ) -> Result<(), LinesError> {
        self.at_column(columns, depth, inline, &unnamed(name))
    }

    // Before the value of a column.
    #[inline(always)]
    fn at_column<C: Columns>(
        &mut self,
        columns: &C,
        depth: usize,
        inline: bool,
        column: &Column<'_>,
    ) -> Result<(), LinesError> {
        if has_name(columns.all(), &column.display) {
            put_name(&mut self.out, depth, inline, column.name.as_bytes())?;
            if !inline {
                self.companion = NONE;
            }
        }
        self.display = column.display;
        self.depth = depth;
        Ok(())
    }

    // Continues within one line.
    fn go_inside<C: Columns>(&mut self, columns: &C) -> Result<(), LinesError> {
        put_opening(columns, &mut self.out, self.depth, &self.display)?;
        self.companion = NONE;
        self.display = opened(&self.display);
        self.inside = 1;
        Ok(())
    }

    // One level deeper within a line.
    fn deeper(&mut self) -> Result<(), LinesError> {
        match self.inside.checked_add(1) {
            Some(inside) => {
                self.inside = inside;
                self.word = false;
                Ok(())
            }
            None => Err(LinesError::NotJson),
        }
    }

    pub(crate) fn begin_map<C: Columns>(&mut self, columns: &C, _len: Option<usize>) -> Result<(), LinesError> {
        match self.inside.checked_sub(1) {
            Some(_) => self.deeper(),
            None => {
                let top = top(&self.frames);
                self.map_in(columns, top)
            }
        }
    }

    // Begins an object in the innermost object or list.
    fn map_in<C: Columns>(&mut self, columns: &C, top: Option<Frame>) -> Result<(), LinesError> {
        match top {
            Some(Frame::InItems(depth, base, place, each)) => self.begin_element(columns, depth, base, place, each),
            _ => self.open_map(columns),
        }
    }

    // Begins an object in a list.
    fn begin_element<C: Columns>(
        &mut self,
        columns: &C,
        depth: usize,
        base: usize,
        place: usize,
        each: bool,
    ) -> Result<(), LinesError> {
        put_element(columns, &mut self.out, depth, base, each)?;
        if each {
            self.companion = NONE;
        }
        push(&mut self.frames, Frame::InMembers(depth, base, place, each))?;
        self.rest();
        Ok(())
    }

    // Begins an object that is the value of a column.
    fn open_map<C: Columns>(&mut self, columns: &C) -> Result<(), LinesError> {
        if !is_nested(&self.display) {
            return self.go_inside(columns);
        }
        let place = place_in(&self.display);
        let inline = in_line(&self.display);
        let depth = match depth_in(&self.display, self.depth) {
            Some(depth) => depth,
            None => return Err(LinesError::NotJson),
        };
        push(&mut self.frames, Frame::InMembers(depth, place, place, inline))?;
        self.rest();
        Ok(())
    }

    // Begins a list that is the value of a column.
    fn open_seq<C: Columns>(&mut self, columns: &C) -> Result<(), LinesError> {
        if !is_nested(&self.display) {
            return self.go_inside(columns);
        }
        let place = place_in(&self.display);
        let each = has_elements(&self.display);
        let depth = match depth_in(&self.display, self.depth) {
            Some(depth) => depth,
            None => return Err(LinesError::NotJson),
        };
        push(&mut self.frames, Frame::InItems(depth, place, place, each))?;
        self.rest();
        Ok(())
    }

    pub(crate) fn begin_seq<C: Columns>(&mut self, columns: &C, _len: Option<usize>) -> Result<(), LinesError> {
        match self.inside.checked_sub(1) {
            Some(_) => self.deeper(),
            None => self.open_seq(columns),
        }
    }

    // Ends an object or list within one line.
    fn end_inside(&mut self, inside: usize) {
        match inside.checked_sub(1) {
            Some(_) => self.inside = inside,
            None => self.rest(),
        }
    }

    pub(crate) fn end_map<C: Columns>(&mut self, _columns: &C) -> Result<(), LinesError> {
        match self.inside.checked_sub(1) {
            Some(inside) => {
                self.end_inside(inside);
                Ok(())
            }
            None => self.close_map(),
        }
    }

    // Closes the innermost object.
    fn close_map(&mut self) -> Result<(), LinesError> {
        match pop(&mut self.frames) {
            Some(Frame::InMembers(_, _, place, _)) => {
                settle(place, &mut self.frames)?;
                self.rest();
                Ok(())
            }
            _ => Err(LinesError::NotJson),
        }
    }

    pub(crate) fn end_seq<C: Columns>(&mut self, _columns: &C) -> Result<(), LinesError> {
        match self.inside.checked_sub(1) {
            Some(inside) => {
                self.end_inside(inside);
                Ok(())
            }
            None => self.close_seq(),
        }
    }

    // Closes the innermost list.
    fn close_seq(&mut self) -> Result<(), LinesError> {
        match pop(&mut self.frames) {
            Some(Frame::InItems(_, _, _, _)) => {
                self.rest();
                Ok(())
            }
            _ => Err(LinesError::NotJson),
        }
    }
}

// Opens an object or a list.
fn push(frames: &mut Vec<Frame>, frame: Frame) -> Result<(), AllocError> {
    frames.try_push(frame)?;
    Ok(())
}

// Removes and returns the innermost.
fn pop(frames: &mut Vec<Frame>) -> Option<Frame> {
    frames.pop()
}

// The innermost.
fn top(frames: &[Frame]) -> Option<Frame> {
    match frames.split_last() {
        Some((frame, _)) => Some(*frame),
        None => None,
    }
}
