//! What a list has that its table doesn't describe, and how it is written again.

use super::frames::{Found, Frame, Frames, missing};
use super::wire::{Out, Shape};
use alloc::boxed::Box;
use alloc::vec::Vec;

/// The parts of a list that its table doesn't describe.
#[derive(Clone, PartialEq, Eq, Hash, Debug, Default)]
pub struct Aside {
    /// Those of its attributes, in their order.
    pub odd: Vec<Odd>,
    /// Bytes after the last attribute, where the next is cut or broken.
    pub tail: Vec<u8>,
}

/// The parts of an attribute that its table doesn't describe. They are written with the item at its place only if that is of the same
/// type and form, and if the bytes are read as that item again.
#[derive(Clone, PartialEq, Eq, Hash, Debug, Default)]
pub struct Odd {
    /// The attribute's place in its list.
    pub at: usize,
    /// `nla_type`, if flags are set that the table doesn't say or some aren't that it says.
    pub word: Option<u16>,
    /// Cut or nonzero padding.
    pub padding: Option<Vec<u8>>,
    /// Bytes after the record that it holds.
    pub rest: Vec<u8>,
    /// True for a kind without a NUL.
    pub is_bare: bool,
    /// What the attribute was, as its table says it: its `nla_type`, and which form its payload had.
    pub was: (u16, Option<Shape>),
    /// How many bytes of padding its payload takes, if padding is kept.
    pub missing: usize,
}

impl Aside {
    /// The parts of a list that has some.
    pub fn of(aside: &mut Option<Box<Aside>>) -> &mut Aside {
        aside.get_or_insert_default()
    }

    /// Drops what says nothing, so that equal bytes are equal lists.
    pub fn tidy(aside: &mut Option<Box<Aside>>) {
        if let Some(kept) = aside {
            kept.odd.retain(|odd| !odd.is_nothing());
            if kept.odd.is_empty() && kept.tail.is_empty() {
                *aside = None;
            }
        }
    }

    /// Keeps what isn't of the table in an attribute whose item is the last.
    #[cold]
    #[inline(never)]
    pub fn keep<L: Frames>(aside: &mut Option<Box<Aside>>, items: &[L::Item], frame: Frame<'_>, found: &Found<'_>) {
        let Some((item, before)) = items.split_last() else { return };
        Aside::of(aside).odd.push(Odd {
            at: before.len(),
            word: (frame.word != found.word).then_some(frame.word),
            padding: (!frame.is_padded()).then(|| frame.padding().to_vec()),
            rest: found.rest.to_vec(),
            is_bare: found.is_bare(frame),
            was: L::sort(item),
            missing: if frame.is_padded() { 0 } else { missing(frame.payload.len()) },
        });
    }

    /// Writes the attributes of a list with these parts.
    #[cold]
    #[inline(never)]
    pub fn write<L: Frames>(&self, items: &[L::Item], out: &mut Out) {
        let mut odd = self.odd.iter().peekable();
        for (at, item) in items.iter().enumerate() {
            let start = out.bytes.len();
            L::write_frame(item, out);
            if let Some(odd) = odd.next_if(|odd| odd.at == at) {
                let ends_list = at + 1 == items.len() && self.tail.is_empty();
                odd.write::<L>(item, ends_list, start, out);
            }
        }
        out.put(&self.tail);
    }
}

impl Odd {
    /// Whether all is as the table says it.
    fn is_nothing(&self) -> bool {
        self.word.is_none() && self.padding.is_none() && self.rest.is_empty() && !self.is_bare
    }

    /// Drops padding that is cut.
    pub fn make_whole(&mut self) {
        self.padding.take_if(|padding| padding.len() < self.missing);
    }

    /// Writes the parts into the attribute of an item, which starts here and is the last that was written.
    fn write<L: Frames>(&self, item: &L::Item, ends_list: bool, start: usize, out: &mut Out) {
        // An attribute that is too long has no length from which its end can be told.
        if out.is_unfit || self.was != L::sort(item) {
            return;
        }
        out.bytes.truncate(start + len_at(start, out));
        // A NUL that ends the text would be taken for the one that ends the payload.
        if self.is_bare && L::kind_of(item).is_some_and(|kind| !kind.ends_with('\0')) {
            out.bytes.pop();
        }
        out.put(&self.rest);
        out.end_frame(start);
        if let Some(word) = self.word {
            out.bytes[start + 2..start + 4].copy_from_slice(&word.to_le_bytes());
        }
        let Some(padding) = &self.padding else { return };
        let end = start + len_at(start, out);
        // Padding that is cut ends its list.
        if out.bytes.len() - end == self.missing && (padding.len() == self.missing || ends_list) {
            out.bytes.truncate(end);
            out.put(padding);
        }
    }
}

/// The length in the header of the attribute that starts here.
fn len_at(start: usize, out: &Out) -> usize {
    usize::from(u16::from_le_bytes([out.bytes[start], out.bytes[start + 1]]))
}
