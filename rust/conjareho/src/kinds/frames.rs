//! The attributes of a list, one after the other.

use super::aside::Aside;
use super::wire::{Key, NLA_TYPE_MASK, Out, Place, Shape};
use alloc::boxed::Box;
use alloc::vec::Vec;

/// How a list treats kinds.
#[derive(Clone, Copy, PartialEq, Eq)]
pub enum Kinds {
    /// Its attributes name none.
    Plain,
    /// Each kind holds for the attributes after it.
    InForce,
    /// The first kind holds for all attributes.
    Own,
}

/// An attribute of a list.
pub trait Attr: Sized {
    /// How the list treats kinds.
    const KINDS: Kinds;
    /// Reads an attribute by its `nla_type` and payload, and appends it.
    fn read<'b>(word: u16, payload: &'b [u8], at: Place<'b>, items: &mut Vec<Self>) -> Found<'b>;
    /// Writes it.
    fn write(&self, out: &mut Out);
    /// Its `nla_type`, with its flags.
    fn word(&self) -> u16;
    /// Which of its forms its payload has. `None` if that isn't of a form.
    fn shape(&self) -> Option<Shape>;
    /// The kind that it names.
    fn kind(&self) -> Option<&str>;
    /// Its name in Rust, such as `HtbAttr::Parms`. `None` if the table doesn't have it.
    fn name(&self) -> Option<&'static str>;
}

/// The form of a list.
pub trait Frames {
    /// What an attribute is read as.
    type Item;
    /// How the list treats kinds.
    const KINDS: Kinds;
    /// Reads an attribute, and appends its item. `None` if the list can't have it.
    fn read_frame<'b>(frame: Frame<'b>, at: Place<'b>, items: &mut Vec<Self::Item>) -> Option<Found<'b>>;
    /// Writes an attribute.
    fn write_frame(item: &Self::Item, out: &mut Out);
    /// What an attribute is, as the table says it: its `nla_type` if its item determines that, and which of its forms its payload has.
    fn sort(item: &Self::Item) -> (u16, Option<Shape>);
    /// The kind that an attribute names.
    fn kind_of(item: &Self::Item) -> Option<&str>;
}

/// What was read of an attribute, beside its item.
pub struct Found<'b> {
    /// The `nla_type` with which it would be written.
    pub word: u16,
    /// The bytes after the record that it holds.
    pub rest: &'b [u8],
    /// True for a kind.
    pub is_kind: bool,
}

impl Found<'_> {
    /// Whether it is a kind without a NUL.
    #[inline(always)]
    pub fn is_bare(&self, frame: Frame<'_>) -> bool {
        self.is_kind && frame.payload.last() != Some(&0)
    }
}

/// The size of the padding after so many bytes.
#[inline(always)]
pub const fn missing(len: usize) -> usize {
    len.wrapping_neg() % 4
}

/// An attribute as it is in the bytes.
#[derive(Clone, Copy)]
pub struct Frame<'b> {
    /// `nla_type`, with flags.
    pub word: u16,
    pub payload: &'b [u8],
    /// The bytes after the payload, padding first.
    pub after: &'b [u8],
}

impl<'b> Frame<'b> {
    /// The attribute at the front. `None` if it is cut or broken, or if nothing is left.
    #[inline(always)]
    pub fn first(bytes: &'b [u8]) -> Option<Self> {
        let (header, _) = bytes.split_first_chunk::<4>()?;
        let [low, high, word @ ..] = *header;
        let (frame, after) = bytes.split_at_checked(usize::from(u16::from_le_bytes([low, high])))?;
        Some(Frame { word: u16::from_le_bytes(word), payload: frame.get(4..)?, after })
    }

    /// The type, without flags.
    #[inline(always)]
    pub fn number(self) -> u16 {
        self.word & NLA_TYPE_MASK
    }

    /// The bytes after the padding.
    #[inline(always)]
    pub fn next(self) -> &'b [u8] {
        self.after.get(missing(self.payload.len())..).unwrap_or(&[])
    }

    /// The padding, which may be cut.
    #[inline(always)]
    pub fn padding(self) -> &'b [u8] {
        self.after.get(..missing(self.payload.len())).unwrap_or(self.after)
    }

    /// Whether the padding is whole and zeros.
    #[inline(always)]
    pub fn is_padded(self) -> bool {
        match (missing(self.payload.len()), self.after) {
            (0, _) => true,
            (1, [a, ..]) => *a == 0,
            (2, [a, b, ..]) => a | b == 0,
            (3, [a, b, c, ..]) => a | b | c == 0,
            _ => false,
        }
    }
}

/// How many attributes a list has.
#[inline(always)]
fn count(mut bytes: &[u8]) -> usize {
    let mut count = 0;
    while let Some(frame) = Frame::first(bytes) {
        count += 1;
        bytes = frame.next();
    }
    count
}

/// The first kind of a list.
#[inline(never)]
fn own_kind(mut bytes: &[u8]) -> Key {
    while let Some(frame) = Frame::first(bytes) {
        if let (1, Some(kind)) = (frame.number(), Key::of_payload(frame.payload)) {
            return kind;
        }
        bytes = frame.next();
    }
    Key::NONE
}

/// Calls `each` with the attributes of a list, in their order, until it returns `None`. Returns the bytes after the last whole one.
#[inline(always)]
pub fn for_each_frame<'b, 'p>(
    mut bytes: &'b [u8],
    mut at: Place<'p>,
    kinds: Kinds,
    mut each: impl FnMut(Frame<'b>, Place<'p>) -> Option<()>,
) -> Option<&'b [u8]> {
    if kinds == Kinds::Own {
        at.kind = own_kind(bytes);
    }
    while let Some(frame) = Frame::first(bytes) {
        if kinds == Kinds::InForce && frame.number() == 1 {
            at.kind = Key::of_payload(frame.payload).unwrap_or(at.kind);
        }
        each(frame, at)?;
        bytes = frame.next();
    }
    Some(bytes)
}

/// The items of a list, and what its table doesn't describe.
pub type Items<T> = (Vec<T>, Option<Box<Aside>>);

/// Reads the attributes of a list.
#[inline(always)]
pub fn read_frames<'b, L: Frames>(bytes: &'b [u8], at: Place<'b>) -> Option<Items<L::Item>> {
    let (mut items, mut aside) = (Vec::with_capacity(count(bytes)), None);
    let tail = for_each_frame(bytes, at, L::KINDS, |frame, at| {
        let found = L::read_frame(frame, at, &mut items)?;
        if frame.word != found.word || !found.rest.is_empty() || !frame.is_padded() || found.is_bare(frame) {
            Aside::keep::<L>(&mut aside, &items, frame, &found);
        }
        Some(())
    })?;
    if !tail.is_empty() {
        at.is_broken.set(true);
        Aside::of(&mut aside).tail = tail.to_vec();
    }
    Some((items, aside))
}

/// Writes the attributes of a list.
#[inline(always)]
pub fn write_frames<L: Frames>(items: &[L::Item], aside: Option<&Aside>, out: &mut Out) {
    match aside {
        None => items.iter().for_each(|item| L::write_frame(item, out)),
        Some(aside) => aside.write::<L>(items, out),
    }
}
