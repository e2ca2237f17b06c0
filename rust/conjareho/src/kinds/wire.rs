//! Reading and writing. Each type of the tables has a [`Form`], which reads a value only if it writes the same bytes again.

use super::frames::missing;
use alloc::vec::Vec;
use core::cell::Cell;

/// The levels of forms that are read. Deeper attributes are kept as bytes, as `forms_json` does.
pub const DEEPEST: u8 = 16;
/// The part of `nla_type` that is the type, without flags.
pub const NLA_TYPE_MASK: u16 = crate::NLA_TYPE_MASK;
/// The most bytes of an attribute's payload.
const MOST: usize = 65531;

/// Where bytes are read.
#[derive(Clone, Copy)]
pub struct Place<'b> {
    /// The kind in force, which selects the form of options and statistics.
    pub kind: Key,
    /// The levels of forms left.
    pub levels: u8,
    /// Set if bytes aren't of their form, which are then kept as they are.
    pub is_broken: &'b Cell<bool>,
}

impl Place<'_> {
    /// The place one level down.
    #[inline(always)]
    pub fn below(self) -> Option<Self> {
        Some(Place { levels: self.levels.checked_sub(1)?, ..self })
    }
}

/// A layout of bytes.
pub trait Form {
    /// The type of its values.
    type Value;
    /// The size of a value in bytes, if all values have the same.
    const WIDTH: Option<usize>;

    /// Reads the value at the front of the bytes, and returns it with those after it.
    fn read<'b>(bytes: &'b [u8], at: Place<'b>) -> Option<(Self::Value, &'b [u8])>;

    /// Writes a value into `WIDTH` bytes, which are zeros. Returns false if it doesn't fit. Forms without a width are only written.
    #[inline(always)]
    fn store(_value: &Self::Value, _bytes: &mut [u8]) -> bool {
        true
    }

    /// Writes a value.
    #[inline(always)]
    fn write(value: &Self::Value, out: &mut Out) {
        out.put_stored::<Self>(value);
    }

    /// The value of zeros, or of nothing.
    fn blank() -> Self::Value;

    /// The flags of the attribute that holds a value, beside those that its table says.
    #[inline(always)]
    fn flags(_value: &Self::Value) -> u16 {
        0
    }

    /// The kind that a value names.
    #[inline(always)]
    fn kind(_value: &Self::Value) -> Option<&str> {
        None
    }

    /// Which of its forms a value has, where the kind or the bytes choose one.
    #[inline(always)]
    fn shape(_value: &Self::Value) -> Shape {
        Shape::default()
    }
}

/// Which of several forms a value has: the variant by kind, and that of a choice.
#[derive(Clone, Copy, PartialEq, Eq, Hash, Debug, Default)]
pub struct Shape {
    /// The variant of options or statistics.
    pub kind: &'static str,
    /// The variant of a choice.
    pub choice: &'static str,
}

/// Reads a value one level down.
#[inline(always)]
pub fn within<'b, F: Form>(bytes: &'b [u8], at: Place<'b>) -> Option<(F::Value, &'b [u8])> {
    F::read(bytes, at.below()?)
}

/// Reads a value one level down that takes all bytes.
#[inline(always)]
pub fn whole<F: Form>(bytes: &[u8], at: Place<'_>) -> Option<F::Value> {
    within::<F>(bytes, at).filter(|(_, rest)| rest.is_empty()).map(|(value, _)| value)
}

/// Reads the field at the front of a record's bytes, and takes its bytes.
#[inline(always)]
pub fn field<'b, F: Form>(bytes: &mut &'b [u8], at: Place<'b>) -> Option<F::Value> {
    let (own, after) = bytes.split_at_checked(F::WIDTH.unwrap_or(bytes.len()))?;
    let (value, rest) = within::<F>(own, at)?;
    // A field of any width is the last, and what it leaves is the record's rest.
    *bytes = if F::WIDTH.is_none() { rest } else { after };
    (F::WIDTH.is_none() || rest.is_empty()).then_some(value)
}

/// Writes the field at the front of a record's bytes, and takes its bytes.
#[inline(always)]
pub fn store_field<F: Form>(value: &F::Value, bytes: &mut &mut [u8]) -> bool {
    let Some((own, rest)) = core::mem::take(bytes).split_at_mut_checked(F::WIDTH.unwrap_or(0)) else { return false };
    *bytes = rest;
    F::store(value, own)
}

/// The size of a record's fields together.
pub const fn total(widths: &[Option<usize>]) -> Option<usize> {
    let (mut sum, mut at) = (0, 0);
    while at < widths.len() {
        let Some(width) = widths[at] else { return None };
        sum += width;
        at += 1;
    }
    Some(sum)
}

/// The bytes after `start`, if they begin with it and are `len` in all. A line of a choice requires both.
#[inline(always)]
pub fn chosen<'b>(bytes: &'b [u8], start: &[u8], len: Option<usize>) -> Option<&'b [u8]> {
    bytes.strip_prefix(start).filter(|_| len.is_none_or(|len| len == bytes.len()))
}

/// The text of a kind, without the NUL at its end.
pub fn kind_text(payload: &[u8]) -> Option<&str> {
    core::str::from_utf8(payload.strip_suffix(&[0]).unwrap_or(payload)).ok()
}

/// A kind as a number, which is compared faster than a text: its bytes, and above them its length. 0 for a kind of more than 15 bytes,
/// and so of no table, and for none.
#[derive(Clone, Copy, PartialEq, Eq)]
pub struct Key(u128);

impl Key {
    /// No kind.
    pub const NONE: Key = Key(0);

    /// The number of a kind.
    pub const fn of(kind: &[u8]) -> Key {
        let (mut number, mut at) = (0, kind.len());
        if at > 15 {
            return Key::NONE;
        }
        while at > 0 {
            at -= 1;
            number = number << 8 | kind[at] as u128;
        }
        Key(number | (kind.len() as u128) << 120)
    }

    /// The number of a kind that a table has, which the compiler finds. A longer kind would be none.
    pub const fn of_table(kind: &str) -> Key {
        assert!(kind.len() <= 15, "a kind has at most 15 bytes, as in Linux");
        Key::of(kind.as_bytes())
    }

    /// The kind of a payload, as [`kind_text`] reads it.
    #[inline]
    pub fn of_payload(payload: &[u8]) -> Option<Key> {
        let text = payload.strip_suffix(&[0]).unwrap_or(payload);
        (text.is_ascii() || core::str::from_utf8(text).is_ok()).then(|| Key::of(text))
    }
}

/// Bytes that are being written.
#[derive(Default)]
pub struct Out {
    /// The bytes written so far.
    pub bytes: Vec<u8>,
    /// True if an attribute is too long or a number too large for its width. The bytes are of no use then.
    pub is_unfit: bool,
}

impl Out {
    #[inline(always)]
    pub fn put(&mut self, bytes: &[u8]) {
        self.bytes.extend_from_slice(bytes);
    }

    /// Writes a value of a form of one width.
    #[inline(always)]
    pub fn put_stored<F: Form + ?Sized>(&mut self, value: &F::Value) {
        let start = self.bytes.len();
        self.bytes.resize(start + F::WIDTH.unwrap_or(0), 0);
        self.is_unfit |= !F::store(value, &mut self.bytes[start..]);
    }

    /// Writes an attribute: its header, its payload and its padding at once, if the payload has one width.
    #[inline(always)]
    pub fn put_frame<F: Form>(&mut self, word: u16, value: &F::Value) {
        let start = self.bytes.len();
        if let Some(width) = F::WIDTH {
            self.bytes.resize(start + 4 + width + missing(width), 0);
            let frame = &mut self.bytes[start..][..4 + width];
            frame[..2].copy_from_slice(&((width + 4) as u16).to_le_bytes());
            frame[2..4].copy_from_slice(&word.to_le_bytes());
            self.is_unfit |= !F::store(value, &mut frame[4..]);
        } else {
            self.put(&(u32::from(word) << 16).to_le_bytes());
            F::write(value, self);
            self.end_frame(start);
        }
    }

    /// Writes the length and the padding of the attribute that starts here, and whose payload ends the bytes.
    #[inline(never)]
    pub fn end_frame(&mut self, start: usize) {
        let payload = self.bytes.len() - start - 4;
        self.is_unfit |= payload > MOST;
        self.bytes[start..start + 2].copy_from_slice(&((payload + 4) as u16).to_le_bytes());
        self.bytes.resize(start + 4 + payload + missing(payload), 0);
    }
}
