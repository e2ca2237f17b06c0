//! How each form is shown.

use super::row::{CONTENTS, Row};
use super::{Group, Mark, Value, Visit};
use crate::kinds::forms::{
    Array, Bare, Be, Code, Coded, Each, Empty, Fixed, Kind, List, Number, Pad, Text, Times, Truth,
};
use crate::kinds::frames::{Attr, Frame, Kinds, for_each_frame};
use crate::kinds::values::{Bytes, Handle, Mac};
use crate::kinds::wire::{Form, Place, kind_text};
use core::net::{Ipv4Addr, Ipv6Addr};

/// A form whose bytes can be shown.
pub trait Shown: Form {
    /// True for a kind.
    const IS_KIND: bool = false;

    /// Whether the bytes are of the form: whether `read` has a value of them.
    fn fits(bytes: &[u8], at: Place<'_>) -> bool;

    /// Shows the value of bytes. Returns the flags of the attribute that holds it, beside those that its table says. If the bytes aren't
    /// of the form it shows nothing, and returns `None`.
    fn show<'b, V: Visit<'b>>(row: &'static Row, bytes: &'b [u8], at: Place<'_>, to: &mut V) -> Option<u16>;
}

/// An attribute whose bytes can be shown.
pub trait ShownAttr: Attr {
    /// Shows an attribute. Returns the `nla_type` with which it would be written, and whether it is a kind.
    fn show<'b, V: Visit<'b>>(frame: Frame<'b>, at: Place<'_>, to: &mut V) -> (u16, bool);
}

/// Takes the bytes of a field off the front.
#[inline(always)]
fn take_field<'b, F: Form>(bytes: &mut &'b [u8]) -> Option<&'b [u8]> {
    let (own, after) = bytes.split_at_checked(F::WIDTH.unwrap_or(bytes.len()))?;
    *bytes = after;
    Some(own)
}

/// Whether the front of a record's bytes is of a field, whose bytes it takes.
#[inline(always)]
pub fn fits_field<F: Shown>(bytes: &mut &[u8], at: Place<'_>) -> bool {
    let own = take_field::<F>(bytes);
    own.zip(at.below()).is_some_and(|(own, at)| F::fits(own, at))
}

/// Shows the field at the front of a record's bytes, which it takes.
#[inline(always)]
pub fn show_field<'b, F: Shown, V: Visit<'b>>(row: &'static Row, bytes: &mut &'b [u8], at: Place<'_>, to: &mut V) {
    if let Some((own, at)) = take_field::<F>(bytes).zip(at.below()) {
        F::show(row, own, at, to);
    }
}

/// Shows the statistics of a kind, in an object of their own.
pub fn show_of_kind<'b, F: Shown, V: Visit<'b>>(
    around: &'static Row,
    row: &'static Row,
    bytes: &'b [u8],
    at: Place<'_>,
    to: &mut V,
) -> Option<u16> {
    let at = at.below()?;
    let (own, rest) = bytes.split_at_checked(F::WIDTH.unwrap_or(bytes.len()))?;
    if !F::fits(own, at) {
        return None;
    }
    if to.open(around, Group::Choice) {
        F::show(row, own, at, to);
        mark_rest(rest, to);
        to.close(Group::Choice);
    }
    Some(0)
}

#[inline(always)]
fn mark_rest<'b, V: Visit<'b>>(rest: &'b [u8], to: &mut V) {
    if !rest.is_empty() {
        to.mark(Mark::Rest(rest));
    }
}

#[inline(always)]
fn mark_padding<'b, V: Visit<'b>>(frame: Frame<'b>, to: &mut V) {
    if !frame.is_padded() {
        to.mark(Mark::Padding(frame.padding()));
    }
}

/// A form that is one value: its name with its parameters, and the value of bytes, if they are of the form.
macro_rules! leaf {
    ($(const $n:ident;)? $form:ty, $bytes:ident => $value:expr) => {
        impl$(<const $n: usize>)? Shown for $form {
            #[inline(always)]
            fn fits($bytes: &[u8], _at: Place<'_>) -> bool {
                $value.is_some()
            }

            #[inline(always)]
            fn show<'b, V: Visit<'b>>(row: &'static Row, $bytes: &'b [u8], _at: Place<'_>, to: &mut V) -> Option<u16> {
                to.value(row, $value?);
                Some(0)
            }
        }
    };
}

macro_rules! numbers {
    ($value:ident: $($number:ident)*) => { $(
        leaf! { $number, bytes => bytes.try_into().ok().map(|it| Value::$value($number::from_le_bytes(it).into())) }
        leaf! { Be<$number>, bytes => bytes.try_into().ok().map(|it| Value::$value($number::from_be_bytes(it).into())) }
    )* };
}

fn utf8(bytes: &[u8]) -> Option<&str> {
    core::str::from_utf8(bytes).ok()
}

numbers! { Unsigned: u8 u16 u32 u64 }
numbers! { Signed: i8 i16 i32 i64 }
leaf! { Empty, bytes => bytes.is_empty().then_some(Value::Flag) }
leaf! { Truth, bytes => match bytes { [0] => Some(Value::Bool(false)), [1] => Some(Value::Bool(true)), _ => None } }
leaf! { const N; Fixed<N>, bytes => (bytes.len() == N).then_some(Value::Bytes(bytes)) }
leaf! { Mac, bytes => bytes.try_into().ok().map(|it| Value::Mac(Mac(it))) }
leaf! { Ipv4Addr, bytes => <[u8; 4]>::try_from(bytes).ok().map(|it| Value::Ipv4(it.into())) }
leaf! { Ipv6Addr, bytes => <[u8; 16]>::try_from(bytes).ok().map(|it| Value::Ipv6(it.into())) }
leaf! { Text, bytes => bytes.strip_suffix(&[0]).and_then(utf8).map(Value::Text) }
leaf! { Bare, bytes => utf8(bytes).map(Value::Text) }
leaf! { Bytes, bytes => Some(Value::Bytes(bytes)) }

impl Shown for Kind {
    const IS_KIND: bool = true;

    #[inline(always)]
    fn fits(bytes: &[u8], _at: Place<'_>) -> bool {
        kind_text(bytes).is_some()
    }

    #[inline(always)]
    fn show<'b, V: Visit<'b>>(row: &'static Row, bytes: &'b [u8], _at: Place<'_>, to: &mut V) -> Option<u16> {
        to.value(row, Value::Text(kind_text(bytes)?));
        Some(0)
    }
}

impl<const N: usize> Shown for Pad<N> {
    #[inline(always)]
    fn fits(bytes: &[u8], _at: Place<'_>) -> bool {
        bytes.len() == N
    }

    #[inline(always)]
    fn show<'b, V: Visit<'b>>(row: &'static Row, bytes: &'b [u8], _at: Place<'_>, to: &mut V) -> Option<u16> {
        let own = <[u8; N]>::try_from(bytes).ok()?;
        if own != [0; N] {
            to.value(row, Value::Bytes(bytes));
        }
        Some(0)
    }
}

impl<C: Code, F: Shown<Value: Number>> Shown for Coded<C, F> {
    #[inline(always)]
    fn fits(bytes: &[u8], at: Place<'_>) -> bool {
        F::fits(bytes, at)
    }

    #[inline(always)]
    fn show<'b, V: Visit<'b>>(row: &'static Row, bytes: &'b [u8], at: Place<'_>, to: &mut V) -> Option<u16> {
        if C::IS_HANDLE {
            to.value(row, Value::Handle(Handle(u32::from_le_bytes(bytes.try_into().ok()?))));
            return Some(0);
        }
        F::show(row, bytes, at, to)
    }
}

/// Whether bytes are elements of one width; a rest that is too short for one is no element.
#[inline(always)]
fn fit_elements<F: Shown>(bytes: &[u8], at: Place<'_>) -> bool {
    let Some(width) = F::WIDTH.filter(|width| *width > 0) else { return false };
    bytes.chunks_exact(width).all(|bytes| at.below().is_some_and(|at| F::fits(bytes, at)))
}

/// Shows elements, and the rest after them.
fn show_elements<'b, F: Shown, V: Visit<'b>>(row: &'static Row, bytes: &'b [u8], at: Place<'_>, to: &mut V) -> Option<u16> {
    if !fit_elements::<F>(bytes, at) {
        return None;
    }
    if to.open(row, Group::Array) {
        let chunks = bytes.chunks_exact(F::WIDTH?);
        let rest = chunks.remainder();
        if let Some(at) = at.below() {
            chunks.for_each(|bytes| _ = F::show(row, bytes, at, to));
        }
        mark_rest(rest, to);
        to.close(Group::Array);
    }
    Some(0)
}

impl<F: Shown> Shown for Array<F> {
    #[inline(always)]
    fn fits(bytes: &[u8], at: Place<'_>) -> bool {
        fit_elements::<F>(bytes, at)
    }

    fn show<'b, V: Visit<'b>>(row: &'static Row, bytes: &'b [u8], at: Place<'_>, to: &mut V) -> Option<u16> {
        show_elements::<F, V>(row, bytes, at, to)
    }
}

// An attribute may have more or fewer elements than its table says.
impl<const N: usize, F: Shown> Shown for Times<N, F> {
    #[inline(always)]
    fn fits(bytes: &[u8], at: Place<'_>) -> bool {
        fit_elements::<F>(bytes, at)
    }

    fn show<'b, V: Visit<'b>>(row: &'static Row, bytes: &'b [u8], at: Place<'_>, to: &mut V) -> Option<u16> {
        show_elements::<F, V>(row, bytes, at, to)
    }
}

impl<A: ShownAttr> Shown for List<A> {
    #[inline(always)]
    fn fits(_bytes: &[u8], _at: Place<'_>) -> bool {
        true
    }

    #[inline(never)]
    fn show<'b, V: Visit<'b>>(row: &'static Row, bytes: &'b [u8], at: Place<'_>, to: &mut V) -> Option<u16> {
        if to.open(row, Group::List) {
            let tail = for_each_frame(bytes, at, A::KINDS, |frame, at| {
                let (word, is_kind) = A::show(frame, at, to);
                if is_kind && frame.payload.last() != Some(&0) {
                    to.mark(Mark::Bare);
                }
                if frame.word != word {
                    to.mark(Mark::Word(frame.word));
                }
                mark_padding(frame, to);
                Some(())
            });
            mark_rest(tail.unwrap_or_default(), to);
            to.close(Group::List);
        }
        Some(0)
    }
}

impl<F: Shown> Shown for Each<F> {
    fn fits(bytes: &[u8], at: Place<'_>) -> bool {
        let each = |frame: Frame<'_>, at: Place<'_>| at.below().filter(|at| F::fits(frame.payload, *at)).map(|_| ());
        for_each_frame(bytes, at, Kinds::Plain, each).is_some()
    }

    fn show<'b, V: Visit<'b>>(row: &'static Row, bytes: &'b [u8], at: Place<'_>, to: &mut V) -> Option<u16> {
        if !Self::fits(bytes, at) {
            return None;
        }
        if to.open(row, Group::Indexed) {
            let tail = for_each_frame(bytes, at, Kinds::Plain, |frame, at| {
                let group = Group::Element(frame.word);
                if to.open(row, group) {
                    F::show(&CONTENTS, frame.payload, at.below()?, to);
                    mark_padding(frame, to);
                    to.close(group);
                }
                Some(())
            });
            mark_rest(tail.unwrap_or_default(), to);
            to.close(Group::Indexed);
        }
        Some(0)
    }
}
