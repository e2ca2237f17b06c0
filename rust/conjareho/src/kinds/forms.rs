//! The forms of `kinds/README.md` that aren't tables.

use super::frames::{Attr, Found, Frame, Frames, Kinds, read_frames, write_frames};
use super::list::{Attrs, Indexed};
use super::values::{Bytes, Handle, Mac, Prob, Ticks};
use super::wire::{Form, Out, Place, Shape, field, kind_text, store_field, total, whole, within};
use alloc::string::String;
use alloc::vec::Vec;
use core::marker::PhantomData;
use core::net::{Ipv4Addr, Ipv6Addr};

/// A number of Rust.
pub trait Number: Copy + PartialEq {
    /// Its bits. The upper ones are its sign.
    fn bits(self) -> u64;
    /// The number with these bits. The upper ones are dropped.
    fn of_bits(bits: u64) -> Self;
}

/// A big-endian number.
pub struct Be<N>(PhantomData<N>);

/// A type whose values are numbers in a message.
pub trait Code {
    /// The number.
    type Number: Number;
    /// True for handles.
    const IS_HANDLE: bool = false;
    /// The value of a number.
    fn of(number: Self::Number) -> Self;
    /// The number of a value.
    fn number(&self) -> Self::Number;
}

/// Values of `C` as numbers of the form `F`.
pub struct Coded<C, F>(PhantomData<(C, F)>);

impl<C: Code, F: Form<Value: Number>> Form for Coded<C, F> {
    type Value = C;
    const WIDTH: Option<usize> = F::WIDTH;

    #[inline(always)]
    fn read<'b>(bytes: &'b [u8], at: Place<'b>) -> Option<(C, &'b [u8])> {
        let (number, rest) = F::read(bytes, at)?;
        Some((C::of(C::Number::of_bits(number.bits())), rest))
    }

    #[inline(always)]
    fn store(value: &C, bytes: &mut [u8]) -> bool {
        let number = value.number();
        let written = F::Value::of_bits(number.bits());
        F::store(&written, bytes) & (C::Number::of_bits(written.bits()) == number)
    }

    fn blank() -> C {
        C::of(C::Number::of_bits(0))
    }
}

macro_rules! codes {
    ($($code:ident $is_handle:literal)*) => { $(
        impl Code for $code {
            type Number = u32;
            const IS_HANDLE: bool = $is_handle;
            #[inline(always)]
            fn of(number: u32) -> Self { $code(number) }
            #[inline(always)]
            fn number(&self) -> u32 { self.0 }
        }
        impl From<u32> for $code {
            fn from(number: u32) -> Self { $code(number) }
        }
    )* };
}

codes! { Handle true Ticks false Prob false }

// Not of ticks: most numbers that are times have another unit.
macro_rules! numbers_of {
    ($($code:ident)*) => { $(
        impl From<$code> for u32 {
            fn from(value: $code) -> u32 { value.0 }
        }
    )* };
}

numbers_of! { Handle Prob }

/// A form of one width: its name with its parameters, the type of its values, its width, how a value is read from so many bytes and
/// written as them, and the value of zeros.
macro_rules! fixed {
    ($(const $n:ident;)? $form:ty, $value:ty, $width:expr, $bytes:ident => $read:expr, $it:ident => $octets:expr, $blank:expr) => {
        impl$(<const $n: usize>)? Form for $form {
            type Value = $value;
            const WIDTH: Option<usize> = Some($width);

            #[inline(always)]
            fn read<'b>(bytes: &'b [u8], _at: Place<'b>) -> Option<($value, &'b [u8])> {
                let $bytes = <[u8; $width]>::try_from(bytes).ok()?;
                Some(($read, &[]))
            }

            #[inline(always)]
            fn store($it: &$value, bytes: &mut [u8]) -> bool {
                bytes.copy_from_slice(&$octets);
                true
            }

            fn blank() -> $value {
                $blank
            }
        }
    };
}

/// A form that takes all bytes: its name, the type of its values, how a value is read, and the bytes that it is written as, one after
/// the other.
macro_rules! unbounded {
    ($form:ty, $value:ty, $bytes:ident => $read:expr, $it:ident => $($octets:expr),*) => {
        impl Form for $form {
            type Value = $value;
            const WIDTH: Option<usize> = None;

            #[inline]
            fn read<'b>($bytes: &'b [u8], _at: Place<'b>) -> Option<($value, &'b [u8])> {
                Some(($read, &[]))
            }

            #[inline]
            fn write($it: &$value, out: &mut Out) {
                $(out.put($octets);)*
            }

            fn blank() -> $value {
                Default::default()
            }
        }
    };
}

macro_rules! numbers {
    ($($number:ident)*) => { $(
        impl Number for $number {
            #[inline(always)]
            fn bits(self) -> u64 { self as u64 }
            #[inline(always)]
            fn of_bits(bits: u64) -> Self { bits as $number }
        }
        fixed! { $number, $number, size_of::<$number>(), bytes => $number::from_le_bytes(bytes), it => it.to_le_bytes(), 0 }
        fixed! { Be<$number>, $number, size_of::<$number>(), bytes => $number::from_be_bytes(bytes), it => it.to_be_bytes(), 0 }
    )* };
}

numbers! { u8 u16 u32 u64 i8 i16 i32 i64 }

/// Nothing: what counts is that the attribute is there.
pub struct Empty;
/// A byte that is 0 or 1.
pub struct Truth;
/// UTF-8 with a NUL at its end.
pub struct Text;
/// UTF-8.
pub struct Bare;
/// So many bytes.
pub struct Fixed<const N: usize>;
/// So many zeros.
pub struct Pad<const N: usize>;

fixed! { Empty, (), 0, _bytes => (), _value => [], () }
fixed! { Truth, bool, 1, bytes => match bytes { [0] => false, [1] => true, _ => return None }, it => [u8::from(*it)], false }
fixed! { const N; Fixed<N>, [u8; N], N, bytes => bytes, it => *it, [0; N] }
fixed! { const N; Pad<N>, [u8; N], N, bytes => bytes, it => *it, [0; N] }
fixed! { Mac, Mac, 6, bytes => Mac(bytes), it => it.0, Mac::default() }
fixed! { Ipv4Addr, Ipv4Addr, 4, bytes => bytes.into(), it => it.octets(), Ipv4Addr::UNSPECIFIED }
fixed! { Ipv6Addr, Ipv6Addr, 16, bytes => bytes.into(), it => it.octets(), Ipv6Addr::UNSPECIFIED }
unbounded! { Text, String, bytes => utf8(bytes.strip_suffix(&[0])?)?, it => it.as_bytes(), &[0] }
unbounded! { Bare, String, bytes => utf8(bytes)?, it => it.as_bytes() }
unbounded! { Bytes, Bytes, bytes => Bytes(bytes.to_vec()), it => it }

fn utf8(bytes: &[u8]) -> Option<String> {
    core::str::from_utf8(bytes).ok().map(String::from)
}

/// The text of a kind: UTF-8 and a NUL, which may be missing where it is read.
pub struct Kind;

impl Form for Kind {
    type Value = String;
    const WIDTH: Option<usize> = None;

    #[inline]
    fn read<'b>(bytes: &'b [u8], _at: Place<'b>) -> Option<(String, &'b [u8])> {
        Some((kind_text(bytes)?.into(), &[]))
    }

    #[inline]
    fn write(value: &String, out: &mut Out) {
        Text::write(value, out);
    }

    fn blank() -> String {
        String::new()
    }

    fn kind(value: &String) -> Option<&str> {
        Some(value)
    }
}

/// Values to the end of the bytes, but for a rest that is too short for one.
pub struct Array<F>(PhantomData<F>);

impl<F: Form> Form for Array<F> {
    type Value = Vec<F::Value>;
    const WIDTH: Option<usize> = None;

    fn read<'b>(bytes: &'b [u8], at: Place<'b>) -> Option<(Vec<F::Value>, &'b [u8])> {
        let chunks = bytes.chunks_exact(F::WIDTH.filter(|width| *width > 0)?);
        let rest = chunks.remainder();
        let values: Option<_> = chunks.map(|bytes| whole::<F>(bytes, at)).collect();
        Some((values?, rest))
    }

    fn write(value: &Vec<F::Value>, out: &mut Out) {
        value.iter().for_each(|it| F::write(it, out));
    }

    fn blank() -> Vec<F::Value> {
        Vec::new()
    }
}

/// So many values.
pub struct Times<const N: usize, F>(PhantomData<F>);

impl<const N: usize, F: Form> Form for Times<N, F> {
    type Value = [F::Value; N];
    const WIDTH: Option<usize> = total(&[F::WIDTH; N]);

    fn read<'b>(mut bytes: &'b [u8], at: Place<'b>) -> Option<([F::Value; N], &'b [u8])> {
        let values: Option<Vec<F::Value>> = (0..N).map(|_| field::<F>(&mut bytes, at)).collect();
        Some((values.filter(|_| bytes.is_empty())?.try_into().ok()?, &[]))
    }

    fn store(value: &[F::Value; N], mut bytes: &mut [u8]) -> bool {
        value.iter().fold(true, |fits, it| fits & store_field::<F>(it, &mut bytes))
    }

    fn blank() -> [F::Value; N] {
        core::array::from_fn(|_| F::blank())
    }
}

/// Attributes of a list.
pub struct List<A>(PhantomData<A>);

impl<A: Attr> Frames for List<A> {
    type Item = A;
    const KINDS: Kinds = A::KINDS;

    #[inline(always)]
    fn read_frame<'b>(frame: Frame<'b>, at: Place<'b>, items: &mut Vec<A>) -> Option<Found<'b>> {
        Some(A::read(frame.word, frame.payload, at, items))
    }

    #[inline(always)]
    fn write_frame(item: &A, out: &mut Out) {
        item.write(out);
    }

    fn sort(item: &A) -> (u16, Option<Shape>) {
        (item.word(), item.shape())
    }

    fn kind_of(item: &A) -> Option<&str> {
        item.kind()
    }
}

impl<A: Attr> Form for List<A> {
    type Value = Attrs<A>;
    const WIDTH: Option<usize> = None;

    #[inline(never)]
    fn read<'b>(bytes: &'b [u8], at: Place<'b>) -> Option<(Attrs<A>, &'b [u8])> {
        let (items, aside) = read_frames::<Self>(bytes, at)?;
        Some((Attrs { items, aside }, &[]))
    }

    #[inline(never)]
    fn write(value: &Attrs<A>, out: &mut Out) {
        write_frames::<Self>(&value.items, value.aside.as_deref(), out);
    }

    fn blank() -> Attrs<A> {
        Attrs::default()
    }
}

/// Attributes of any type, each with this form as payload.
pub struct Each<F>(PhantomData<F>);

impl<F: Form> Frames for Each<F> {
    type Item = (u16, F::Value);
    const KINDS: Kinds = Kinds::Plain;

    #[inline(always)]
    fn read_frame<'b>(frame: Frame<'b>, at: Place<'b>, items: &mut Vec<Self::Item>) -> Option<Found<'b>> {
        let (item, rest) = within::<F>(frame.payload, at)?;
        items.push((frame.word, item));
        Some(Found { word: frame.word, rest, is_kind: false })
    }

    #[inline(always)]
    fn write_frame((word, item): &Self::Item, out: &mut Out) {
        out.put_frame::<F>(*word, item);
    }

    // Any type holds this form, so that the type may change.
    fn sort((_, item): &Self::Item) -> (u16, Option<Shape>) {
        (0, Some(F::shape(item)))
    }

    fn kind_of(_item: &Self::Item) -> Option<&str> {
        None
    }
}

impl<F: Form> Form for Each<F> {
    type Value = Indexed<F::Value>;
    const WIDTH: Option<usize> = None;

    #[inline(never)]
    fn read<'b>(bytes: &'b [u8], at: Place<'b>) -> Option<(Indexed<F::Value>, &'b [u8])> {
        let (items, aside) = read_frames::<Self>(bytes, at)?;
        Some((Indexed { items, aside }, &[]))
    }

    #[inline(never)]
    fn write(value: &Indexed<F::Value>, out: &mut Out) {
        write_frames::<Self>(&value.items, value.aside.as_deref(), out);
    }

    fn blank() -> Indexed<F::Value> {
        Indexed::default()
    }
}
