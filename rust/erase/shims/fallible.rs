//! Collections whose growth can fail, over `try_reserve`.
#![allow(dead_code, unused_imports)] // each erased crate uses some of it

use crate::nla_frames::{Emitable, ParseableBytes};
use prelude::{String, Vec};

/// What each erased module imports.
pub(crate) mod prelude {
    pub(crate) use crate::fallible::{self, AllocError, Fallible as _, Signed as _};
    pub(crate) use alloc::{string::String, string::ToString as _, vec::Vec};
    pub(crate) use core::{fmt::Write as _, str::FromStr as _};
}

/// Memory ran out.
#[derive(Clone, Copy, PartialEq, Eq, Debug)]
pub struct AllocError;

impl core::fmt::Display for AllocError {
    fn fmt(&self, f: &mut core::fmt::Formatter<'_>) -> core::fmt::Result {
        f.write_str("out of memory")
    }
}

impl core::error::Error for AllocError {}

pub(crate) fn with_capacity<T>(len: usize) -> Result<Vec<T>, AllocError> {
    let mut items = Vec::new();
    items.try_reserve_exact(len).map_err(|_| AllocError)?;
    Ok(items)
}

pub(crate) fn copy<T: Clone>(items: &[T]) -> Result<Vec<T>, AllocError> {
    let mut copy = with_capacity(items.len())?;
    copy.extend_from_slice(items);
    Ok(copy)
}

pub(crate) fn filled<T: Clone>(item: T, len: usize) -> Result<Vec<T>, AllocError> {
    let mut items = with_capacity(len)?;
    items.resize(len, item);
    Ok(items)
}

pub(crate) fn text(text: &str) -> Result<String, AllocError> {
    let mut copy = String::new();
    copy.try_reserve_exact(text.len()).map_err(|_| AllocError)?;
    Ok(copy + text)
}

/// A copy of a message that is read as it was written, by its bytes, since `clone` can't fail in Rust.
pub(crate) fn copied<M: Emitable + ParseableBytes>(message: &M) -> Result<M, AllocError> {
    let mut bytes = filled(0, message.checked_len().ok_or(AllocError)?)?;
    message.emit(&mut bytes);
    M::parse(&bytes).map_err(|_| AllocError)
}

pub(crate) trait Fallible<T> {
    fn try_grow(&mut self, more: usize) -> Result<(), AllocError>;
    fn try_push(&mut self, item: T) -> Result<(), AllocError>;
    fn try_extend(&mut self, more: &[T]) -> Result<(), AllocError>
    where
        T: Clone;
}

impl<T> Fallible<T> for Vec<T> {
    #[inline]
    fn try_grow(&mut self, more: usize) -> Result<(), AllocError> {
        self.try_reserve(more).map_err(|_| AllocError)
    }

    #[inline]
    fn try_push(&mut self, item: T) -> Result<(), AllocError> {
        self.try_grow(1)?;
        self.push(item);
        Ok(())
    }
    fn try_extend(&mut self, more: &[T]) -> Result<(), AllocError>
    where
        T: Clone,
    {
        self.try_grow(more.len()).map(|()| self.extend_from_slice(more))
    }
}

/// A number with a sign as one without: `cast_unsigned`, which numbers have themselves since Rust 1.87.
pub(crate) trait Signed {
    type Unsigned;
    fn unsigned(self) -> Self::Unsigned;
}

macro_rules! casts {
    ($($signed:ident $unsigned:ident,)*) => { $(
        impl Signed for $signed {
            type Unsigned = $unsigned;
            fn unsigned(self) -> $unsigned { self as $unsigned }
        }
    )* };
}

casts! { i8 u8, i16 u16, i32 u32, i64 u64, isize usize, }
