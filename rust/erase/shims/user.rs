//! What programs and tests use besides: growth of texts and slices that can fail, and the failure of a test.

use crate::fallible::{self, AllocError, Fallible};
#[cfg(test)]
use alloc::boxed::Box;
use alloc::string::String;
use alloc::vec::Vec;

/// Why a test failed.
#[cfg(test)]
pub(crate) type Fail = Box<dyn core::error::Error>;

/// Where the last character begins that ends after so many bytes, or the length of a shorter text. Rust 1.91 has it as `str::floor_char_boundary`.
pub(crate) fn char_boundary(text: &str, most: usize) -> usize {
    (0..=most.min(text.len())).rev().find(|at| text.is_char_boundary(*at)).unwrap_or(0)
}

/// Growth that can fail.
pub(crate) trait Growing<T: ?Sized> {
    fn try_push_str(&mut self, text: &T) -> Result<(), AllocError>;
}

impl Growing<str> for String {
    fn try_push_str(&mut self, text: &str) -> Result<(), AllocError> {
        self.try_reserve(text.len()).map_err(|_| AllocError)?;
        self.push_str(text);
        Ok(())
    }
}

impl Fallible<char> for String {
    fn try_grow(&mut self, more: usize) -> Result<(), AllocError> {
        self.try_reserve(more).map_err(|_| AllocError)
    }

    fn try_push(&mut self, item: char) -> Result<(), AllocError> {
        self.try_push_str(item.encode_utf8(&mut [0; 4]))
    }

    fn try_extend(&mut self, more: &[char]) -> Result<(), AllocError> {
        more.iter().try_for_each(|c| self.try_push(*c))
    }
}

/// A copy that can fail.
pub(crate) trait Copying<T> {
    fn try_to_vec(&self) -> Result<Vec<T>, AllocError>;
}

impl<T: Clone> Copying<T> for [T] {
    fn try_to_vec(&self) -> Result<Vec<T>, AllocError> {
        fallible::copy(self)
    }
}

/// What each erased module of a program or of tests imports.
#[allow(unused_imports)]
pub(crate) mod prelude {
    pub(crate) use super::{Copying as _, Growing as _, Showing as _};
    pub(crate) use crate::fallible::prelude::*;
}

/// Text of what is shown.
pub(crate) trait Showing: core::fmt::Display {
    fn try_to_string(&self) -> Result<String, AllocError> {
        formatted(format_args!("{self}"))
    }
}

impl<T: core::fmt::Display + ?Sized> Showing for T {}

/// Text as it is formatted, into a string that grows where there is memory.
pub(crate) fn formatted(text: core::fmt::Arguments<'_>) -> Result<String, AllocError> {
    struct Text(String);
    impl core::fmt::Write for Text {
        fn write_str(&mut self, part: &str) -> core::fmt::Result {
            self.0.try_reserve(part.len()).map_err(|_| core::fmt::Error)?;
            self.0.push_str(part);
            Ok(())
        }
    }
    let mut all = Text(String::new());
    core::fmt::write(&mut all, text).map_err(|_| AllocError)?;
    Ok(all.0)
}

/// The items of an iterator.
pub(crate) fn collected<T>(items: impl Iterator<Item = T>) -> Result<Vec<T>, AllocError> {
    let mut all = Vec::new();
    for item in items {
        all.try_push(item)?;
    }
    Ok(all)
}
