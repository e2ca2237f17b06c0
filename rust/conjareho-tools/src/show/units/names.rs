//! Names of numbers.

use crate::user::prelude::*;

use crate::show::units::unit::Unit;
use crate::show::units::units::put_number;

/// A number, or a bit of a flag word, and its name. Generic in the text type, since specs can cite a constant only if
/// its type has no lifetime.
#[derive(Clone, Copy)]
pub struct NameOf<N> {
    /// The number. For a bit a power of two.
    pub number: u64,
    pub name: N,
    /// The kernel's constant, which `--explain` prints. Empty if there is none.
    pub kernel: N,
}

/// A number, or a bit of a flag word, and its name.
pub type Name<'a> = NameOf<&'a str>;

/// The first name of a number in a list.
#[must_use]
pub fn name_of<'a>(names: &[Name<'a>], n: u64) -> Option<&'a str> {
    match names.split_first() {
        Some((name, _)) if name.number == n => Some(name.name),
        Some((_, others)) => name_of(others, n),
        None => None,
    }
}

/// The number of the first entry with this name.
#[must_use]
pub fn number_of(names: &[Name<'_>], text: &str) -> Option<u64> {
    match names.split_first() {
        Some((name, _)) if is_same(name.name, text) => Some(name.number),
        Some((_, others)) => number_of(others, text),
        None => None,
    }
}

fn is_same(a: &str, b: &str) -> bool {
    a == b
}

/// Appends a number: its name, and the number in its unit in parentheses, or only the number if it has no name.
///
/// # Errors
///
/// A [`AllocError`].
pub fn put_named(out: &mut Vec<u8>, unit: Unit, names: &[Name<'_>], n: u64) -> Result<(), AllocError> {
    let name = match name_of(names, n) {
        Some(name) => name,
        None => return put_number(out, unit, n),
    };
    out.try_extend(name.as_bytes())?;
    out.try_extend(b" (")?;
    put_number(out, unit, n)?;
    out.try_extend(b")")
}
