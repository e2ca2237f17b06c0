//! Types of single values.

use super::units::not_a;
use crate::tc::TcHandle;
use alloc::vec::Vec;
use core::fmt;
use core::ops::Deref;
use core::str::FromStr;

/// A handle of a qdisc, class or filter, in hex as `tc` writes it: `1:10` is 0x10010.
///
/// The handles and hash tables of `u32` have three parts, and are read as [`U32Parts`]: `800::800` is no `Handle`, and `800:` another
/// number than the table that `tc` means.
#[derive(Clone, Copy, PartialEq, Eq, Hash, PartialOrd, Ord, Default)]
pub struct Handle(pub u32);

impl Handle {
    /// The parent of a root qdisc: `TC_H_ROOT`.
    pub const ROOT: Handle = Handle(u32::MAX);
    /// The parent of `ingress` and `clsact`: `TC_H_INGRESS`, `TC_H_CLSACT`.
    pub const CLSACT: Handle = Handle(0xffff_fff1);
    /// The parent of filters of what `clsact` receives: `TC_H_MIN_INGRESS` of `ffff:`.
    pub const INGRESS: Handle = Handle(0xffff_fff2);
    /// The parent of filters of what `clsact` sends: `TC_H_MIN_EGRESS` of `ffff:`.
    pub const EGRESS: Handle = Handle(0xffff_fff3);

    /// The handle `major:minor`.
    #[must_use]
    pub const fn new(major: u16, minor: u16) -> Self {
        Handle((major as u32) << 16 | minor as u32)
    }

    /// Its upper half.
    #[must_use]
    pub const fn major(self) -> u16 {
        (self.0 >> 16) as u16
    }

    /// Its lower half.
    #[must_use]
    pub const fn minor(self) -> u16 {
        self.0 as u16
    }

    /// The handle of a `u32` filter, which isn't `major:minor`: hash table (12 bits), bucket (8) and node (12), in hex as `tc` writes
    /// them. `none` if it is 0.
    ///
    /// ```
    /// use conjareho::kinds::Handle;
    /// assert_eq!(Handle(0x8000_0800).u32_parts().to_string(), "800::800");
    /// ```
    #[must_use]
    pub const fn u32_parts(self) -> U32Parts {
        U32Parts(self.0)
    }
}

/// The handle of a `u32` filter, or of a hash table, in its parts: [`Handle::u32_parts`].
///
/// ```
/// use conjareho::kinds::filters::u32::U32Attr;
/// use conjareho::kinds::{Handle, U32Parts};
///
/// let handle = Handle::from("800::801".parse::<U32Parts>()?);
/// assert_eq!(handle, Handle(0x8000_0801));
/// // `link 2:` of `tc`.
/// let options = U32Attr::list().with_link(Handle::from("2:".parse::<U32Parts>()?).0);
/// assert_eq!(options.link(), Some(&0x20_0000));
/// # Ok::<(), conjareho::kinds::NotU32Parts>(())
/// ```
#[derive(Clone, Copy, PartialEq, Eq, Hash, PartialOrd, Ord, Debug)]
pub struct U32Parts(u32);

impl fmt::Display for U32Parts {
    fn fmt(&self, f: &mut fmt::Formatter<'_>) -> fmt::Result {
        let (table, bucket, node) = (self.0 >> 20, self.0 >> 12 & 0xff, self.0 & 0xfff);
        if self.0 == 0 {
            return f.write_str("none");
        }
        if table != 0 {
            write!(f, "{table:x}:")?;
        }
        if bucket != 0 {
            write!(f, "{bucket:x}")?;
        }
        if node != 0 {
            write!(f, ":{node:x}")?;
        }
        Ok(())
    }
}

impl FromStr for U32Parts {
    type Err = NotU32Parts;

    /// Reads `TABLE:BUCKET:NODE` in hex, where each number and the second colon may be left out, and `none`. The text of a handle with a
    /// table, such as the kernel's, is read as that handle. (`tc` writes bucket 1 of table 0 as `1`.)
    fn from_str(text: &str) -> Result<Self, NotU32Parts> {
        if text == "none" {
            return Ok(U32Parts(0));
        }
        let part = |text: &str, bits: u32| match text {
            "" => Ok(0),
            // A sign is none of a handle.
            _ if text.starts_with('+') => Err(NotU32Parts),
            _ => u32::from_str_radix(text, 16).ok().filter(|part| part >> bits == 0).ok_or(NotU32Parts),
        };
        let (table, after) = text.split_once(':').ok_or(NotU32Parts)?;
        let (bucket, node) = after.split_once(':').unwrap_or((after, ""));
        Ok(U32Parts(part(table, 12)? << 20 | part(bucket, 8)? << 12 | part(node, 12)?))
    }
}

impl From<U32Parts> for Handle {
    fn from(parts: U32Parts) -> Self {
        Handle(parts.0)
    }
}

impl From<TcHandle> for Handle {
    fn from(handle: TcHandle) -> Self {
        Handle::new(handle.major, handle.minor)
    }
}

impl From<Handle> for TcHandle {
    fn from(handle: Handle) -> Self {
        TcHandle { major: handle.major(), minor: handle.minor() }
    }
}

impl fmt::Display for Handle {
    fn fmt(&self, f: &mut fmt::Formatter<'_>) -> fmt::Result {
        match (self.major(), self.minor()) {
            (0, 0) => f.write_str("0:0"),
            (u16::MAX, u16::MAX) => f.write_str("root"),
            (major, 0) => write!(f, "{major:x}:"),
            (0, minor) => write!(f, ":{minor:x}"),
            (major, minor) => write!(f, "{major:x}:{minor:x}"),
        }
    }
}

impl fmt::Debug for Handle {
    fn fmt(&self, f: &mut fmt::Formatter<'_>) -> fmt::Result {
        fmt::Display::fmt(self, f)
    }
}

not_a! { NotAHandle, "a handle, such as 1:10 or root" }
not_a! { NotU32Parts, "a handle of u32, such as 800::800" }
not_a! { NotAMac, "a MAC address, such as 02:00:00:00:00:01" }
not_a! { NotHex, "bytes in hex" }

impl FromStr for Handle {
    type Err = NotAHandle;

    /// Reads `MAJOR:MINOR` in hex, where either may be left out, and `root`. Handles of `u32` filters are [`U32Parts`].
    fn from_str(text: &str) -> Result<Self, NotAHandle> {
        if text == "root" {
            return Ok(Handle::ROOT);
        }
        let half = |text: &str| match text {
            "" => Ok(0),
            // A sign is none of a handle.
            _ if text.starts_with('+') => Err(NotAHandle),
            _ => u16::from_str_radix(text, 16).map_err(|_| NotAHandle),
        };
        let (major, minor) = text.split_once(':').ok_or(NotAHandle)?;
        Ok(Handle::new(half(major)?, half(minor)?))
    }
}

/// A time in ticks of the packet scheduler, 64 ns each.
///
/// Only the fields and attributes of this type are in ticks, such as netem's `latency`. The times of fq_codel and of most other kinds are
/// numbers in the unit that their documentation has, often microseconds, and no `Ticks` are converted into them:
///
/// ```
/// use conjareho::kinds::{Ticks, qdiscs::fq_codel::FqCodelAttr};
/// use std::time::Duration;
///
/// let time = Duration::from("5ms".parse::<Ticks>()?);
/// let options = FqCodelAttr::list().with_target(u32::try_from(time.as_micros())?);
/// assert_eq!(options.target(), Some(&5000));
/// # Ok::<(), Box<dyn std::error::Error>>(())
/// ```
///
/// ```compile_fail,E0277
/// # use conjareho::kinds::{Ticks, qdiscs::fq_codel::FqCodelAttr};
/// let options = FqCodelAttr::list().with_target("5ms".parse::<Ticks>().unwrap().into());
/// ```
#[derive(Clone, Copy, PartialEq, Eq, Hash, PartialOrd, Ord, Debug, Default)]
pub struct Ticks(pub u32);

/// A probability in units of 2^-32. The largest number stands for 1.
#[derive(Clone, Copy, PartialEq, Eq, Hash, PartialOrd, Ord, Debug, Default)]
pub struct Prob(pub u32);

/// A MAC address.
#[derive(Clone, Copy, PartialEq, Eq, Hash, PartialOrd, Ord, Default)]
pub struct Mac(pub [u8; 6]);

impl From<[u8; 6]> for Mac {
    fn from(octets: [u8; 6]) -> Self {
        Mac(octets)
    }
}

impl fmt::Display for Mac {
    fn fmt(&self, f: &mut fmt::Formatter<'_>) -> fmt::Result {
        let [a, b, c, d, e, g] = self.0;
        write!(f, "{a:02x}:{b:02x}:{c:02x}:{d:02x}:{e:02x}:{g:02x}")
    }
}

impl fmt::Debug for Mac {
    fn fmt(&self, f: &mut fmt::Formatter<'_>) -> fmt::Result {
        fmt::Display::fmt(self, f)
    }
}

impl FromStr for Mac {
    type Err = NotAMac;

    /// Reads six bytes in hex with colons between them.
    fn from_str(text: &str) -> Result<Self, NotAMac> {
        let octet = |text: &str| octet_of(text.as_bytes()).ok_or(NotAMac);
        let octets = text.split(':').map(octet).collect::<Result<Vec<u8>, NotAMac>>()?;
        octets.try_into().map(Mac).map_err(|_| NotAMac)
    }
}

/// The byte of two hex digits.
fn octet_of(digits: &[u8]) -> Option<u8> {
    let [high, low] = digits else { return None };
    let digit = |digit: u8| char::from(digit).to_digit(16).map(|digit| digit as u8);
    Some(digit(*high)? << 4 | digit(*low)?)
}

/// Bytes without a table. `{:?}` prints them as hex, and `parse` reads hex.
#[derive(Clone, PartialEq, Eq, Hash, PartialOrd, Ord, Default)]
pub struct Bytes(pub Vec<u8>);

impl Deref for Bytes {
    type Target = [u8];

    fn deref(&self) -> &[u8] {
        &self.0
    }
}

impl From<Vec<u8>> for Bytes {
    fn from(bytes: Vec<u8>) -> Self {
        Bytes(bytes)
    }
}

impl From<&[u8]> for Bytes {
    fn from(bytes: &[u8]) -> Self {
        Bytes(bytes.to_vec())
    }
}

impl fmt::Display for Bytes {
    fn fmt(&self, f: &mut fmt::Formatter<'_>) -> fmt::Result {
        self.iter().try_for_each(|byte| write!(f, "{byte:02x}"))
    }
}

impl fmt::Debug for Bytes {
    fn fmt(&self, f: &mut fmt::Formatter<'_>) -> fmt::Result {
        fmt::Display::fmt(self, f)
    }
}

impl FromStr for Bytes {
    type Err = NotHex;

    /// Reads two hex digits a byte.
    fn from_str(text: &str) -> Result<Self, NotHex> {
        let octets = text.as_bytes().chunks(2).map(octet_of);
        octets.collect::<Option<_>>().map(Bytes).ok_or(NotHex)
    }
}

/// An attribute that its list doesn't have, or whose payload isn't of its form.
#[derive(Clone, PartialEq, Eq, Hash, Debug, Default)]
pub struct Nla {
    /// `nla_type`, with flags.
    pub word: u16,
    /// The payload.
    pub value: Bytes,
}

/// Prints the names of the flags that are set, and the bits without a name.
pub(super) fn show_flags(
    f: &mut fmt::Formatter<'_>,
    bits: u64,
    names: &mut dyn Iterator<Item = (&'static str, u64)>,
) -> fmt::Result {
    let (mut left, mut sign) = (bits, "");
    for (name, value) in names {
        if value != 0 && left & value == value {
            write!(f, "{sign}{name}")?;
            (left, sign) = (left & !value, " | ");
        }
    }
    if left != 0 || bits == 0 { write!(f, "{sign}{left:#x}") } else { Ok(()) }
}
