//! Attributes: `struct nlattr` with its value.

use super::fault::Fault;
use super::message::u16_at;

const NLATTR: usize = 4;
/// Without `NLA_F_NESTED` and `NLA_F_NET_BYTEORDER`.
const NLA_TYPE_MASK: u16 = 0x3fff;

/// The attributes in a span of bytes: type and value.
#[derive(Clone, Debug)]
pub struct Attributes<'a> {
    rest: &'a [u8],
}

impl<'a> Attributes<'a> {
    pub fn of(bytes: &'a [u8]) -> Attributes<'a> {
        Attributes { rest: bytes }
    }
}

/// Ends after an error.
impl<'a> Iterator for Attributes<'a> {
    type Item = Result<(u16, &'a [u8]), Fault>;

    fn next(&mut self) -> Option<Self::Item> {
        if self.rest.is_empty() {
            return None;
        }
        let rest = std::mem::take(&mut self.rest);
        let read = || {
            let len = usize::from(u16_at(rest, 0)?);
            Some((u16_at(rest, 2)? & NLA_TYPE_MASK, rest.get(NLATTR..len)?, len))
        };
        let Some((kind, value, len)) = read() else {
            return Some(Err(Fault::Broken("no whole attribute")));
        };
        self.rest = rest.get(len.next_multiple_of(4)..).unwrap_or(&[]);
        Some(Ok((kind, value)))
    }
}

/// The value of the last attribute of a type, if any.
pub fn attribute(bytes: &[u8], wanted: u16) -> Result<Option<&[u8]>, Fault> {
    let mut found = None;
    for attribute in Attributes::of(bytes) {
        let (kind, value) = attribute?;
        if kind == wanted {
            found = Some(value);
        }
    }
    Ok(found)
}

/// Appends an attribute, padded.
pub fn put(message: &mut Vec<u8>, kind: u16, value: &[u8]) {
    message.extend_from_slice(&((NLATTR + value.len()) as u16).to_ne_bytes());
    message.extend_from_slice(&kind.to_ne_bytes());
    message.extend_from_slice(value);
    message.resize(message.len().next_multiple_of(4), 0);
}

/// A text up to its NUL.
pub fn text(value: &[u8]) -> String {
    let end = value.iter().position(|byte| *byte == 0).unwrap_or(value.len());
    String::from_utf8_lossy(&value[..end]).into_owned()
}
