//! What is sent as events, as JSON.

use crate::fallible::{self, AllocError, Fallible as _};
use crate::itoa::Buffer;
use crate::serde::{Serialize, Serializer};
use crate::user::Copying;

// A value as a text.
impl Copying<u8> for ::serde_json::Value {
    fn try_to_vec(&self) -> Result<Vec<u8>, AllocError> {
        ::serde_json::to_vec(self).map_err(|_| AllocError)
    }
}

impl<T: Serialize> Serialize for &T {
    fn serialize<S: Serializer>(&self, out: &mut S) -> Result<(), S::Error> {
        (**self).serialize(out)
    }
}

impl Serialize for &str {
    fn serialize<S: Serializer>(&self, out: &mut S) -> Result<(), S::Error> {
        out.str(self)
    }
}

impl Serialize for String {
    fn serialize<S: Serializer>(&self, out: &mut S) -> Result<(), S::Error> {
        out.str(self)
    }
}

impl Serialize for u64 {
    fn serialize<S: Serializer>(&self, out: &mut S) -> Result<(), S::Error> {
        out.u64(*self)
    }
}

impl<T: Serialize> Serialize for Vec<T> {
    fn serialize<S: Serializer>(&self, out: &mut S) -> Result<(), S::Error> {
        out.begin_seq(Some(self.len()))?;
        for item in self {
            item.serialize(out)?;
        }
        out.end_seq()
    }
}

/// JSON as it is written.
struct Text {
    bytes: Vec<u8>,
    /// True where a member or an item needs no comma before it.
    is_first: bool,
}

impl std::io::Write for Text {
    fn write(&mut self, bytes: &[u8]) -> std::io::Result<usize> {
        self.bytes.try_extend(bytes).map_err(|_| std::io::ErrorKind::OutOfMemory)?;
        Ok(bytes.len())
    }

    fn flush(&mut self) -> std::io::Result<()> {
        Ok(())
    }
}

/// True if JSON has the text unchanged.
fn is_plain(text: &str) -> bool {
    text.bytes().all(|byte| !matches!(byte, ..b' ' | b'"' | b'\\'))
}

impl Text {
    /// An item begins: its comma, unless it comes after a key or first, and room for it.
    fn item(&mut self, len: usize) -> Result<(), AllocError> {
        self.bytes.try_grow(len + 1)?;
        if !std::mem::replace(&mut self.is_first, false) {
            self.bytes.push(b',');
        }
        Ok(())
    }

    fn open(&mut self, bracket: u8) -> Result<(), AllocError> {
        self.item(1)?;
        self.is_first = true;
        self.bytes.push(bracket);
        Ok(())
    }

    fn close(&mut self, bracket: u8) -> Result<(), AllocError> {
        self.is_first = false;
        self.bytes.try_push(bracket)
    }

    /// A text, unchanged.
    fn put(&mut self, text: &str) -> Result<(), AllocError> {
        self.item(text.len())?;
        self.bytes.extend_from_slice(text.as_bytes());
        Ok(())
    }
}

impl Serializer for Text {
    type Error = AllocError;

    fn bool(&mut self, v: bool) -> Result<(), AllocError> {
        self.put(if v { "true" } else { "false" })
    }

    fn i64(&mut self, v: i64) -> Result<(), AllocError> {
        self.put(Buffer::new().format(v))
    }

    fn u64(&mut self, v: u64) -> Result<(), AllocError> {
        self.put(Buffer::new().format(v))
    }

    fn str(&mut self, v: &str) -> Result<(), AllocError> {
        self.item(v.len() + 2)?;
        if !is_plain(v) {
            return serde_json::to_writer(self, v).map_err(|_| AllocError);
        }
        self.bytes.push(b'"');
        self.bytes.extend_from_slice(v.as_bytes());
        self.bytes.push(b'"');
        Ok(())
    }

    fn begin_seq(&mut self, _len: Option<usize>) -> Result<(), AllocError> {
        self.open(b'[')
    }

    fn end_seq(&mut self) -> Result<(), AllocError> {
        self.close(b']')
    }

    fn begin_map(&mut self, _len: Option<usize>) -> Result<(), AllocError> {
        self.open(b'{')
    }

    fn end_map(&mut self) -> Result<(), AllocError> {
        self.close(b'}')
    }

    fn key(&mut self, name: &str) -> Result<(), AllocError> {
        self.str(name)?;
        self.is_first = true;
        self.bytes.try_push(b':')
    }

    fn custom(&self, _message: &str) -> AllocError {
        AllocError
    }
}

/// A value as JSON.
pub(crate) fn to_string<T: Serialize>(value: &T) -> Result<String, AllocError> {
    let mut text = Text { bytes: fallible::with_capacity(1024)?, is_first: true };
    value.serialize(&mut text)?;
    String::from_utf8(text.bytes).map_err(|_| AllocError)
}
