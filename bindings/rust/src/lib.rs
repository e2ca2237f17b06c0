//! Messages of Linux traffic control (rtnetlink), checked, rewritten, shown and made by proved code in `libvtc`.
//!
//! Bytes are a message without the 16 bytes of its netlink header. [`Form`] says which of the two messages they are.
//!
//! ```no_run
//! use vtc::Form;
//!
//! let bytes = [0; 20];
//! let verdict = Form::Tc.check(&bytes)?;
//! assert!(verdict.fits && verdict.settled && verdict.canonical);
//! let mut buffer = [0; 64];
//! let written = Form::Tc.rewrite(&bytes, &mut buffer)?;
//! assert_eq!(written, bytes);
//! # Ok::<(), vtc::Error>(())
//! ```
//!
//! No call allocates but by the C library of the program, and none of this crate's users writes `unsafe`.
#![no_std]

pub mod sys;

pub use sys::Node;

use core::fmt;

/// Which of the two messages bytes are.
#[derive(Clone, Copy, Debug, PartialEq, Eq, Hash)]
pub enum Form {
    /// A message about qdiscs, classes, filters or chains, which begins with `struct tcmsg`.
    Tc,
    /// A message about actions, which begins with `struct tcamsg`.
    Action,
}

/// What is said of a message.
#[derive(Clone, Copy, Debug, PartialEq, Eq, Hash)]
pub struct Verdict {
    /// It can be written.
    pub fits: bool,
    /// Where it fits, the bytes that are written of it are read as the same message.
    pub settled: bool,
    /// The bytes are those that are written of it.
    pub canonical: bool,
    /// How many bytes are written of it; 0 where it doesn't fit.
    pub length: usize,
}

/// Why bytes can't be read: the first fault, in the order of reading. Numbers count bytes.
#[derive(Clone, Copy, Debug, PartialEq, Eq, Hash)]
pub enum Fault {
    /// A header or a record is short.
    BufferTooSmall {
        /// How many bytes it has.
        len: usize,
        /// How many it takes.
        needed: usize,
    },
    /// One to three bytes are left where an attribute should begin.
    FrameHeaderShort {
        /// How many.
        left: usize,
    },
    /// An attribute's length exceeds what is left.
    FrameTooLong {
        /// The length.
        length: usize,
        /// What is left.
        left: usize,
    },
    /// An attribute's length is less than 4.
    FrameTooShort {
        /// The length.
        length: usize,
    },
    /// A value has a wrong length.
    WrongLength {
        /// How many bytes its type takes.
        expected: usize,
        /// How many it has.
        got: usize,
    },
    /// A text isn't UTF-8.
    NotUtf8,
    /// A selector of u32 is short.
    SelectorShort {
        /// How many bytes it has.
        len: usize,
        /// How many it takes.
        needed: usize,
    },
    /// Statistics of fq_codel have fewer than 4 bytes.
    XstatsShort {
        /// How many.
        len: usize,
    },
    /// An action has no kind.
    MissingKind,
    /// An action has two kinds or more.
    DuplicateKind,
}

/// Why a call has no result.
#[derive(Clone, Copy, Debug, PartialEq, Eq, Hash)]
#[non_exhaustive]
pub enum Error {
    /// The bytes can't be read.
    Refused {
        /// The first fault.
        fault: Fault,
        /// Where it is in the bytes.
        offset: usize,
    },
    /// The C library had no memory.
    OutOfMemory,
    /// What was read can't be written: a value would have more than 65531 bytes.
    DoesNotFit,
    /// The buffer is too small, and unchanged.
    NoRoom {
        /// How many bytes are needed.
        needed: usize,
    },
    /// The library isn't one for this crate.
    Mismatch(Mismatch),
    /// The call ended with a status that this crate doesn't know.
    UnknownStatus {
        /// The status.
        status: u32,
    },
}

/// Why no message is made. The texts say where and why, cut where the buffer that was given for them is too small.
#[derive(Clone, Copy, Debug, PartialEq, Eq, Hash)]
#[non_exhaustive]
pub enum MakeError<'w> {
    /// The text isn't JSON.
    NotJson(&'w str),
    /// No message is made of the JSON. The place is a JSON pointer: `/attributes/0/Kind: found 3, wanted a text`.
    NoMessage(&'w str),
    /// The C library had no memory.
    OutOfMemory,
    /// The buffer is too small, and unchanged.
    NoRoom {
        /// How many bytes are needed.
        needed: usize,
    },
    /// The library isn't one for this crate.
    Mismatch(Mismatch),
    /// The call ended with a status that this crate doesn't know.
    UnknownStatus {
        /// The status.
        status: u32,
    },
}

/// A version of the library or of this crate.
#[derive(Clone, Copy, Debug, PartialEq, Eq, PartialOrd, Ord, Hash)]
pub struct Version {
    /// The major version.
    pub major: u8,
    /// The minor version.
    pub minor: u8,
    /// The patch.
    pub patch: u8,
}

/// The library isn't one for this crate: of another major version, or older.
#[derive(Clone, Copy, Debug, PartialEq, Eq, Hash)]
pub struct Mismatch {
    /// The library's version.
    pub library: Version,
    /// This crate's version.
    pub wanted: Version,
}

/// Why a list of attributes ends early.
#[derive(Clone, Copy, Debug, PartialEq, Eq, Hash)]
pub struct BrokenAttribute {
    /// Where it begins in the bytes.
    pub offset: usize,
    /// 2: its header is short; 3: its length exceeds what is left; 4: its length is less than 4.
    pub status: u32,
}

impl fmt::Display for Fault {
    fn fmt(&self, f: &mut fmt::Formatter<'_>) -> fmt::Result {
        match self {
            Fault::BufferTooSmall { len, needed } => write!(f, "buffer of {len} bytes, {needed} needed"),
            Fault::FrameHeaderShort { left } => write!(f, "frame header of {left} bytes"),
            Fault::FrameTooLong { length, left } => write!(f, "frame of {length} bytes, {left} left"),
            Fault::FrameTooShort { length } => write!(f, "frame length {length} under 4"),
            Fault::WrongLength { expected, got } => write!(f, "value of {got} bytes, {expected} expected"),
            Fault::NotUtf8 => f.write_str("text is not UTF-8"),
            Fault::SelectorShort { len, needed } => write!(f, "selector of {len} bytes, {needed} needed"),
            Fault::XstatsShort { len } => write!(f, "statistics of {len} bytes, 4 needed"),
            Fault::MissingKind => f.write_str("action without kind"),
            Fault::DuplicateKind => f.write_str("action with several kinds"),
        }
    }
}

impl fmt::Display for Version {
    fn fmt(&self, f: &mut fmt::Formatter<'_>) -> fmt::Result {
        write!(f, "{}.{}.{}", self.major, self.minor, self.patch)
    }
}

impl fmt::Display for Mismatch {
    fn fmt(&self, f: &mut fmt::Formatter<'_>) -> fmt::Result {
        write!(f, "the crate vtc is {}, but libvtc is {}", self.wanted, self.library)
    }
}

impl fmt::Display for Error {
    fn fmt(&self, f: &mut fmt::Formatter<'_>) -> fmt::Result {
        match self {
            Error::Refused { fault, offset } => write!(f, "byte {offset}: {fault}"),
            Error::OutOfMemory => f.write_str("out of memory"),
            Error::DoesNotFit => f.write_str("value does not fit"),
            Error::NoRoom { needed } => write!(f, "{needed} bytes needed"),
            Error::Mismatch(mismatch) => write!(f, "{mismatch}"),
            Error::UnknownStatus { status } => write!(f, "status {status}"),
        }
    }
}

impl fmt::Display for MakeError<'_> {
    fn fmt(&self, f: &mut fmt::Formatter<'_>) -> fmt::Result {
        match self {
            MakeError::NotJson(why) | MakeError::NoMessage(why) => f.write_str(why),
            MakeError::OutOfMemory => f.write_str("out of memory"),
            MakeError::NoRoom { needed } => write!(f, "{needed} bytes needed"),
            MakeError::Mismatch(mismatch) => write!(f, "{mismatch}"),
            MakeError::UnknownStatus { status } => write!(f, "status {status}"),
        }
    }
}

/// This crate's version.
const WANTED: Version = Version {
    major: number(env!("CARGO_PKG_VERSION_MAJOR")),
    minor: number(env!("CARGO_PKG_VERSION_MINOR")),
    patch: number(env!("CARGO_PKG_VERSION_PATCH")),
};

const fn number(text: &str) -> u8 {
    let (digits, mut at, mut number) = (text.as_bytes(), 0, 0);
    while at < digits.len() {
        number = 10 * number + (digits[at] - b'0');
        at += 1;
    }
    number
}

// `VTC_PLAIN_RUST`.
const PLAIN_RUST: u32 = 0x8000_0000;

/// The version of the library.
pub fn version() -> Version {
    // SAFETY: it takes nothing.
    let [patch, minor, major, _] = unsafe { sys::vtc_version() }.to_le_bytes();
    Version { major, minor, patch }
}

/// True if the library was built by the proofs' toolchain, false if it was built from plain Rust. If memory runs out there,
/// [`Form::json`], [`Form::make`] and [`Form::make_as_given`] abort the program instead of returning an error.
pub fn is_proved() -> bool {
    // SAFETY: it takes nothing.
    unsafe { sys::vtc_version() & PLAIN_RUST == 0 }
}

/// An error if the library isn't one for this crate. Each call that can fail returns it too.
pub fn matches() -> Result<(), Mismatch> {
    let library = version();
    if library.major == WANTED.major && library >= WANTED {
        return Ok(());
    }
    Err(Mismatch {
        library,
        wanted: WANTED,
    })
}

type Maker = unsafe extern "C" fn(*const u8, usize, *mut u8, usize, *mut usize, *mut u8, usize, *mut usize) -> u32;

fn made<'b, 'w>(call: Maker, json: &str, buffer: &'b mut [u8], why: &'w mut [u8]) -> Result<&'b [u8], MakeError<'w>> {
    matches().map_err(MakeError::Mismatch)?;
    let (mut length, mut why_length) = (0, 0);
    // SAFETY: the text and the two buffers are three slices, and the two numbers are this function's own.
    let status = unsafe {
        call(
            json.as_ptr(),
            json.len(),
            buffer.as_mut_ptr(),
            buffer.len(),
            &mut length,
            why.as_mut_ptr(),
            why.len(),
            &mut why_length,
        )
    };
    // It is UTF-8.
    let why = core::str::from_utf8(&why[..why_length]).unwrap_or("");
    match status {
        0 => Ok(&buffer[..length]),
        13 => Err(MakeError::NoRoom { needed: length }),
        15 => Err(MakeError::NotJson(why)),
        16 => Err(MakeError::NoMessage(why)),
        11 => Err(MakeError::OutOfMemory),
        status => Err(MakeError::UnknownStatus { status }),
    }
}

impl Form {
    /// What is said of the message that the bytes are, or why they can't be read.
    pub fn check(self, bytes: &[u8]) -> Result<Verdict, Error> {
        let call = match self {
            Form::Tc => sys::vtc_check,
            Form::Action => sys::vtc_action_check,
        };
        matches().map_err(Error::Mismatch)?;
        let (mut verdict, mut fault) = (sys::Verdict::default(), sys::Fault::default());
        // SAFETY: the bytes are a slice, and the two structs are this function's own.
        match unsafe { call(bytes.as_ptr(), bytes.len(), &mut verdict, &mut fault) } {
            0 => Ok(Verdict {
                fits: verdict.fits == 1,
                settled: verdict.settled == 1,
                canonical: verdict.canonical == 1,
                length: verdict.length,
            }),
            status => Err(refused(status, fault)),
        }
    }

    /// True if the bytes are a canonical message. It takes no memory.
    pub fn is_canonical(self, bytes: &[u8]) -> bool {
        let call = match self {
            Form::Tc => sys::vtc_is_canonical,
            Form::Action => sys::vtc_action_is_canonical,
        };
        // SAFETY: the bytes are a slice.
        unsafe { call(bytes.as_ptr(), bytes.len()) == 1 }
    }

    /// Writes the attributes of a message, each before those in it, into as many slots as there are, and returns how many
    /// attributes there are: those before the first broken one. `bytes.len() / 4` slots suffice. It takes no memory.
    pub fn index(self, bytes: &[u8], slots: &mut [Node]) -> usize {
        let call = match self {
            Form::Tc => sys::vtc_index,
            Form::Action => sys::vtc_action_index,
        };
        // SAFETY: the bytes and the slots are two slices.
        unsafe { call(bytes.as_ptr(), bytes.len(), slots.as_mut_ptr(), slots.len()) }
    }

    /// The attributes of the message itself, one by one, without those in them. It takes no memory.
    pub fn attributes(self, bytes: &[u8]) -> Attributes<'_> {
        let at = match self {
            Form::Tc => 20,
            Form::Action => 4,
        };
        Attributes { bytes, at }
    }

    /// Writes the bytes that are written of the message into the buffer, and returns them.
    pub fn rewrite<'b>(self, bytes: &[u8], buffer: &'b mut [u8]) -> Result<&'b [u8], Error> {
        let call = match self {
            Form::Tc => sys::vtc_rewrite,
            Form::Action => sys::vtc_action_rewrite,
        };
        self.written(call, bytes, buffer)
    }

    /// Writes the canonical bytes to which rewriting leads into the buffer, and returns them, and after how many rewrites.
    pub fn settle<'b>(self, bytes: &[u8], buffer: &'b mut [u8]) -> Result<(&'b [u8], usize), Error> {
        let call = match self {
            Form::Tc => sys::vtc_settle,
            Form::Action => sys::vtc_action_settle,
        };
        matches().map_err(Error::Mismatch)?;
        let (mut length, mut rewrites) = (0, 0);
        // SAFETY: the bytes and the buffer are two slices, and the two numbers are this function's own.
        let status = unsafe {
            call(
                bytes.as_ptr(),
                bytes.len(),
                buffer.as_mut_ptr(),
                buffer.len(),
                &mut length,
                &mut rewrites,
            )
        };
        Ok((self.ended(status, bytes, buffer, length)?, rewrites))
    }

    /// Writes the JSON of the bytes into the buffer, whatever they are, and returns the text.
    pub fn json<'b>(self, bytes: &[u8], buffer: &'b mut [u8]) -> Result<&'b str, Error> {
        let call = match self {
            Form::Tc => sys::vtc_json,
            Form::Action => sys::vtc_action_json,
        };
        // JSON is UTF-8.
        Ok(core::str::from_utf8(self.written(call, bytes, buffer)?).unwrap_or(""))
    }

    /// Writes the canonical bytes of the message that this JSON stands for into the buffer, and returns them; or why there
    /// are none, as a text in the second buffer.
    ///
    /// ```no_run
    /// use vtc::Form;
    ///
    /// let (mut buffer, mut why) = ([0; 64], [0; 256]);
    /// let json = r#"{"header":{"family":"Unspec"},"attributes":[]}"#;
    /// assert_eq!(Form::Action.make(json, &mut buffer, &mut why), Ok(&[0; 4][..]));
    /// ```
    pub fn make<'b, 'w>(self, json: &str, buffer: &'b mut [u8], why: &'w mut [u8]) -> Result<&'b [u8], MakeError<'w>> {
        let call = match self {
            Form::Tc => sys::vtc_make,
            Form::Action => sys::vtc_action_make,
        };
        made(call, json, buffer, why)
    }

    /// Writes the bytes of which this JSON is shown into the buffer, whatever they are, in the same way.
    ///
    /// ```no_run
    /// use vtc::Form;
    ///
    /// let (mut buffer, mut why) = ([0; 64], [0; 256]);
    /// assert_eq!(Form::Tc.make_as_given(r#"{"raw":"00ff"}"#, &mut buffer, &mut why), Ok(&[0, 255][..]));
    /// ```
    pub fn make_as_given<'b, 'w>(
        self,
        json: &str,
        buffer: &'b mut [u8],
        why: &'w mut [u8],
    ) -> Result<&'b [u8], MakeError<'w>> {
        let call = match self {
            Form::Tc => sys::vtc_make_as_given,
            Form::Action => sys::vtc_action_make_as_given,
        };
        made(call, json, buffer, why)
    }

    fn written<'b>(
        self,
        call: unsafe extern "C" fn(*const u8, usize, *mut u8, usize, *mut usize) -> u32,
        bytes: &[u8],
        buffer: &'b mut [u8],
    ) -> Result<&'b [u8], Error> {
        matches().map_err(Error::Mismatch)?;
        let mut length = 0;
        // SAFETY: the bytes and the buffer are two slices, and the number is this function's own.
        let status = unsafe {
            call(
                bytes.as_ptr(),
                bytes.len(),
                buffer.as_mut_ptr(),
                buffer.len(),
                &mut length,
            )
        };
        self.ended(status, bytes, buffer, length)
    }

    fn ended<'b>(self, status: u32, bytes: &[u8], buffer: &'b mut [u8], length: usize) -> Result<&'b [u8], Error> {
        match status {
            0 => Ok(&buffer[..length]),
            12 => Err(Error::DoesNotFit),
            13 => Err(Error::NoRoom { needed: length }),
            11 => Err(Error::OutOfMemory),
            // A fault of the bytes, whose numbers and place the check gives.
            1..=10 => match self.check(bytes) {
                Err(error) => Err(error),
                Ok(_) => Err(Error::UnknownStatus { status }),
            },
            _ => Err(Error::UnknownStatus { status }),
        }
    }
}

fn refused(status: u32, fault: sys::Fault) -> Error {
    let sys::Fault { first, second, offset } = fault;
    let fault = match status {
        1 => Fault::BufferTooSmall {
            len: first,
            needed: second,
        },
        2 => Fault::FrameHeaderShort { left: first },
        3 => Fault::FrameTooLong {
            length: first,
            left: second,
        },
        4 => Fault::FrameTooShort { length: first },
        5 => Fault::WrongLength {
            expected: first,
            got: second,
        },
        6 => Fault::NotUtf8,
        7 => Fault::SelectorShort {
            len: first,
            needed: second,
        },
        8 => Fault::XstatsShort { len: first },
        9 => Fault::MissingKind,
        10 => Fault::DuplicateKind,
        11 => return Error::OutOfMemory,
        _ => return Error::UnknownStatus { status },
    };
    Error::Refused { fault, offset }
}

impl Fault {
    /// The number of the fault, 1 to 10, and its two numbers, as in `vtc.h`.
    pub fn numbers(self) -> (u32, usize, usize) {
        match self {
            Fault::BufferTooSmall { len, needed } => (1, len, needed),
            Fault::FrameHeaderShort { left } => (2, left, 0),
            Fault::FrameTooLong { length, left } => (3, length, left),
            Fault::FrameTooShort { length } => (4, length, 0),
            Fault::WrongLength { expected, got } => (5, expected, got),
            Fault::NotUtf8 => (6, 0, 0),
            Fault::SelectorShort { len, needed } => (7, len, needed),
            Fault::XstatsShort { len } => (8, len, 0),
            Fault::MissingKind => (9, 0, 0),
            Fault::DuplicateKind => (10, 0, 0),
        }
    }
}

/// An attribute of a list.
#[derive(Clone, Copy, Debug, PartialEq, Eq, Hash)]
pub struct Attribute<'a> {
    /// Where its value begins in the bytes.
    pub offset: usize,
    /// `nla_type`: the type and the two flags.
    pub word: u16,
    /// Its value, without padding.
    pub value: &'a [u8],
}

/// The attributes of a list, one by one; a broken one is the last.
#[derive(Clone, Debug)]
pub struct Attributes<'a> {
    bytes: &'a [u8],
    at: usize,
}

impl<'a> Attributes<'a> {
    /// The attributes of a list that begins at the front of the bytes, as of a nested attribute's value.
    pub fn new(bytes: &'a [u8]) -> Self {
        Attributes { bytes, at: 0 }
    }
}

impl<'a> Iterator for Attributes<'a> {
    type Item = Result<Attribute<'a>, BrokenAttribute>;

    fn next(&mut self) -> Option<Self::Item> {
        let mut attr = sys::Attr::default();
        // SAFETY: the bytes are a slice, and the place and the struct are this function's own.
        match unsafe { sys::vtc_next(self.bytes.as_ptr(), self.bytes.len(), &mut self.at, &mut attr) } {
            0 => Some(Ok(Attribute {
                offset: attr.offset,
                word: attr.word,
                value: &self.bytes[attr.offset..attr.offset + attr.len],
            })),
            14 => None,
            status => {
                let offset = self.at;
                self.at = self.bytes.len();
                Some(Err(BrokenAttribute { offset, status }))
            }
        }
    }
}
