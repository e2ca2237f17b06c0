//! The calls of the proved library, and the same of the erased codec, by one name each.

use conjareho::tc::{
    TcActionMessage, TcMessage, is_canonical_action, is_canonical_tc, settle_action, settle_tc,
};
use conjareho::{DecodeError, Emitable, ParseableBytes, RewriteError};
use std::hint::black_box;

/// `struct vtc_verdict`.
#[repr(C)]
#[derive(Clone, Copy, Default, PartialEq, Debug)]
pub struct Verdict {
    pub length: usize,
    pub fits: u8,
    pub settled: u8,
    pub canonical: u8,
}

/// `struct vtc_fault`.
#[repr(C)]
#[derive(Clone, Copy, Default, PartialEq, Debug)]
pub struct Fault {
    pub first: usize,
    pub second: usize,
    pub offset: usize,
}

type Check = unsafe extern "C" fn(*const u8, usize, &mut Verdict, &mut Fault) -> u32;
type Rewrite = unsafe extern "C" fn(*const u8, usize, *mut u8, usize, &mut usize) -> u32;
type Settle = unsafe extern "C" fn(*const u8, usize, *mut u8, usize, &mut usize, &mut usize) -> u32;
type Canonical = unsafe extern "C" fn(*const u8, usize) -> u8;

mod tc {
    use super::*;
    unsafe extern "C" {
        pub fn vtc_check(bytes: *const u8, len: usize, verdict: &mut Verdict, fault: &mut Fault) -> u32;
        pub fn vtc_rewrite(bytes: *const u8, len: usize, buffer: *mut u8, room: usize, length: &mut usize) -> u32;
        pub fn vtc_settle(
            b: *const u8,
            len: usize,
            to: *mut u8,
            room: usize,
            length: &mut usize,
            count: &mut usize,
        ) -> u32;
        pub fn vtc_is_canonical(bytes: *const u8, len: usize) -> u8;
    }
}

mod action {
    use super::*;
    unsafe extern "C" {
        pub fn vtc_action_check(bytes: *const u8, len: usize, verdict: &mut Verdict, fault: &mut Fault) -> u32;
        pub fn vtc_action_rewrite(bytes: *const u8, len: usize, to: *mut u8, room: usize, length: &mut usize) -> u32;
        pub fn vtc_action_settle(
            b: *const u8,
            len: usize,
            to: *mut u8,
            room: usize,
            length: &mut usize,
            count: &mut usize,
        ) -> u32;
        pub fn vtc_action_is_canonical(bytes: *const u8, len: usize) -> u8;
    }
}

/// What is said of some bytes: a verdict or a fault's number and numbers, the rewritten bytes or the status, and the settled
/// bytes and after how many rewrites, or the status.
#[derive(PartialEq, Debug)]
pub struct Said {
    pub read: Result<Verdict, (u32, usize, usize)>,
    pub rewritten: Result<Vec<u8>, u32>,
    pub settled: Result<(Vec<u8>, usize), u32>,
    pub canonical: bool,
}

/// The proved library, for one type of messages.
pub struct Library {
    check: Check,
    rewrite: Rewrite,
    settle: Settle,
    canonical: Canonical,
}

pub const LIBRARY: [Library; 2] = [
    Library {
        check: tc::vtc_check,
        rewrite: tc::vtc_rewrite,
        settle: tc::vtc_settle,
        canonical: tc::vtc_is_canonical,
    },
    Library {
        check: action::vtc_action_check,
        rewrite: action::vtc_action_rewrite,
        settle: action::vtc_action_settle,
        canonical: action::vtc_action_is_canonical,
    },
];

impl Library {
    /// What the library says of some bytes, with room for so many.
    pub fn says(&self, bytes: &[u8], room: usize) -> Said {
        let (mut verdict, mut fault) = (Verdict::default(), Fault::default());
        let (mut buffer, mut length, mut count) = (vec![0; room], 0, 0);
        let (at, len, to) = (bytes.as_ptr(), bytes.len(), buffer.as_mut_ptr());
        // SAFETY: the pointers are those of slices of these lengths.
        let status = unsafe { (self.check)(at, len, &mut verdict, &mut fault) };
        let read = if status == 0 { Ok(verdict) } else { Err((status, fault.first, fault.second)) };
        // SAFETY: as above.
        let status = unsafe { (self.rewrite)(at, len, to, room, &mut length) };
        let rewritten = if status == 0 { Ok(buffer[..length].to_vec()) } else { Err(status) };
        // SAFETY: as above.
        let status = unsafe { (self.settle)(at, len, buffer.as_mut_ptr(), room, &mut length, &mut count) };
        let settled = if status == 0 { Ok((buffer[..length].to_vec(), count)) } else { Err(status) };
        // SAFETY: as above.
        let canonical = unsafe { (self.canonical)(at, len) } == 1;
        Said { read, rewritten, settled, canonical }
    }

    pub fn check(&self, bytes: &[u8]) -> u32 {
        let (mut verdict, mut fault) = (Verdict::default(), Fault::default());
        // SAFETY: the pointer is that of a slice of this length.
        unsafe { (self.check)(bytes.as_ptr(), bytes.len(), &mut verdict, &mut fault) }
    }

    pub fn rewrite(&self, bytes: &[u8], buffer: &mut [u8]) -> u32 {
        let mut length = 0;
        // SAFETY: the pointers are those of slices of these lengths.
        unsafe { (self.rewrite)(bytes.as_ptr(), bytes.len(), buffer.as_mut_ptr(), buffer.len(), &mut length) }
    }
}

/// The number that `vtc.h` gives a fault, and its numbers.
fn number_of(fault: &DecodeError) -> (u32, usize, usize) {
    match *fault {
        DecodeError::BufferTooSmall { len, needed } => (1, len, needed),
        DecodeError::FrameHeaderShort { left } => (2, left, 0),
        DecodeError::FrameTooLong { length, left } => (3, length, left),
        DecodeError::FrameTooShort { length } => (4, length, 0),
        DecodeError::WrongLength { expected, got } => (5, expected, got),
        DecodeError::NotUtf8 => (6, 0, 0),
        DecodeError::SelectorShort { len, needed } => (7, len, needed),
        DecodeError::XstatsShort { len } => (8, len, 0),
        DecodeError::MissingKind => (9, 0, 0),
        DecodeError::DuplicateKind => (10, 0, 0),
        DecodeError::OutOfMemory => (11, 0, 0),
    }
}

fn status_of(error: &RewriteError) -> u32 {
    match error {
        RewriteError::Decode(fault) => number_of(fault).0,
        RewriteError::OutOfMemory => 11,
        RewriteError::DoesNotFit => 12,
    }
}

/// The erased codec, for one type of messages.
pub trait Erased: ParseableBytes + Emitable {
    fn settled(&self) -> bool;
    fn canonical(bytes: &[u8]) -> bool;
    fn rewritten(bytes: &[u8]) -> Result<Vec<u8>, RewriteError>;
    fn settling(bytes: &[u8]) -> Result<(Vec<u8>, usize), RewriteError>;

    fn says(bytes: &[u8]) -> Said {
        let read = Self::parse(bytes);
        let canonical = Self::canonical(bytes);
        Said {
            read: read.as_ref().map_err(number_of).map(|message| Verdict {
                length: message.checked_len().unwrap_or(0),
                fits: message.fits().into(),
                settled: message.settled().into(),
                canonical: canonical.into(),
            }),
            rewritten: Self::rewritten(bytes).map_err(|e| status_of(&e)),
            settled: Self::settling(bytes).map_err(|e| status_of(&e)),
            canonical,
        }
    }

    #[inline(never)]
    fn timed_check(bytes: &[u8]) -> u32 {
        let message = match Self::parse(bytes) {
            Ok(message) => message,
            Err(fault) => return number_of(&fault).0,
        };
        black_box(message.checked_len());
        black_box(message.fits());
        black_box(message.settled());
        black_box(Self::canonical(bytes));
        0
    }

    #[inline(never)]
    fn timed_rewrite(bytes: &[u8], buffer: &mut [u8]) -> u32 {
        let message = match Self::parse(bytes) {
            Ok(message) => message,
            Err(fault) => return number_of(&fault).0,
        };
        match message.checked_len() {
            Some(len) if len <= buffer.len() => message.emit(buffer),
            _ => return 13,
        }
        0
    }
}

impl Erased for TcMessage {
    fn settled(&self) -> bool {
        self.is_settled()
    }

    fn canonical(bytes: &[u8]) -> bool {
        is_canonical_tc(bytes)
    }

    fn rewritten(bytes: &[u8]) -> Result<Vec<u8>, RewriteError> {
        conjareho::tc::rewrite_tc(bytes)
    }

    fn settling(bytes: &[u8]) -> Result<(Vec<u8>, usize), RewriteError> {
        settle_tc(bytes)
    }
}

impl Erased for TcActionMessage {
    fn settled(&self) -> bool {
        self.is_settled()
    }

    fn canonical(bytes: &[u8]) -> bool {
        is_canonical_action(bytes)
    }

    fn rewritten(bytes: &[u8]) -> Result<Vec<u8>, RewriteError> {
        conjareho::tc::rewrite_action(bytes)
    }

    fn settling(bytes: &[u8]) -> Result<(Vec<u8>, usize), RewriteError> {
        settle_action(bytes)
    }
}

/// The messages of a file with lines `tc HEX` or `action HEX`: 0 or 1, and the bytes.
pub fn messages(path: &str) -> Vec<(usize, Vec<u8>)> {
    let text = std::fs::read_to_string(path).expect("the file of messages can be read");
    let line = |line: &str| {
        let (form, hex) = line.split_once(' ').unwrap_or((line, ""));
        let octets = (0..hex.len() / 2).map(|at| u8::from_str_radix(&hex[2 * at..2 * at + 2], 16).expect("hex"));
        (usize::from(form == "action"), octets.collect())
    };
    text.lines().map(line).collect()
}
