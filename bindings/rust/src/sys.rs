//! The calls as they are in C. `vtc.h` says what each does, and what its caller has to see to.
#![allow(missing_docs)]

/// `struct vtc_node`, an attribute of a message.
#[repr(C)]
#[derive(Clone, Copy, Debug, Default, PartialEq, Eq)]
pub struct Node {
    /// Where its value begins in the message, in bytes.
    pub offset: usize,
    /// How many bytes its value has, without padding.
    pub len: usize,
    /// `nla_type`: the type and the two flags.
    pub word: u16,
    /// The number of the table that its type is of (`enum vtc_table`).
    pub table: u8,
    /// In how many others it is.
    pub depth: u8,
}

/// `struct vtc_attr`, an attribute of a list.
#[repr(C)]
#[derive(Clone, Copy, Debug, Default, PartialEq, Eq)]
pub struct Attr {
    /// Where its value begins in the bytes.
    pub offset: usize,
    /// How many bytes its value has, without padding.
    pub len: usize,
    /// `nla_type`: the type and the two flags.
    pub word: u16,
}

/// `struct vtc_verdict`.
#[repr(C)]
#[derive(Clone, Copy, Debug, Default, PartialEq, Eq)]
pub struct Verdict {
    pub length: usize,
    pub fits: u8,
    pub settled: u8,
    pub canonical: u8,
}

/// `struct vtc_fault`.
#[repr(C)]
#[derive(Clone, Copy, Debug, Default, PartialEq, Eq)]
pub struct Fault {
    pub first: usize,
    pub second: usize,
    pub offset: usize,
}

const _: () = assert!(core::mem::size_of::<Node>() == 24);
const _: () = assert!(core::mem::size_of::<Attr>() == 24);
const _: () = assert!(core::mem::size_of::<Verdict>() == 16);
const _: () = assert!(core::mem::size_of::<Fault>() == 24);

extern "C" {
    pub fn vtc_version() -> u32;
    pub fn vtc_is_canonical(bytes: *const u8, len: usize) -> u8;
    pub fn vtc_action_is_canonical(bytes: *const u8, len: usize) -> u8;
    pub fn vtc_index(bytes: *const u8, len: usize, slots: *mut Node, count: usize) -> usize;
    pub fn vtc_action_index(bytes: *const u8, len: usize, slots: *mut Node, count: usize) -> usize;
    pub fn vtc_next(bytes: *const u8, len: usize, at: *mut usize, attr: *mut Attr) -> u32;
    pub fn vtc_check(bytes: *const u8, len: usize, verdict: *mut Verdict, fault: *mut Fault) -> u32;
    pub fn vtc_action_check(bytes: *const u8, len: usize, verdict: *mut Verdict, fault: *mut Fault) -> u32;
    pub fn vtc_rewrite(bytes: *const u8, len: usize, buffer: *mut u8, room: usize, length: *mut usize) -> u32;
    pub fn vtc_action_rewrite(bytes: *const u8, len: usize, buffer: *mut u8, room: usize, length: *mut usize) -> u32;
    pub fn vtc_settle(
        bytes: *const u8,
        len: usize,
        buffer: *mut u8,
        room: usize,
        length: *mut usize,
        rewrites: *mut usize,
    ) -> u32;
    pub fn vtc_action_settle(
        bytes: *const u8,
        len: usize,
        buffer: *mut u8,
        room: usize,
        length: *mut usize,
        rewrites: *mut usize,
    ) -> u32;
    pub fn vtc_json(bytes: *const u8, len: usize, buffer: *mut u8, room: usize, length: *mut usize) -> u32;
    pub fn vtc_action_json(bytes: *const u8, len: usize, buffer: *mut u8, room: usize, length: *mut usize) -> u32;
    pub fn vtc_make(
        json: *const u8,
        len: usize,
        buffer: *mut u8,
        room: usize,
        length: *mut usize,
        why: *mut u8,
        why_room: usize,
        why_length: *mut usize,
    ) -> u32;
    pub fn vtc_make_as_given(
        json: *const u8,
        len: usize,
        buffer: *mut u8,
        room: usize,
        length: *mut usize,
        why: *mut u8,
        why_room: usize,
        why_length: *mut usize,
    ) -> u32;
    pub fn vtc_action_make_as_given(
        json: *const u8,
        len: usize,
        buffer: *mut u8,
        room: usize,
        length: *mut usize,
        why: *mut u8,
        why_room: usize,
        why_length: *mut usize,
    ) -> u32;
    pub fn vtc_action_make(
        json: *const u8,
        len: usize,
        buffer: *mut u8,
        room: usize,
        length: *mut usize,
        why: *mut u8,
        why_room: usize,
        why_length: *mut usize,
    ) -> u32;
}
