//! `libvtc` built from plain Rust. The calls are those of the crates `tc_ffi` and `tc_ffi_index`, without their contracts; `../vtc.h`
//! says what each does, and what its caller has to see to. What is proved of the sources isn't proved of this library. If memory
//! runs out, the calls that show or make JSON abort (`VTC_PLAIN_RUST` of the header).
#![allow(clippy::missing_safety_doc, clippy::too_many_arguments)]

extern crate alloc;

#[path = "../../../rust/erase/shims/bitflags.rs"]
#[allow(dead_code)] // what the codec exports besides
mod bitflags;
#[path = "../../../rust/erase/shims/fallible.rs"]
mod fallible;
#[path = "../../../rust/erase/shims/hex.rs"]
#[allow(dead_code)]
mod hex;
#[path = "../../../rust/erase/shims/jsontext.rs"]
#[allow(dead_code, unused_imports, unused_macros)]
mod jsontext;
#[path = "../../../rust/erase/shims/events.rs"]
#[allow(dead_code)]
mod serde;
#[path = "../../../rust/erase/shims/small.rs"]
mod small;
#[path = "../../../rust/erase/shims/strict.rs"]
#[allow(dead_code)]
mod strict;
#[path = "../../../rust/erase/shims/user.rs"]
#[allow(dead_code)]
mod user;

use ::itoa;
use serde::json as serde_json;
use small::arrayvec;

// The erased crates, each a private module.
include!(concat!(env!("OUT_DIR"), "/calls.rs"));

use std::slice;
use tc_ffi::verdict::{VtcFault, VtcVerdict};
use tc_ffi_index::next::VtcAttr;
use tc_ffi_index::node::VtcNode;

/// `VTC_PLAIN_RUST`.
const PLAIN_RUST: u32 = 0x8000_0000;

/// What a pointer and a length are of; nothing where the length is 0.
unsafe fn read<'a, T>(first: *const T, len: usize) -> &'a [T] {
    if len == 0 { &[] } else { unsafe { slice::from_raw_parts(first, len) } }
}

/// The same, to be written.
unsafe fn room<'a, T>(first: *mut T, len: usize) -> &'a mut [T] {
    if len == 0 { &mut [] } else { unsafe { slice::from_raw_parts_mut(first, len) } }
}

#[unsafe(no_mangle)]
pub extern "C" fn vtc_version() -> u32 {
    tc_ffi_index::version::vtc_version() | PLAIN_RUST
}

#[unsafe(no_mangle)]
pub unsafe extern "C" fn vtc_next(bytes: *const u8, len: usize, at: &mut usize, attr: &mut VtcAttr) -> u32 {
    tc_ffi_index::next::vtc_next(unsafe { read(bytes, len) }, at, attr)
}

/// The two calls of each name, for traffic control messages and for action messages.
macro_rules! calls {
    ($module:ident: $($canonical:ident $index:ident $check:ident $rewrite:ident $settle:ident $json:ident $make:ident $given:ident)*) => { $(
        #[unsafe(no_mangle)]
        pub unsafe extern "C" fn $canonical(bytes: *const u8, len: usize) -> u8 {
            tc_ffi_index::verdicts::$canonical(unsafe { read(bytes, len) })
        }

        #[unsafe(no_mangle)]
        pub unsafe extern "C" fn $index(bytes: *const u8, len: usize, slots: *mut VtcNode, count: usize) -> usize {
            tc_ffi_index::index::$index(unsafe { read(bytes, len) }, unsafe { room(slots, count) })
        }

        #[unsafe(no_mangle)]
        pub unsafe extern "C" fn $check(bytes: *const u8, len: usize, verdict: &mut VtcVerdict, fault: &mut VtcFault) -> u32 {
            tc_ffi::$module::$check(unsafe { read(bytes, len) }, verdict, fault)
        }

        #[unsafe(no_mangle)]
        pub unsafe extern "C" fn $rewrite(bytes: *const u8, len: usize, buffer: *mut u8, size: usize, length: &mut usize) -> u32 {
            tc_ffi::$module::$rewrite(unsafe { read(bytes, len) }, unsafe { room(buffer, size) }, length)
        }

        #[unsafe(no_mangle)]
        pub unsafe extern "C" fn $settle(
            bytes: *const u8, len: usize, buffer: *mut u8, size: usize, length: &mut usize, rewrites: &mut usize,
        ) -> u32 {
            tc_ffi::$module::$settle(unsafe { read(bytes, len) }, unsafe { room(buffer, size) }, length, rewrites)
        }

        #[unsafe(no_mangle)]
        pub unsafe extern "C" fn $json(bytes: *const u8, len: usize, buffer: *mut u8, size: usize, length: &mut usize) -> u32 {
            tc_ffi::$module::$json(unsafe { read(bytes, len) }, unsafe { room(buffer, size) }, length)
        }

        #[unsafe(no_mangle)]
        pub unsafe extern "C" fn $make(
            json: *const u8, len: usize, buffer: *mut u8, size: usize, length: &mut usize,
            why: *mut u8, why_size: usize, why_length: &mut usize,
        ) -> u32 {
            let (buffer, why) = unsafe { (room(buffer, size), room(why, why_size)) };
            tc_ffi::$module::$make(unsafe { read(json, len) }, buffer, length, why, why_length)
        }

        #[unsafe(no_mangle)]
        pub unsafe extern "C" fn $given(
            json: *const u8, len: usize, buffer: *mut u8, size: usize, length: &mut usize,
            why: *mut u8, why_size: usize, why_length: &mut usize,
        ) -> u32 {
            let (buffer, why) = unsafe { (room(buffer, size), room(why, why_size)) };
            tc_ffi::$module::$given(unsafe { read(json, len) }, buffer, length, why, why_length)
        }
    )* };
}

calls! { tc: vtc_is_canonical vtc_index vtc_check vtc_rewrite vtc_settle vtc_json vtc_make vtc_make_as_given }
calls! {
    action: vtc_action_is_canonical vtc_action_index vtc_action_check vtc_action_rewrite vtc_action_settle vtc_action_json
    vtc_action_make vtc_action_make_as_given
}
