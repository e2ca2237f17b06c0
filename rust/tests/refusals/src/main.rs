//! `refusals FILE`: for each message of a file, lines `tc HEX` or `action HEX`, and each call that takes memory, refuses the
//! first allocation, then the second, until none is left to refuse. Each time the call has to return `OutOfMemory`, and all
//! memory has to be free again.

use conjareho::tc::{self, TcActionMessage, TcMessage};
use conjareho::{DecodeError, Netlink, NetlinkError, ParseableBytes, RewriteError, requests};
use std::alloc::{GlobalAlloc, Layout, System};
use std::cell::Cell;

thread_local! {
    /// How many allocations are still granted, if one is to be refused; whether one was; how many bytes are taken.
    static GRANTED: Cell<Option<usize>> = const { Cell::new(None) };
    static REFUSED: Cell<bool> = const { Cell::new(false) };
    static TAKEN: Cell<isize> = const { Cell::new(0) };
}

struct Refusing;

#[global_allocator]
static ALLOCATOR: Refusing = Refusing;

fn is_granted() -> bool {
    match GRANTED.get() {
        Some(0) => {
            REFUSED.set(true);
            false
        }
        Some(left) => {
            GRANTED.set(Some(left - 1));
            true
        }
        None => true,
    }
}

fn take(bytes: usize) {
    TAKEN.set(TAKEN.get() + bytes as isize);
}

// SAFETY: what it grants is the system's; what it refuses is null, as the trait allows.
unsafe impl GlobalAlloc for Refusing {
    unsafe fn alloc(&self, layout: Layout) -> *mut u8 {
        if !is_granted() {
            return std::ptr::null_mut();
        }
        take(layout.size());
        // SAFETY: the layout is the caller's.
        unsafe { System.alloc(layout) }
    }

    unsafe fn dealloc(&self, at: *mut u8, layout: Layout) {
        TAKEN.set(TAKEN.get() - layout.size() as isize);
        // SAFETY: as above.
        unsafe { System.dealloc(at, layout) }
    }

    unsafe fn realloc(&self, at: *mut u8, layout: Layout, size: usize) -> *mut u8 {
        if !is_granted() {
            return std::ptr::null_mut();
        }
        TAKEN.set(TAKEN.get() - layout.size() as isize);
        take(size);
        // SAFETY: as above.
        unsafe { System.realloc(at, layout, size) }
    }
}

/// How a call ended.
#[derive(PartialEq)]
enum End {
    OutOfMemory,
    Other,
}

fn of_read<T>(result: Result<T, DecodeError>) -> End {
    if matches!(result, Err(DecodeError::OutOfMemory)) { End::OutOfMemory } else { End::Other }
}

fn of_rewrite<T>(result: Result<T, RewriteError>) -> End {
    if matches!(result, Err(RewriteError::OutOfMemory)) { End::OutOfMemory } else { End::Other }
}

fn of_request<T>(result: Result<T, requests::RestoreError>) -> End {
    if matches!(result, Err(requests::RestoreError::OutOfMemory)) { End::OutOfMemory } else { End::Other }
}

fn of_netlink<T>(result: Result<T, NetlinkError>) -> End {
    if matches!(result, Err(NetlinkError::Payload(DecodeError::OutOfMemory))) { End::OutOfMemory } else { End::Other }
}

/// Refuses each allocation of a call in turn, and returns how many these are.
fn refuse_each(what: &str, bytes: &[u8], call: &mut dyn FnMut() -> End) -> usize {
    let expected = call();
    let mut at = 0;
    loop {
        let before = TAKEN.get();
        GRANTED.set(Some(at));
        REFUSED.set(false);
        let end = call();
        GRANTED.set(None);
        assert_eq!(TAKEN.get(), before, "{what} leaks: allocation {at}, on {bytes:02x?}");
        if !REFUSED.get() {
            assert!(end == expected, "{what} ends otherwise, on {bytes:02x?}");
            return at;
        }
        assert!(end == End::OutOfMemory, "{what} is no OutOfMemory: allocation {at}, on {bytes:02x?}");
        at += 1;
    }
}

fn main() {
    let path = std::env::args().nth(1).expect("a file");
    let text = std::fs::read_to_string(path).expect("the file can be read");
    let (mut calls, mut refused) = (0, 0);
    for line in text.lines() {
        let (form, hex) = line.split_once(' ').unwrap_or((line, ""));
        let octets = (0..hex.len() / 2).map(|at| u8::from_str_radix(&hex[2 * at..2 * at + 2], 16).expect("hex"));
        let bytes: Vec<u8> = octets.collect();
        let mut count = |what: &str, call: &mut dyn FnMut() -> End| {
            calls += 1;
            refused += refuse_each(what, &bytes, call);
        };
        let mut whole = vec![0; 16];
        whole.extend_from_slice(&bytes);
        whole[..4].copy_from_slice(&u32::try_from(16 + bytes.len()).unwrap_or(0).to_le_bytes());
        whole[4] = if form == "tc" { 36 } else { 48 };
        count("Netlink::parse", &mut || of_netlink(Netlink::parse(&whole)));
        if form == "tc" {
            count("parse", &mut || of_read(TcMessage::parse(&bytes)));
            count("rewrite", &mut || of_rewrite(tc::rewrite_tc(&bytes)));
            count("settle", &mut || of_rewrite(tc::settle_tc(&bytes)));
            if let Ok(message) = TcMessage::parse(&bytes) {
                count("to_bytes", &mut || of_rewrite(message.to_bytes()));
                let roots = Vec::from_iter(requests::root_table(requests::Object::Filter, &message));
                count("request_of", &mut || {
                    let granted = GRANTED.replace(None);
                    let dump = message.clone();
                    GRANTED.set(granted);
                    of_request(requests::request_of(&roots, requests::Object::Filter, dump))
                });
            }
        } else {
            count("parse", &mut || of_read(TcActionMessage::parse(&bytes)));
            count("rewrite", &mut || of_rewrite(tc::rewrite_action(&bytes)));
            count("settle", &mut || of_rewrite(tc::settle_action(&bytes)));
            if let Ok(message) = TcActionMessage::parse(&bytes) {
                count("to_bytes", &mut || of_rewrite(message.to_bytes()));
            }
        }
    }
    println!(
        "{calls} calls, {refused} allocations refused one by one: each call was OutOfMemory, and left nothing behind"
    );
}
