//! A library without std over the codec, with an allocator that has nothing to give.
#![no_std]

use conjareho::ParseableBytes;
use conjareho::kinds::Message;
use conjareho::tc::TcMessage;
use core::alloc::{GlobalAlloc, Layout};
use core::panic::PanicInfo;

struct Nothing;

#[global_allocator]
static ALLOCATOR: Nothing = Nothing;

// SAFETY: it refuses every allocation, so none is ever freed.
unsafe impl GlobalAlloc for Nothing {
    unsafe fn alloc(&self, _layout: Layout) -> *mut u8 {
        core::ptr::null_mut()
    }

    unsafe fn dealloc(&self, _at: *mut u8, _layout: Layout) {}
}

#[panic_handler]
fn stop(_why: &PanicInfo<'_>) -> ! {
    loop {}
}

/// Whether the first bytes are a message; with nothing to allocate only those without attributes are.
#[unsafe(no_mangle)]
pub extern "C" fn is_read(bytes: &[u8; 20]) -> bool {
    TcMessage::parse(bytes).is_ok()
}

/// Whether the first bytes are a message of any kind, which typed values are read from.
#[unsafe(no_mangle)]
pub extern "C" fn is_typed(bytes: &[u8; 20]) -> bool {
    Message::parse(bytes).is_ok()
}
