//! Lengths and numbers that can't be.

use crate::files::{Format, beginning, packet};
use crate::reading::{Read, fault_of, messages_in, read};
use conjareho::capture::CaptureError;

/// Asserts that a file needs more bytes.
fn is_short(file: &[u8], needed: usize) {
    assert_eq!(fault_of(file), Some(CaptureError::Short { needed, left: file.len() }));
}

#[test]
fn first_bytes() {
    for file in [&b"0000"[..], &[0x7f, 0x45, 0x4c, 0x46], &[16, 0, 0]] {
        assert_eq!(fault_of(file), Some(CaptureError::NotPcap), "{file:?}");
    }
    is_short(&[16, 0, 0, 0], 16);
    is_short(&[0xa1, 0xb2, 0xc3, 0xd4], 24);
    is_short(&[10, 13, 13, 10], 12);
}

/// A message of 20 bytes.
const GOOD: [u8; 20] = [20, 0, 0, 0, 36, 0, 0, 6, 7, 0, 0, 0, 0, 0, 0, 0, 1, 2, 3, 4];

/// One that says that it has so many.
fn with_length(length: u8) -> [u8; 20] {
    let mut message = GOOD;
    message[0] = length;
    message
}

#[test]
fn messages_too_short() {
    let fault = Some(CaptureError::MessageTooShort { length: 15 });
    assert_eq!(fault_of(&with_length(15)), fault);
    assert_eq!(messages_in(&[GOOD, with_length(15)].concat()), (vec![(36, 7)], fault));
    let fault = CaptureError::Short { needed: 21, left: 20 };
    assert_eq!(messages_in(&with_length(21)), (vec![], Some(fault)));
    // The padding of a last message may be missing in a packet, and not in a stream.
    let odd = &with_length(18)[..18];
    assert_eq!(messages_in(odd), (vec![(36, 7)], None));
    is_short(odd, 20);
}

/// A file of one message.
fn file_of_one() -> Vec<u8> {
    [beginning(Format::Blocks, false), packet(Format::Blocks, false, &GOOD, 0)].concat()
}

/// What is read of it with another byte at a place.
fn with_byte<R>(at: usize, byte: u8, judge: impl FnOnce(Read<'_>) -> R) -> R {
    let mut file = file_of_one();
    file[at] = byte;
    judge(read(&file))
}

#[test]
fn blocks() {
    // The byte at a place as another, and the fault.
    let changes = [
        (4, 8, CaptureError::BlockLength { length: 8 }),
        (4, 30, CaptureError::BlockLength { length: 30 }),
        (24, 32, CaptureError::BlockEnd { length: 28, end: 32 }),
        (8, 0, CaptureError::NoByteOrder),
    ];
    for (at, byte, fault) in changes {
        let ended = with_byte(at, byte, |read| (read.packets.len(), read.at, read.fault));
        assert_eq!(ended, (0, 0, Some(fault)), "{at}: {byte}");
    }
    // The length of the packet is longer than its block.
    let (at, holes) = with_byte(81, 1, |read| (read.at, read.holes));
    assert_eq!(at, file_of_one().len());
    assert!(matches!(holes[..], [(60, CaptureError::BodyTooShort { .. })]), "{holes:?}");
    // Its interface isn't described.
    let ended = with_byte(68, 9, |read| (read.holes, read.fault));
    assert_eq!(ended, (vec![(60, CaptureError::NoInterface { interface: 9 })], None));
}

/// What is read of a section of so many interfaces: its holes, and its fault.
fn many(interfaces: usize) -> (Vec<(usize, CaptureError)>, Option<CaptureError>) {
    let section = beginning(Format::Blocks, false);
    let (header, interface) = section.split_at(28);
    let file = [header, &interface.repeat(interfaces)].concat();
    let read = read(&file);
    (read.holes, read.fault)
}

/// 64 interfaces are described, and no more.
#[test]
fn many_interfaces() {
    assert_eq!(many(64), (vec![], None));
    assert_eq!(many(65), (vec![(28 + 64 * 32, CaptureError::TooManyInterfaces)], None));
}
