//! The same messages in each format, files that another program made (Python's `struct`), and the names of errors.

use crate::files::{FORMATS, MICROSECONDS, SECONDS, bytes_of, file_of, messages};
use crate::reading::{messages_in, read};
use conjareho::capture::{CaptureError, Time, errno_name};

#[test]
fn each_format_holds_the_same() {
    let all = messages();
    let time = Time { seconds: SECONDS.into(), nanoseconds: MICROSECONDS * 1000 };
    for (format, is_big) in FORMATS {
        let file = file_of(format, is_big, &all);
        let read = read(&file);
        assert_eq!((read.packets.len(), read.fault), (all.len(), None), "{format:?}");
        for (packet, message) in read.packets.iter().zip(&all) {
            assert_eq!((packet.messages, packet.is_whole, packet.time), (&message[..], true, Some(time)), "{format:?}");
        }
    }
}

#[test]
fn several_messages_in_a_packet() {
    let all = messages();
    let (kinds, fault) = messages_in(&all.concat());
    assert_eq!((kinds.len(), fault), (all.len(), None));
    for ((kind, sequence), number) in kinds.into_iter().zip(1..) {
        assert!(sequence == number && [36, 48].contains(&kind), "{kind} {sequence}");
    }
}

/// Classic pcap, big-endian, nanoseconds: a packet of RTM_NEWQDISC with a header of zeros, and NLMSG_DONE.
const PCAP: &str = "
    a1b23c4d0002000400000000000000000000ffff000000fd3b9aca003b9ac9ff000000480000004800040338000000000000
    0000000000002400000024000200050000004d00000000000000000000000000000000000000000000001400000003000200
    050000004d00000000000000";

/// pcapng, little-endian: an interface with a comment and units of 2^-10 seconds, of whose packets 40 bytes are kept; statistics; that packet, whole in an
/// enhanced packet block and cut in a simple one; a packet of another netlink family.
const BLOCKS: &str = "
    0a0d0d0a1c0000004d3c2b1a01000000ffffffffffffffff1c000000010000002c000000fd00000028000000010005006865
    6c6c6f000000090001008a000000000000002c00000005000000180000000000000000000000000000001800000006000000
    6800000000000000ee0000000002286b48000000480000000004033800000000000000000000000024000000240002000500
    00004d00000000000000000000000000000000000000000000001400000003000200050000004d0000000000000068000000
    030000003800000048000000000403380000000000000000000000002400000024000200050000004d000000000000000000
    000038000000060000004400000000000000ee0000000002286b240000002400000000040338000000000000000000000010
    000000000000000000000000000000000000000044000000";

/// The first packet of both: it is whole, and has the two messages.
fn is_first(file: &[u8], packets: usize, nanoseconds: u32) {
    let read = read(file);
    assert_eq!((read.packets.len(), read.fault), (packets, None));
    let first = &read.packets[0];
    assert_eq!((first.time, first.is_whole), (Some(Time { seconds: 1_000_000_000, nanoseconds }), true));
    assert_eq!(messages_in(first.messages), (vec![(36, 5), (3, 5)], None));
}

#[test]
fn pcap() {
    is_first(&bytes_of(PCAP), 1, 999_999_999);
}

#[test]
fn blocks() {
    let file = bytes_of(BLOCKS);
    is_first(&file, 2, 500_000_000);
    let read = read(&file);
    let second = &read.packets[1];
    assert_eq!((second.time, second.is_whole), (None, false));
    let fault = CaptureError::Short { needed: 36, left: 24 };
    assert_eq!(messages_in(second.messages), (vec![], Some(fault)));
}

/// Each number and its name, as Python's `errno` has them on Linux, and ENOTSUPP.
const NAMES: &str = include_str!("errno.txt");

#[test]
fn names_of_errors() {
    let words: Vec<&str> = NAMES.split_whitespace().collect();
    for pair in words.chunks(2) {
        assert_eq!(errno_name(pair[0].parse().expect("a number")), Some(pair[1]));
    }
    assert_eq!((0..1000).filter(|number| errno_name(*number).is_some()).count(), 132);
    assert_eq!(words.len(), 2 * 132);
}
