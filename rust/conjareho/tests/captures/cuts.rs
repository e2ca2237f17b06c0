//! Files that are cut, and packets of which a capture has only the front.

use crate::files::{FORMATS, Format, beginning, file_of, messages, packet};
use crate::reading::{messages_in, read};
use conjareho::capture::CaptureError;

/// Wherever a file of two messages is cut, its packets are those that were whole; and it ends with a piece, or with one that lacks bytes.
#[test]
fn each_cut() {
    let mut all = messages();
    all.truncate(2);
    for (format, is_big) in FORMATS {
        let file = file_of(format, is_big, &all);
        let mut pieces = 0;
        for length in 4..file.len() {
            let read = read(&file[..length]);
            for (packet, message) in read.packets.iter().zip(&all) {
                assert_eq!(packet.messages, message, "{format:?}, {length} bytes");
            }
            match read.fault {
                None => pieces += 1,
                Some(CaptureError::Short { needed, left }) => {
                    assert!(left < needed && read.at + left == length, "{format:?}, {length} bytes");
                }
                Some(fault) => panic!("{format:?}, {length} bytes: {fault}"),
            }
        }
        // The headers, and the packets but the last one.
        let wanted = match format {
            Format::Stream | Format::Blocks => 3,
            Format::Microseconds | Format::Nanoseconds => 2,
        };
        assert_eq!(pieces, wanted, "{format:?}");
    }
}

/// The first 20 bytes of a message of 56 bytes, and a message of 20 bytes. A stream has no snapped packets.
#[test]
fn a_snapped_packet() {
    let front = [56, 0, 0, 0, 36, 0, 0, 6, 1, 0, 0, 0, 0, 0, 0, 0, 1, 2, 3, 4];
    let whole = [20, 0, 0, 0, 36, 0, 0, 6, 2, 0, 0, 0, 0, 0, 0, 0, 1, 2, 3, 4];
    for (format, is_big) in FORMATS.into_iter().filter(|(format, _)| *format != Format::Stream) {
        let packets = [packet(format, is_big, &front, 36), packet(format, is_big, &whole, 0)].concat();
        let file = [beginning(format, is_big), packets].concat();
        let read = read(&file);
        assert_eq!(read.fault, None, "{format:?}");
        let are_whole: Vec<bool> = read.packets.iter().map(|packet| packet.is_whole).collect();
        assert_eq!(are_whole, [false, true], "{format:?}");
        let fault = CaptureError::Short { needed: 56, left: 20 };
        assert_eq!(messages_in(read.packets[0].messages), (vec![], Some(fault)), "{format:?}");
    }
}
