//! Frames: the texts of faults, and worked bytes.

use crate::rows::{frame, written};
use conjareho::tc::{parse_list, parse_string};
use conjareho::{DecodeError, DefaultNla, Nla, NlaBuffer, NlasIterator, Parseable};

#[test]
fn faults_are_printed_and_named() {
    let rows = [
        (DecodeError::BufferTooSmall { len: 19, needed: 20 }, "buffer of 19 bytes, 20 needed", "BufferTooSmall"),
        (DecodeError::FrameHeaderShort { left: 3 }, "frame header of 3 bytes", "FrameHeaderShort"),
        (DecodeError::FrameTooLong { length: 9, left: 8 }, "frame of 9 bytes, 8 left", "FrameTooLong"),
        (DecodeError::FrameTooShort { length: 2 }, "frame length 2 under 4", "FrameTooShort"),
        (DecodeError::WrongLength { expected: 4, got: 5 }, "value of 5 bytes, 4 expected", "WrongLength"),
        (DecodeError::NotUtf8, "text is not UTF-8", "NotUtf8"),
        (DecodeError::SelectorShort { len: 15, needed: 16 }, "selector of 15 bytes, 16 needed", "SelectorShort"),
        (DecodeError::XstatsShort { len: 1 }, "statistics of 1 bytes, 4 needed", "XstatsShort"),
        (DecodeError::MissingKind, "action without kind", "MissingKind"),
        (DecodeError::DuplicateKind, "action with several kinds", "DuplicateKind"),
        (DecodeError::OutOfMemory, "out of memory", "OutOfMemory"),
    ];
    for (fault, text, name) in rows {
        assert_eq!((fault.to_string().as_str(), fault.name()), (text, name));
    }
}

/// A frame of the unknown type 99, and its padding.
#[test]
fn an_unknown_frame_is_kept() {
    let bytes = [0x06, 0, 0x63, 0, 0xde, 0xad, 0, 0];
    let kept = DefaultNla::parse(&frame(&bytes)).expect("any frame");
    assert_eq!((kept.kind(), &kept), (99, &DefaultNla::new(99, vec![0xde, 0xad])));
    assert_eq!(kept.clone(), kept);
    assert_eq!(written(&kept), bytes);
}

/// Two frames, of type 1 and of type 2 with the nested flag, and two bytes that begin no frame.
const FRAMES: [u8; 14] = [0x05, 0, 0x01, 0, 7, 0, 0, 0, 0x04, 0, 0x02, 0x80, 0xaa, 0xbb];

#[test]
fn frames_come_one_by_one() {
    assert_eq!(NlaBuffer::new_checked(&[]).err(), Some(DecodeError::FrameHeaderShort { left: 0 }));
    let mut frames = NlasIterator::new(&FRAMES);
    let mut next = || frames.next().map(|frame| frame.map(|frame| (frame.word(), frame.value().to_vec())));
    assert_eq!(next(), Some(Ok((0x0001, vec![7]))));
    assert_eq!(next(), Some(Ok((0x8002, vec![]))));
    assert_eq!(next(), Some(Err(DecodeError::FrameHeaderShort { left: 2 })));
    assert_eq!(next(), None);
}

#[test]
fn lists_and_texts_are_read() {
    let list: Vec<DefaultNla> = parse_list(&FRAMES[..12]).expect("two frames");
    assert_eq!(list, [DefaultNla::new(0x0001, vec![7]), DefaultNla::new(0x8002, vec![])]);
    assert_eq!(parse_string(b"sfq\0").as_deref(), Ok("sfq"));
}
