//! What is written beside the erased code, and what a caller's duty turned into.

use conjareho::capture::{Capture, CaptureError, Piece};
use conjareho::requests::{Object, Target, Verb};
use conjareho::tc::{TcActionMessage, TcActionType, TcAttribute, TcHandle, TcMessage, TcOption};
use conjareho::{DecodeError, DefaultNla, Emitable, Netlink, NetlinkError, Nla, ParseableBytes, Payload, RewriteError};

/// `tc qdisc add dev .. handle 8001: root fq`, as the kernel tells it, for the interface 0x0403_0201.
const QDISC: [u8; 44] = [
    44, 0, 0, 0, 36, 0, 5, 6, 9, 8, 7, 6, 4, 3, 2, 1, // nlmsghdr
    0, 0, 0, 0, 1, 2, 3, 4, 0, 0, 1, 0x80, 0xff, 0xff, 0xff, 0xff, 2, 0, 0, 0, // tcmsg
    7, 0, 1, 0, b'f', b'q', 0, 0, // TCA_KIND
];

#[test]
fn a_whole_message_is_read_and_written() {
    let (netlink, rest) = Netlink::parse(&QDISC).unwrap();
    assert!(rest.is_empty());
    assert_eq!(
        (netlink.message_type, netlink.flags, netlink.sequence, netlink.port),
        (36, 0x605, 0x0607_0809, 0x0102_0304)
    );
    let Payload::Tc(message) = &netlink.payload else { panic!("a qdisc is no action") };
    assert_eq!(message.header.index, 0x0403_0201);
    assert_eq!(message.header.handle, TcHandle { major: 0x8001, minor: 0 });
    assert_eq!(message.attributes, [TcAttribute::Kind("fq".to_string())]);
    assert_eq!(netlink.to_bytes().unwrap(), QDISC);
}

#[test]
fn a_message_of_actions_is_read_and_written() {
    let payload = Payload::Action(TcActionMessage::default());
    let netlink = Netlink { message_type: 50, flags: 1, sequence: 2, port: 3, payload };
    let bytes = netlink.to_bytes().unwrap();
    assert_eq!(bytes, [20, 0, 0, 0, 50, 0, 1, 0, 2, 0, 0, 0, 3, 0, 0, 0, 0, 0, 0, 0]);
    assert_eq!(Netlink::parse(&bytes).unwrap().0, netlink);
}

#[test]
fn what_follows_a_message_is_left() {
    let two = [&QDISC[..], &QDISC[..]].concat();
    assert_eq!(Netlink::parse(&two).unwrap().1, QDISC);
}

#[test]
fn what_is_no_message_is_refused() {
    let short = Netlink::parse(&QDISC[..43]).unwrap_err();
    assert_eq!(short, NetlinkError::Header(CaptureError::Short { needed: 44, left: 43 }));
    let mut other = QDISC;
    other[4] = 3;
    assert_eq!(Netlink::parse(&other).unwrap_err(), NetlinkError::OtherType(3));
    let mut broken = QDISC;
    broken[36] = 9;
    let fault = Netlink::parse(&broken).unwrap_err();
    assert_eq!(fault, NetlinkError::Payload(DecodeError::FrameTooLong { length: 9, left: 8 }));
    assert_eq!(fault.to_string(), "frame of 9 bytes, 8 left");
}

fn too_long() -> TcMessage {
    let mut message = TcMessage::default();
    message.attributes.push(TcAttribute::Kind("x".repeat(65531)));
    message
}

#[test]
fn what_does_not_fit_is_an_error() {
    assert!(!too_long().fits());
    assert_eq!(too_long().to_bytes().unwrap_err(), RewriteError::DoesNotFit);
}

#[test]
#[should_panic(expected = "required Self.codec.Fits")]
fn a_length_that_is_none_panics() {
    _ = too_long().buffer_len();
}

#[test]
#[should_panic(expected = "required short: len ≤ 65531")]
fn a_length_that_would_be_cut_panics() {
    too_long().emit(&mut vec![0; 70000]);
}

#[test]
fn a_message_is_an_ordinary_value() {
    let message = TcMessage::parse(&QDISC[16..]).unwrap();
    assert_eq!(message.clone(), message);
    assert_eq!(TcMessage::default(), TcMessage::with_index(0));
    let nla = TcAttribute::Kind("fq".to_string());
    let mut bytes = [0; 8];
    nla.emit_frame(&mut bytes);
    assert_eq!(bytes, QDISC[36..]);
    let error: Box<dyn std::error::Error + Send + Sync> = DecodeError::NotUtf8.into();
    assert_eq!(error.to_string(), "text is not UTF-8");
    assert_eq!(DefaultNla::new(0x8001, vec![1]).kind(), 0x8001);
}

#[test]
fn options_of_an_untyped_kind_keep_their_nesting() {
    let glob = [3u32, 10, 0x30, 0, 0].iter().flat_map(|word| word.to_le_bytes()).collect::<Vec<u8>>();
    let options = TcAttribute::options_raw(&[TcOption::Other(DefaultNla::new(2, glob.clone()))]).expect("memory");
    let mut message = TcMessage::with_index(1);
    message.attributes = vec![TcAttribute::Kind("htb".to_string()), options];
    assert!(message.is_settled());
    let bytes = message.to_bytes().expect("it fits");
    assert_eq!((bytes.len(), &bytes[28..36]), (56, &[28, 0, 2, 0, 24, 0, 2, 0][..]));
    assert_eq!((TcMessage::parse(&bytes), &bytes[36..]), (Ok(message), &glob[..]));
    let long = TcOption::Other(DefaultNla::new(1, vec![0; 65532]));
    assert_eq!(TcAttribute::options_raw(&[long]), Err(RewriteError::DoesNotFit));
}

#[test]
fn equal_values_have_equal_hashes() {
    use std::hash::{BuildHasher, RandomState};
    let state = RandomState::new();
    let (message, rest) = Netlink::parse(&QDISC).expect("a message");
    assert!(rest.is_empty());
    assert_eq!(state.hash_one(&message), state.hash_one(message.clone()));
    for number in -2..12 {
        let one = TcActionType::from(number);
        assert_eq!(state.hash_one(one), state.hash_one(TcActionType::from(i32::from(one))));
    }
    let (one, another) = (TcHandle::from(0x10010), TcHandle { major: 1, minor: 16 });
    assert_eq!((one, state.hash_one(one)), (another, state.hash_one(another)));
    assert!(one < TcHandle::from(0x10011) && TcHandle::from(0xffff) < one);
    assert_eq!(Target::default(), Target { index: 0, ..Target::default() });
    assert_eq!(Netlink::default().to_bytes().map(|bytes| bytes.len()), Ok(36));
}

#[test]
fn handles_and_results_are_read_as_they_are_shown() {
    assert_eq!(
        (TcHandle::from(0x10010).to_string(), "1:16".parse()),
        ("1:16".to_string(), Ok(TcHandle::from(0x10010)))
    );
    assert_eq!((TcActionType::Shot.to_string(), "drop".parse()), ("drop".to_string(), Ok(TcActionType::Shot)));
    assert_eq!(("shot".parse(), "77".parse()), (Ok(TcActionType::Shot), Ok(TcActionType::Other(77))));
    assert_eq!(
        "dropped".parse::<TcActionType>().map_err(|e| e.to_string()),
        Err("not the result of an action, such as drop".to_string())
    );
}

#[test]
fn a_request_has_the_type_and_the_flags_of_its_verb() {
    let types = |verb: Verb| {
        [Object::Qdisc, Object::Class, Object::Filter, Object::Chain].map(|object| verb.message_type(object))
    };
    assert_eq!(
        (types(Verb::Add), types(Verb::Delete), types(Verb::Dump)),
        ([36, 40, 44, 100], [37, 41, 45, 101], [38, 42, 46, 102])
    );
    assert_eq!((Verb::Change.action_type(), Verb::Delete.action_type(), Verb::Get.action_type()), (48, 49, 50));
    let request = Netlink::request(Object::Class, Verb::Replace, 7, TcMessage::with_index(1));
    assert_eq!((request.message_type, request.flags, request.sequence), (40, 0x405, 7));
    let request = Netlink::action_request(Verb::Dump, 8, TcActionMessage::default());
    assert_eq!((request.message_type, request.flags, request.to_bytes().map(|bytes| bytes.len())), (50, 0x301, Ok(20)));
}

/// The first error in a capture.
fn error_in(mut capture: Capture, bytes: &[u8]) -> CaptureError {
    let mut rest = bytes;
    loop {
        match capture.next(rest) {
            Ok(Piece { used, packet: Ok(_) }) => rest = &rest[used..],
            Ok(Piece { packet: Err(e), .. }) | Err(e) => return e,
        }
    }
}

#[test]
fn lengths_of_almost_4_gib_are_too_long() {
    let words = |words: &[u32]| words.iter().flat_map(|word| word.to_le_bytes()).collect::<Vec<u8>>();
    let (most, of_file) = (u32::MAX as usize, |bytes: &[u8]| Capture::of_first(bytes).expect("a file"));
    let stream = words(&[u32::MAX, 36, 0, 0]);
    assert!(
        matches!(error_in(Capture::Stream(None), &stream), CaptureError::Short { needed, left: 16 } if needed >= most)
    );
    let pcap = words(&[0xa1b2_c3d4, 0x4_0002, 0, 0, 0x4_0000, 253, 0, 0, u32::MAX, u32::MAX]);
    assert!(matches!(error_in(of_file(&pcap), &pcap), CaptureError::Short { needed, left: 16 } if needed >= most));
    // A section, an interface, and an enhanced packet.
    let section = [0x0a0d_0d0a, 28, 0x1a2b_3c4d, 1, u32::MAX, u32::MAX, 28];
    let packet = [6, 32, 0, 0, 0, u32::MAX, u32::MAX, 32];
    let pcapng = words(&[&section[..], &[1, 20, 253, 0, 20], &packet].concat());
    assert!(
        matches!(error_in(of_file(&pcapng), &pcapng), CaptureError::BodyTooShort { needed, left: 20 } if needed >= most)
    );
}

#[test]
fn types_have_the_traits_that_one_expects() {
    use conjareho::AddressFamily;
    use conjareho::tc::TcHeader;
    use std::error::Error;
    use std::fmt::{Debug, Display};
    use std::hash::Hash;
    use std::str::FromStr;
    fn is_value<T: Clone + Eq + Hash + Debug>() {}
    fn is_error<T: Clone + Eq + Hash + Error + Send + Sync + 'static>() {}
    fn is_text<T: FromStr + Display>() {}
    fn is_ordered<T: Copy + Ord + Hash>() {}
    fn has_default<T: Default>() {}
    macro_rules! each {
        ($check:ident: $($type:ty),*) => { $($check::<$type>();)* };
    }
    each! { is_value: TcMessage, TcActionMessage, TcHeader, TcOption, AddressFamily, TcActionType, Target, Netlink, Object }
    each! { is_error: DecodeError, RewriteError, NetlinkError, CaptureError }
    each! { is_text: TcHandle, TcActionType }
    each! { is_ordered: TcHandle, Verb }
    each! { has_default: Netlink, TcMessage, Target }
}
