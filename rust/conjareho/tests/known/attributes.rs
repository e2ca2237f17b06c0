//! Attributes and options, type by type.

use crate::rows::{bytes_of, frame, is_attribute, rows, written};
use conjareho::tc::{
    TcActionAttribute, TcActionMessageAttribute, TcActionMessageFlags, TcActionMessageFlagsWithSelector,
    TcActionMirrorOption, TcActionNatOption, TcActionOption, TcActionTunnelKeyOption, TcAttribute, TcFilterBpfOption,
    TcFilterFlowerOption, TcFilterMatchAllOption, TcFilterU32Option, TcFqCodelClStats, TcFqCodelXstats, TcOption,
    TcQdiscFqCodelOption, TcQdiscIngressOption, TcStats2, TcXstats, emit_list, list_len, parse_list,
};
use conjareho::{DecodeError, Emitable, Nla, Parseable, ParseableBytes, ParseableParametrized, Settle};
use std::fmt::Debug;
use std::hash::{DefaultHasher, Hash, Hasher};

const OPTIONS: &str = include_str!("options.txt");

/// The cells of a row, the last of which is the frame that is written: the one that was read if the row has no other.
fn cells(row: &[&'static str]) -> (&'static str, &'static str, &'static str) {
    match row {
        [read, text] => (read, text, read),
        [read, text, written] => (read, text, written),
        row => panic!("{row:?}"),
    }
}

fn is_read<T: Parseable + Nla + Debug>(read: &str, text: &str, written: &str) {
    let attribute = T::parse(&frame(&bytes_of(read))).unwrap_or_else(|fault| panic!("{read}: {fault}"));
    is_attribute(&attribute, text, written);
}

#[test]
fn options_by_themselves() {
    for (section, row) in rows(OPTIONS) {
        let (read, text, written) = cells(&row);
        match section.split(' ').next() {
            Some("fq_codel") => is_read::<TcQdiscFqCodelOption>(read, text, written),
            Some("ingress") => is_read::<TcQdiscIngressOption>(read, text, written),
            Some("flower") => is_read::<TcFilterFlowerOption>(read, text, written),
            Some("u32") => is_read::<TcFilterU32Option>(read, text, written),
            Some("matchall") => is_read::<TcFilterMatchAllOption>(read, text, written),
            Some("bpf") => is_read::<TcFilterBpfOption>(read, text, written),
            kind => panic!("{kind:?}"),
        }
    }
}

/// Asserts that a frame is read under a kind as a value of a text, which is settled there, and written as a frame.
fn is_read_under<T>(kind: &str, read: &str, text: &str, written: &str)
where
    T: ParseableParametrized + Nla + Settle + Debug,
{
    let bytes = bytes_of(read);
    let value = T::parse_with_param(&frame(&bytes), kind).unwrap_or_else(|fault| panic!("{kind}: {read}: {fault}"));
    assert!(value.is_settled_under(kind), "{kind}: {text}");
    is_attribute(&value, text, written);
}

/// Each option in the variant of its kind.
#[test]
fn options_under_their_kind() {
    for (section, row) in rows(OPTIONS) {
        let (kind, variant) = section.split_once(' ').expect("a kind and a variant");
        let (read, text, written) = cells(&row);
        is_read_under::<TcOption>(kind, read, &format!("{variant}({text})"), written);
    }
}

/// An option of a type that no table has is settled under the kind that it was read under, and under no other.
#[test]
fn options_are_settled_under_their_kind_alone() {
    let kinds = [
        ("fq_codel", "FqCodel"),
        ("ingress", "Ingress"),
        ("flower", "Flower"),
        ("u32", "U32"),
        ("matchall", "MatchAll"),
        ("bpf", "Bpf"),
    ];
    let bytes = [5, 0, 0xff, 0x40, 7, 0, 0, 0];
    for (kind, variant) in kinds {
        let text = format!("{variant}(Other(DefaultNla {{ word: 16639, value: [7] }}))");
        is_read_under::<TcOption>(kind, "0500ff40 07000000", &text, "0500ff40 07000000");
        let option = TcOption::parse_with_param(&frame(&bytes), kind).expect("an option");
        for other in kinds.iter().map(|it| it.0).chain(["sfq", ""]) {
            assert_eq!(option.is_settled_under(other), other == kind, "{kind} under {other}");
        }
    }
}

#[test]
fn options_that_are_refused() {
    for (_, row) in rows(include_str!("faults.txt")) {
        let [kind, read, fault] = row[..] else { panic!("{row:?}") };
        let bytes = bytes_of(read);
        let refused = TcOption::parse_with_param(&frame(&bytes), kind).expect_err(read);
        assert_eq!(format!("{refused:?}"), fault, "{kind}: {read}");
    }
}

/// A row without a kind is of a type that is read by itself.
fn is_settled<T: Parseable + Nla + Settle + Debug>(read: &str, text: &str) {
    let value = T::parse(&frame(&bytes_of(read))).unwrap_or_else(|fault| panic!("{read}: {fault}"));
    assert!(value.is_settled(), "{text}");
    is_attribute(&value, text, read);
}

#[test]
fn attributes_under_a_kind() {
    for (section, row) in rows(include_str!("attributes.txt")) {
        let [kind, read, text] = row[..] else { panic!("{row:?}") };
        match section {
            "TcAttribute" => is_read_under::<TcAttribute>(kind, read, text, read),
            "TcStats2" => is_read_under::<TcStats2>(kind, read, text, read),
            "TcActionAttribute" => is_read_under::<TcActionAttribute>(kind, read, text, read),
            "TcActionOption" => is_read_under::<TcActionOption>(kind, read, text, read),
            "TcActionMirrorOption" => is_settled::<TcActionMirrorOption>(read, text),
            "TcActionNatOption" => is_settled::<TcActionNatOption>(read, text),
            "TcActionTunnelKeyOption" => is_settled::<TcActionTunnelKeyOption>(read, text),
            section => panic!("{section}"),
        }
    }
}

/// NLA_F_NESTED and NLA_F_NET_BYTEORDER are ignored if the type is in the table.
#[test]
fn flags_of_a_word() {
    is_read_under::<TcAttribute>("", "08000bc0 b4b3b2b1", "Chain(2981278644)", "08000b00 b4b3b2b1");
}

#[test]
fn attributes_of_action_messages() {
    for (_, row) in rows(include_str!("action_messages.txt")) {
        let (read, text, written) = cells(&row);
        is_read::<TcActionMessageAttribute>(read, text, written);
    }
}

#[test]
fn filters_of_flower() {
    for (_, row) in rows(include_str!("flower_sent.txt")) {
        let wanted = bytes_of(row.last().expect("hex"));
        let options: Vec<TcFilterFlowerOption> = parse_list(&bytes_of(row[0])).expect("options");
        let mut buffer = vec![0x55; list_len(&options)];
        emit_list(&options, &mut buffer);
        assert_eq!(buffer, wanted, "{}", row[0]);
    }
}

// ---- statistics of fq_codel

fn fault_of(bytes: &[u8]) -> Option<DecodeError> {
    TcFqCodelXstats::parse(bytes).err()
}

#[test]
fn short_statistics() {
    assert_eq!(fault_of(&[]), Some(DecodeError::XstatsShort { len: 0 }));
    assert_eq!(fault_of(&[1, 2, 3]), Some(DecodeError::XstatsShort { len: 3 }));
    assert_eq!(fault_of(&[0; 4]), Some(DecodeError::BufferTooSmall { len: 0, needed: 36 }));
    assert_eq!(fault_of(&[1, 0, 0, 0, 7]), Some(DecodeError::BufferTooSmall { len: 1, needed: 24 }));
    // Under any other kind they are kept.
    let read = TcXstats::parse_with_param(&frame(&bytes_of("07000400 a1a2a300")), "ingress");
    assert_eq!(format!("{read:?}"), "Ok(Other([161, 162, 163]))");
}

#[test]
fn what_follows_the_statistics_of_a_class_is_dropped() {
    let mut bytes = [0; 40];
    (bytes[0], bytes[39]) = (1, 0xff);
    let read = TcFqCodelXstats::parse(&bytes).expect("statistics");
    assert_eq!(read, TcFqCodelXstats::Class(TcFqCodelClStats::default()));
    assert!(read.is_settled() && read.fits());
    assert_eq!(read.buffer_len(), 28);
    let mut buffer = [0x55; 30];
    read.emit(&mut buffer);
    assert_eq!((&buffer[..4], &buffer[4..28], &buffer[28..]), (&[1, 0, 0, 0][..], &[0; 24][..], &[0x55; 2][..]));
}

#[test]
fn other_statistics_are_settled_by_their_number() {
    let is_settled = |bytes: &[u8]| TcFqCodelXstats::Other(bytes.to_vec()).is_settled();
    assert!(!is_settled(&[1, 2, 3]));
    assert!(!is_settled(&[0, 0, 0, 0, 7]));
    assert!(!is_settled(&[1, 0, 0, 0]));
    assert!(is_settled(&[2, 0, 0, 0]));
    assert!(is_settled(&[0, 0, 0, 1]));
}

// ---- flags of action messages

fn hash_of(flags: TcActionMessageFlagsWithSelector) -> u64 {
    let mut hasher = DefaultHasher::new();
    flags.hash(&mut hasher);
    hasher.finish()
}

/// Flags and a selector of these words.
fn pair(flags: u32, selector: u32) -> TcActionMessageFlagsWithSelector {
    use conjareho::Flags;
    TcActionMessageFlagsWithSelector::new_with_selector(
        TcActionMessageFlags::from_bits_retain(flags),
        TcActionMessageFlags::from_bits_retain(selector),
    )
}

/// Frames of any type, and of eight bytes alone.
#[test]
fn flags_of_action_messages() {
    let large = TcActionMessageFlagsWithSelector::new(TcActionMessageFlags::LargeDump);
    assert_eq!(large, pair(1, 1));
    assert_eq!(written(&large), bytes_of("0c000200 01000000 01000000"));
    assert!(large.is_settled());
    assert_eq!(TcActionMessageFlagsWithSelector::default(), pair(0, 0));
    for word in ["0100", "0200", "0280", "6340"] {
        let bytes = bytes_of(&format!("0c00{word} 01000000 00000002"));
        let read = TcActionMessageFlagsWithSelector::parse(&frame(&bytes));
        assert_eq!(read, Ok(pair(1, 0x0200_0000)), "{word}");
        let text = "Ok(TcActionMessageFlagsWithSelector { flags: TcActionMessageFlags(1), selector: TcActionMessageFlags(33554432) })";
        assert_eq!(format!("{read:?}"), text);
    }
    for got in [7, 9] {
        let bytes = [&[4 + got, 0, 2, 0, 1, 0, 0, 0, 0, 0, 0, 2, 3][..], &[0; 3]].concat();
        let wrong = DecodeError::WrongLength { expected: 8, got: got.into() };
        assert_eq!(TcActionMessageFlagsWithSelector::parse(&frame(&bytes)), Err(wrong));
    }
}

/// They are ordered by their flags, then by their selectors, and hashed alike exactly if they are equal.
#[test]
fn flags_are_ordered_and_hashed() {
    let ordered = [pair(0, 9), pair(1, 0), pair(1, 0x8000_0000), pair(0x100, 0), pair(0x8000_0000, 0)];
    for (i, a) in ordered.into_iter().enumerate() {
        for (j, b) in ordered.into_iter().enumerate() {
            assert_eq!(a.cmp(&b), i.cmp(&j), "{i} and {j}");
            assert_eq!(hash_of(a) == hash_of(b), i == j, "{i} and {j}");
        }
    }
}
