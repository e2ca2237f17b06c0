//! The numbers and flags that have names, each with its number, and the public constants.

use conjareho::tc::{
    TcActionMessageFlags, TcActionMirror, TcActionNat, TcActionTunnelKey, TcActionType, TcBpfFlags, TcFilterBpf,
    TcFilterFlower, TcFilterMatchAll, TcFilterU32, TcHandle, TcHeader, TcMirrorActionType, TcNatFlags, TcQdiscFqCodel,
    TcQdiscIngress, TcU32OptionFlags, TcU32SelectorFlags, helpers, is_known_kind,
};
use conjareho::{AddressFamily, Flags, NLA_F_NESTED, NLA_F_NET_BYTEORDER, NLA_HEADER_SIZE, NLA_TYPE_MASK};
use std::fmt::Debug;

/// Asserts that each number of a range is the value that a row has, or `other`, and back.
fn are_named<N, T>(range: impl Iterator<Item = N>, rows: &[(N, T)], other: impl Fn(N) -> T)
where
    N: Copy + PartialEq + Debug + From<T>,
    T: Copy + PartialEq + Debug + From<N>,
{
    for number in range {
        let wanted = rows.iter().find(|row| row.0 == number).map_or_else(|| other(number), |row| row.1);
        assert_eq!((T::from(number), N::from(wanted)), (wanted, number));
    }
}

#[test]
fn address_families() {
    use AddressFamily::{Bridge, Inet, Inet6, Mpls, Netlink, Other, Packet, Unix, Unspec};
    let rows = [(0, Unspec), (1, Unix), (2, Inet), (7, Bridge), (10, Inet6), (16, Netlink), (17, Packet), (28, Mpls)];
    are_named(0..=255u8, &rows, Other);
}

#[test]
fn outcomes_of_actions() {
    use TcActionType::{Ok, Other, Pipe, Queued, Reclassify, Redirect, Repeat, Shot, Stolen, Trap, Unspec};
    let named = [Unspec, Ok, Reclassify, Shot, Pipe, Stolen, Queued, Repeat, Redirect, Trap];
    let rows: Vec<(i32, TcActionType)> = (-1..).zip(named).collect();
    are_named(-300..=300i32, &rows, Other);
}

#[test]
fn directions_of_mirrors() {
    use TcMirrorActionType::{EgressMirror, EgressRedir, IngressMirror, IngressRedir, Other};
    are_named(-300..=300i32, &[(1, EgressRedir), (2, EgressMirror), (3, IngressRedir), (4, IngressMirror)], Other);
}

/// Asserts that flags have these names and words, and no others but the one without a name that has all bits.
fn are_flags<F>(rows: &[(F, &str, F::Bits)], all: F::Bits)
where
    F: Flags,
    F::Bits: PartialEq + Debug + Copy,
{
    for (flag, name, word) in rows {
        assert_eq!(flag.bits(), *word, "{name}");
        assert_eq!(F::from_name(name).map(|flag| flag.bits()), Some(*word), "{name}");
        assert_eq!(F::from_bits(*word).map(|flag| flag.bits()), Some(*word), "{name}");
    }
    assert_eq!(F::flags().len(), rows.len() + 1);
    assert_eq!(F::all().bits(), all);
}

#[test]
fn flags() {
    are_flags(
        &[
            (TcNatFlags::Egress, "Egress", 0x1),
            (TcNatFlags::Police, "Police", 0x10000),
            (TcNatFlags::Bind, "Bind", 0x20000),
            (TcNatFlags::Replace, "Replace", 0x40000),
            (TcNatFlags::NoRtnl, "NoRtnl", 0x80000),
            (TcNatFlags::AtIngress, "AtIngress", 0x100000),
        ],
        0xffff_ffff,
    );
    are_flags(&[(TcBpfFlags::DirectAction, "DirectAction", 0x1)], 0xffff_ffff);
    are_flags(
        &[
            (TcU32OptionFlags::SkipHw, "SkipHw", 0x1),
            (TcU32OptionFlags::SkipSw, "SkipSw", 0x2),
            (TcU32OptionFlags::InHw, "InHw", 0x4),
            (TcU32OptionFlags::NotInHw, "NotInHw", 0x8),
            (TcU32OptionFlags::Verbose, "Verbose", 0x10),
        ],
        0xffff_ffff,
    );
    are_flags(
        &[(TcActionMessageFlags::LargeDump, "LargeDump", 0x1), (TcActionMessageFlags::TerseDump, "TerseDump", 0x2)],
        0xffff_ffff,
    );
    are_flags(
        &[
            (TcU32SelectorFlags::Terminal, "Terminal", 0x1),
            (TcU32SelectorFlags::Offset, "Offset", 0x2),
            (TcU32SelectorFlags::VarOffset, "VarOffset", 0x4),
            (TcU32SelectorFlags::Eat, "Eat", 0x8),
        ],
        0xff,
    );
}

#[test]
fn frames() {
    assert_eq!((NLA_F_NESTED, NLA_F_NET_BYTEORDER, NLA_TYPE_MASK), (0x8000, 0x4000, 0x3fff));
    assert_eq!((NLA_HEADER_SIZE, helpers::NLA_VALUE_MAX_SIZE), (4, 65531));
}

/// Handles as numbers, with their halves.
#[test]
fn handles() {
    let mixed = TcHandle { major: 0x0102, minor: 0x0304 };
    let rows = [
        (TcHandle::UNSPEC, 0, 0, 0),
        (TcHandle::ROOT, 0xffff_ffff, 0xffff, 0xffff),
        (TcHandle::INGRESS, 0xffff_fff1, 0xffff, 0xfff1),
        (TcHandle::CLSACT, 0xffff_fff1, 0xffff, 0xfff1),
        (mixed, 0x0102_0304, 0x0102, 0x0304),
    ];
    for (handle, number, major, minor) in rows {
        assert_eq!(handle, TcHandle { major, minor });
        assert_eq!((TcHandle::from(number), u32::from(handle)), (handle, number));
    }
    assert_eq!((TcHandle::MIN_PRIORITY, TcHandle::MIN_INGRESS, TcHandle::MIN_EGRESS), (0xffe0, 0xfff2, 0xfff3));
    assert_eq!(TcHeader::TCM_IFINDEX_MAGIC_BLOCK, 0xffff_ffff);
}

#[test]
fn kinds() {
    let kinds = [
        (TcQdiscFqCodel::KIND, "fq_codel"),
        (TcQdiscIngress::KIND, "ingress"),
        (TcFilterFlower::KIND, "flower"),
        (TcFilterU32::KIND, "u32"),
        (TcFilterMatchAll::KIND, "matchall"),
        (TcFilterBpf::KIND, "bpf"),
        (TcActionMirror::KIND, "mirred"),
        (TcActionNat::KIND, "nat"),
        (TcActionTunnelKey::KIND, "tunnel_key"),
    ];
    for (kind, name) in kinds {
        assert_eq!(kind, name);
    }
    assert_eq!(TcFilterBpf::BPF_TAG_SIZE, 8);
    for kind in ["fq_codel", "ingress", "flower", "u32", "matchall", "bpf"] {
        assert!(is_known_kind(kind), "{kind}");
    }
    for kind in ["", "sfq", "U32", "u32\0", "bp", "bpfs", "nat"] {
        assert!(!is_known_kind(kind), "{kind:?}");
    }
}
