//! The fixed records: their bytes and fields, their raw buffers, and bytes that are too few or zeros. Each byte is its place in the record, counted from 1.
//! Padding is kept by a raw buffer, not looked at by a record, and written as 0. `parse` is each record's own: no trait that has it is imported.

use crate::rows::{bytes_of, rows};
use conjareho::tc::{
    TcActionGeneric, TcActionGenericBuffer, TcActionMessage, TcActionMessageBuffer, TcActionMessageFlags,
    TcActionMessageHeader, TcActionType, TcFqCodelClStats, TcFqCodelClStatsBuffer, TcFqCodelQdStats,
    TcFqCodelQdStatsBuffer, TcHandle, TcHeader, TcMessage, TcMessageBuffer, TcMirror, TcMirrorActionType,
    TcMirrorBuffer, TcNat, TcNatBuffer, TcNatFlags, TcStats, TcStatsBasic, TcStatsBasicBuffer, TcStatsBuffer,
    TcStatsQueue, TcStatsQueueBuffer, TcTunnelKey, TcTunnelKeyBuffer, TcU32Key, TcU32KeyBuffer, TcU32Selector,
    TcU32SelectorBuffer, TcU32SelectorFlags, Tcf, TcfBuffer,
};
use conjareho::{AddressFamily, DecodeError, Emitable, SettleBytes};
use std::fmt::Debug;
use std::ops::Range;

/// The bytes that a record is read from: 1, 2, 3 and so on.
fn counted() -> Vec<u8> {
    (1..=64).collect()
}

/// A row of `records.txt`.
struct Row {
    len: usize,
    padding: Range<usize>,
    text: &'static str,
}

fn row(name: &str) -> Row {
    let all = rows(include_str!("records.txt"));
    let cells =
        all.iter().map(|(_, cells)| cells).find(|cells| cells[0] == name).unwrap_or_else(|| panic!("no row of {name}"));
    let [_, len, from, to, text] = cells[..] else { panic!("{cells:?}") };
    let number = |cell: &str| cell.parse().expect("a number");
    Row { len: number(len), padding: number(from)..number(to), text }
}

/// The counted bytes as a record is written: its padding is zeros.
fn padded(row: &Row) -> Vec<u8> {
    let mut bytes = counted();
    bytes.truncate(row.len);
    bytes[row.padding.clone()].fill(0);
    bytes
}

fn is_written<R: Emitable + Debug>(record: &R, row: &Row) {
    assert_eq!(format!("{record:?}"), row.text);
    assert!(record.fits(), "{}", row.text);
    assert_eq!(record.buffer_len(), row.len, "{}", row.text);
    let mut buffer = [0x55; 80];
    record.emit(&mut buffer);
    assert_eq!(buffer[..row.len], padded(row), "{}", row.text);
    assert_eq!(buffer[row.len..], [0x55; 80][row.len..], "{}", row.text);
}

/// Too few bytes, by one.
fn short(needed: usize) -> DecodeError {
    DecodeError::BufferTooSmall { len: needed - 1, needed }
}

/// What is asserted of each record.
macro_rules! is_record {
    ($record:ident, $buffer:ident) => {
        let row = row(stringify!($record));
        let record = $record::parse(&counted()).expect("a record");
        is_written(&record, &row);
        let kept = $buffer::read_from_prefix(&counted()).expect("a raw record").as_bytes();
        assert_eq!(kept[..], counted()[..row.len], "{}", row.text);
        assert_eq!($buffer::from(&record).as_bytes()[..], padded(&row), "{}", row.text);
        assert_eq!($record::parse(&vec![0; row.len - 1]).err(), Some(short(row.len)), "{}", row.text);
    };
}

#[test]
fn records() {
    is_record!(TcHeader, TcMessageBuffer);
    is_record!(TcActionMessageHeader, TcActionMessageBuffer);
    is_record!(TcStats, TcStatsBuffer);
    is_record!(TcStatsBasic, TcStatsBasicBuffer);
    is_record!(TcStatsQueue, TcStatsQueueBuffer);
    is_record!(TcFqCodelQdStats, TcFqCodelQdStatsBuffer);
    is_record!(TcFqCodelClStats, TcFqCodelClStatsBuffer);
    is_record!(Tcf, TcfBuffer);
    is_record!(TcActionGeneric, TcActionGenericBuffer);
    is_record!(TcMirror, TcMirrorBuffer);
    is_record!(TcNat, TcNatBuffer);
    is_record!(TcTunnelKey, TcTunnelKeyBuffer);
    is_record!(TcU32Key, TcU32KeyBuffer);
}

/// A selector has a head, and the three keys that it counts.
#[test]
fn selectors() {
    let selector = TcU32Selector::parse(&counted()).expect("a selector");
    is_written(&selector, &row("TcU32Selector"));
    let kept = TcU32SelectorBuffer::read_from_prefix(&counted()).expect("a head").as_bytes();
    assert_eq!(kept[..], counted()[..16]);
    assert_eq!(TcU32SelectorBuffer::new_checked(&counted()).expect("a head").as_bytes(), kept);
    let cut = DecodeError::SelectorShort { len: 63, needed: 64 };
    assert_eq!(TcU32SelectorBuffer::new_checked(&counted()[..63]).err(), Some(cut));
    let head = Row { len: 16, padding: 3..4, text: "" };
    assert_eq!(TcU32SelectorBuffer::from(&selector).as_bytes()[..], padded(&head));
}

/// Of zeros a record is read that is empty, and a selector without keys.
#[test]
fn of_zeros() {
    assert_eq!(TcHeader::parse(&[0; 20]), Ok(TcHeader::default()));
    assert_eq!(TcActionMessageHeader::parse(&[0; 4]), Ok(TcActionMessageHeader::default()));
    assert_eq!(TcStats::parse(&[0; 40]), Ok(TcStats::default()));
    assert_eq!(TcStatsBasic::parse(&[0; 16]), Ok(TcStatsBasic::default()));
    assert_eq!(TcStatsQueue::parse(&[0; 20]), Ok(TcStatsQueue::default()));
    assert_eq!(TcFqCodelQdStats::parse(&[0; 36]), Ok(TcFqCodelQdStats::default()));
    assert_eq!(TcFqCodelClStats::parse(&[0; 24]), Ok(TcFqCodelClStats::default()));
    assert_eq!(TcNat::parse(&[0; 36]).map(|nat| nat.generic.index), Ok(0));
    assert_eq!(TcU32Selector::parse(&[0; 16]).map(|selector| selector.keys.is_empty()), Ok(true));
}

#[test]
fn defaults() {
    let shown = |name: &str| match name {
        "AddressFamily" => format!("{:?}", AddressFamily::default()),
        "TcActionType" => format!("{:?}", TcActionType::default()),
        "TcMirrorActionType" => format!("{:?}", TcMirrorActionType::default()),
        "TcHandle" => format!("{:?}", TcHandle::default()),
        "TcNatFlags" => format!("{:?}", TcNatFlags::default()),
        "TcU32SelectorFlags" => format!("{:?}", TcU32SelectorFlags::default()),
        "TcActionMessageFlags" => format!("{:?}", TcActionMessageFlags::default()),
        "TcHeader" => format!("{:?}", TcHeader::default()),
        "TcActionMessageHeader" => format!("{:?}", TcActionMessageHeader::default()),
        "TcStats" => format!("{:?}", TcStats::default()),
        "TcStatsBasic" => format!("{:?}", TcStatsBasic::default()),
        "TcStatsQueue" => format!("{:?}", TcStatsQueue::default()),
        "TcFqCodelQdStats" => format!("{:?}", TcFqCodelQdStats::default()),
        "TcFqCodelClStats" => format!("{:?}", TcFqCodelClStats::default()),
        "Tcf" => format!("{:?}", Tcf::default()),
        "TcActionGeneric" => format!("{:?}", TcActionGeneric::default()),
        "TcMirror" => format!("{:?}", TcMirror::default()),
        "TcNat" => format!("{:?}", TcNat::default()),
        "TcTunnelKey" => format!("{:?}", TcTunnelKey::default()),
        "TcU32Key" => format!("{:?}", TcU32Key::default()),
        "TcU32Selector" => format!("{:?}", TcU32Selector::default()),
        "TcMessage" => format!("{:?}", TcMessage::default()),
        "TcActionMessage" => format!("{:?}", TcActionMessage::default()),
        name => panic!("{name}"),
    };
    for (_, row) in rows(include_str!("defaults.txt")) {
        let [name, text] = row[..] else { panic!("{row:?}") };
        assert_eq!(shown(name), text);
    }
}

// ---- the selector of u32 and its keys

/// A selector that counts so many keys, and has these: the word at byte 16 is 10.0.0.1.
fn selector(nkeys: u8, keys: usize) -> TcU32Selector {
    let key = TcU32Key { mask: 0xffff_ffff, val: 0x0a00_0001, off: 16, offmask: 0 };
    let flags = TcU32SelectorFlags::Terminal;
    TcU32Selector { flags, offmask: 0x0f00, nkeys, keys: vec![key; keys], ..TcU32Selector::default() }
}

#[test]
fn offsets_and_masks_have_their_own_order() {
    let one = selector(1, 1);
    let bytes = bytes_of("010001000f0000000000000000000000 ffffffff0a0000011000000000000000");
    assert_eq!((one.fits(), one.buffer_len()), (true, 32));
    let mut buffer = [0x55; 40];
    one.emit(&mut buffer);
    assert_eq!((&buffer[..32], &buffer[32..]), (&bytes[..], &[0x55; 8][..]));
    // What follows the key is dropped.
    assert_eq!(TcU32Selector::parse(&buffer), Ok(one));
    // More keys are counted than there are.
    assert!(!selector(1, 0).fits() && !selector(2, 1).fits());
}

#[test]
fn short_selectors_are_refused() {
    let one_key = [0, 0, 1, 0, 0, 0, 0, 0, 0, 0, 0, 0, 0, 0, 0, 0];
    assert_eq!(TcU32Selector::parse(&one_key).err(), Some(DecodeError::SelectorShort { len: 16, needed: 32 }));
    assert_eq!(TcU32Selector::parse(&one_key[..15]).err(), Some(DecodeError::SelectorShort { len: 15, needed: 16 }));
}

// ---- which records are settled

/// A number that has a name is settled under its name alone.
#[test]
fn numbers_with_names() {
    for (family, is_settled) in
        [(AddressFamily::Inet, true), (AddressFamily::Other(2), false), (AddressFamily::Other(3), true)]
    {
        let header = TcHeader { family, ..TcHeader::default() };
        assert_eq!(header.is_settled(), is_settled, "{family:?}");
        assert_eq!(TcActionMessageHeader { family }.is_settled(), is_settled, "{family:?}");
    }
    let outcomes = [
        (TcActionType::Shot, true),
        (TcActionType::Other(-1), false),
        (TcActionType::Other(2), false),
        (TcActionType::Other(9), true),
    ];
    for (action, is_settled) in outcomes {
        let generic = TcActionGeneric { action, ..TcActionGeneric::default() };
        let mut mirror = TcMirror::default();
        let mut nat = TcNat::default();
        let mut key = TcTunnelKey::default();
        (mirror.generic, nat.generic, key.generic) = (generic, generic, generic);
        let settled =
            [mirror.generic.is_settled(), mirror.is_settled_under("mirred"), nat.is_settled(), key.is_settled()];
        assert_eq!(settled, [is_settled; 4], "{action:?}");
    }
    let directions = [
        (TcMirrorActionType::IngressMirror, true),
        (TcMirrorActionType::Other(4), false),
        (TcMirrorActionType::Other(0), true),
    ];
    for (eaction, is_settled) in directions {
        let mirror = TcMirror { eaction, ..TcMirror::default() };
        assert_eq!(mirror.is_settled(), is_settled, "{eaction:?}");
    }
}
