//! Messages that Linux sent and `tc` wrote, chosen by what is in them.

use crate::user::prelude::*;

use crate::read::select::{Filter, Message, Types};
use crate::tc_capture::{MessageType, Time};

// A filter of u32 of the chain 0, with an action.
static U32: &str = "00000000070000000008d0800000010008000e00080001007533320008000b0000000000100102002400050001000100000000000000000000000000ffffffff\
010203070c00000000000000080002000000d08008000b0008000000b8000700b40001000b0001006d6972726564000050000400040006001400010000000000\
00000000000000000000000004000600140007000000000000000000000000000000000004000600180003000000000000000000000000000000000000000000\
08000a00000000004c00020020000200010000000000000004000000010000000100000001000000080000000400030024000100400000000000000040000000\
000000000000000000000000000000000000000004000c001c000900000000000000000000000000000000000000000000000000";

// A filter of flower, with an action.
static FLOWER: &str = "000000000300000001000000f2ffffff080000c00b000100666c6f776572000008000b0000000000e8000200060008000800000008000c000103030708000d00\
ffffffff08001600080000000800560000000000bc000300b80001000b0001006d69727265640000040005005000040004000600140001000000000000000000\
00000000000000000400060014000700000000000000000000000000000000000400060018000300000000000000000000000000000000000000000008000a00\
000000004c0002002000020001000000000000000300000001000000010000000200000004000000040003002400010022000000000000002200000000000000\
00000000000000000000000000000000";

// An action, and a chain with a template of flower.
static ACTION: &str = "00000000bc000100b80001000b0001006d6972726564000044000400140001000000000000000000000000000000000014000700000000000000000000000000\
000000001800030000000000000000000000000000000000000000000600060000ff00000c000900000000000300000008000a00000000004800020020000200\
0700000000000000ffffffff01000000000000000400000002000000240001001d000000000000001d0000000000000000000000000000000000000000000000";

static CHAIN: &str = "0000000007000000000000000000ffff0000000008000b00070000000b000100666c6f7765720000240002000a00040000000000000000000a000500ffffffff\
ffff00000600080000000000";

// A qdisc.
static QDISC: &str = "000000000400000000000100ffffffff000000000a000100626669666f00000008000200b80b0000";

// A message that is chosen or not.
#[derive(Clone, Copy)]
enum Sent {
    U32,
    Flower,
    Action,
    Chain,
    Qdisc,
    // One byte.
    Cut,
}

fn digits_of(sent: Sent) -> &'static str {
    match sent {
        Sent::U32 => U32,
        Sent::Flower => FLOWER,
        Sent::Action => ACTION,
        Sent::Chain => CHAIN,
        Sent::Qdisc => QDISC,
        Sent::Cut => "00",
    }
}

fn form_of(sent: Sent) -> MessageType {
    match sent {
        Sent::Action => MessageType::Action,
        _ => MessageType::Tc,
    }
}

// The time of each message, whose interface is "wan", and one a nanosecond later.
const AT: Time = Time { seconds: 1_764_028_801, nanoseconds: 250_000_000 };

const LATER: Time = Time { seconds: 1_764_028_801, nanoseconds: 250_000_001 };

// What chooses, a message, its type, and whether it is taken.
type Row = (Filter<'static>, Sent, Option<u16>, bool);

fn is_taken(row: &Row) -> Option<bool> {
    let (chosen, sent, rtm, _) = row;
    match crate::hex::decode(digits_of(*sent)) {
        Ok(payload) => Some(chosen.matches(&Message {
            time: Some(AT),
            rtm: *rtm,
            holds: form_of(*sent),
            payload: &payload,
            name: Some("wan"),
        })),
        Err(_) => None,
    }
}

// How many rows are as they say, up to the first that isn't.
fn count_of(rows: &[Row]) -> usize {
    let mut count = 0usize;
    for row in rows {
        if is_taken(row) != Some(row.3) {
            return count;
        }
        count = count.wrapping_add(1);
    }
    count
}

#[rustfmt::skip]
static KINDS: [Row; 10] = [
    (Filter { kinds: &["mirred"], ..Filter::ALL }, Sent::U32, Some(44), true),
    (Filter { kinds: &["mirred"], ..Filter::ALL }, Sent::Flower, Some(44), true),
    (Filter { kinds: &["mirred"], ..Filter::ALL }, Sent::Action, Some(48), true),
    (Filter { kinds: &["mirred"], ..Filter::ALL }, Sent::Chain, Some(100), false),
    (Filter { kinds: &["mirred"], ..Filter::ALL }, Sent::Qdisc, Some(36), false),
    (Filter { kinds: &["bfifo", "flower"], ..Filter::ALL }, Sent::Flower, Some(44), true),
    (Filter { kinds: &["bfifo", "flower"], ..Filter::ALL }, Sent::Chain, Some(100), true),
    (Filter { kinds: &["bfifo", "flower"], ..Filter::ALL }, Sent::Qdisc, Some(36), true),
    (Filter { kinds: &["bfifo", "flower"], ..Filter::ALL }, Sent::U32, Some(44), false),
    (Filter { kinds: &["bfifo", "flower"], ..Filter::ALL }, Sent::Cut, Some(44), false),
];

#[test]
fn kinds() {
    let count = count_of(&KINDS);
    assert!(count == KINDS.len(), "{count}");
}

#[rustfmt::skip]
static PLACES: [Row; 17] = [
    (Filter { handles: &[0x8008_d000], ..Filter::ALL }, Sent::Flower, Some(44), false),
    (Filter { handles: &[0x8008_d000], ..Filter::ALL }, Sent::Action, Some(48), false),
    (Filter { handles: &[2, 0x80d0_0800], ..Filter::ALL }, Sent::U32, Some(44), true),
    (Filter { parents: &[0xffff_fff2], ..Filter::ALL }, Sent::Flower, Some(44), true),
    (Filter { parents: &[0xffff_fff2], priorities: &[49152], ..Filter::ALL }, Sent::Flower, Some(44), true),
    (Filter { parents: &[0xffff_fff2], priorities: &[49152], ..Filter::ALL }, Sent::Flower, None, true),
    (Filter { parents: &[0xffff_fff2], priorities: &[49152], ..Filter::ALL }, Sent::Flower, Some(36), false),
    (Filter { parents: &[0xffff_fff2], priorities: &[49152], interfaces: &[3], ..Filter::ALL }, Sent::Flower, Some(44), true),
    (Filter { parents: &[0xffff_fff2], priorities: &[49152], interfaces: &[4], ..Filter::ALL }, Sent::Flower, Some(44), false),
    (Filter { interfaces: &[4], names: &["lan", "wan"], ..Filter::ALL }, Sent::Flower, Some(44), true),
    (Filter { interfaces: &[3], names: &["lan"], ..Filter::ALL }, Sent::Flower, Some(44), true),
    (Filter { names: &["wa", "wan0"], ..Filter::ALL }, Sent::Qdisc, Some(36), false),
    (Filter { interfaces: &[4], names: &["lan"], ..Filter::ALL }, Sent::Flower, Some(44), false),
    (Filter { chains: &[7], ..Filter::ALL }, Sent::Chain, Some(100), true),
    (Filter { chains: &[7], ..Filter::ALL }, Sent::Flower, Some(44), false),
    (Filter { chains: &[0], ..Filter::ALL }, Sent::Flower, Some(44), true),
    (Filter { chains: &[0], ..Filter::ALL }, Sent::Qdisc, Some(36), false),
];

#[test]
fn places() {
    let count = count_of(&PLACES);
    assert!(count == PLACES.len(), "{count}");
}

#[rustfmt::skip]
static TYPES_AND_TIMES: [Row; 6] = [
    (Filter { types: &[Types { first: 36, last: 38 }, Types { first: 44, last: 44 }], ..Filter::ALL }, Sent::Flower, Some(44), true),
    (Filter { types: &[Types { first: 36, last: 38 }, Types { first: 44, last: 44 }], ..Filter::ALL }, Sent::Qdisc, Some(37), true),
    (Filter { types: &[Types { first: 36, last: 38 }, Types { first: 44, last: 44 }], ..Filter::ALL }, Sent::Flower, Some(45), false),
    (Filter { types: &[Types { first: 36, last: 38 }, Types { first: 44, last: 44 }], ..Filter::ALL }, Sent::Flower, None, false),
    (Filter { since: Some(AT), until: Some(AT), ..Filter::ALL }, Sent::Flower, None, true),
    (Filter { since: Some(LATER), until: Some(AT), ..Filter::ALL }, Sent::Flower, None, false),
];

#[test]
fn types_and_times() {
    let count = count_of(&TYPES_AND_TIMES);
    assert!(count == TYPES_AND_TIMES.len(), "{count}");
}

#[test]
fn verdicts() {
    let mut chosen = Filter::ALL;
    assert!(chosen.matches_verdict(false));
    chosen.refused = true;
    assert!(!chosen.matches_verdict(false));
    assert!(chosen.matches_verdict(true));
}
