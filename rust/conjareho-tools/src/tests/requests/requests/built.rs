//! Requests that are built, and their bytes.

use crate::user::prelude::*;

use crate::tc_wire::{
    DefaultNla, Emitable, TcAction, TcActionMessage, TcActionMirrorOption, TcActionNatOption, TcActionType,
    TcFilterFlowerOption, TcHandle, TcMessage, TcMirror, TcMirrorActionType, TcNat, TcNatFlags, TcQdiscFqCodelOption,
};
use crate::tests::requests::requests::in_hex::is_written;
use crate::typed_requests::{
    RequestError, Target, TcText, action, action_message, chain, filter, plain_qdisc, qdisc, raw_action,
};
use core::net::Ipv4Addr;

static QDISC: &str = "00000000020000000000010\
0ffffffff000000000d00010066715f636f64656c000000000c0002000800020000280000";

static CLSACT: &str = "00000000070000000000fffff1ffffff000000000b000100636c736163740000";

static CHAIN: &str = "000000000700000000000000f2ffffff0000000008000b0009000000";

// A nat action and a gact action, as `kernel/messages.py` writes them.
static FILTER: &str = "000000000700000000000000f2ffffff080005000b000100666c6f776572000008000b00090000007c00\
0200060008000800000008000c000a0000016800030038000100080001006e6174002c00028028000100000000000000000003000000000000000000\
00000a0000010a000002ffffffff010000002c0002000900010067616374000000001c0002801800020000000000000000000200000000000000\
00000000";

static ACTIONS: &str = "0000000038000100340001000b0001006d697272656400002400028020000200000000000000000004000000\
00000000000000000100000008000000";

fn target(handle: u32, parent: u32) -> Target {
    Target { index: 7, handle: TcHandle::from(handle), parent: TcHandle::from(parent) }
}

// A list of one element.
fn one<T>(element: T) -> Result<Vec<T>, RequestError> {
    let mut list = Vec::new();
    list.try_push(element)?;
    Ok(list)
}

fn nat() -> Result<TcAction, RequestError> {
    let mut parms = TcNat::default();
    parms.generic.action = TcActionType::Pipe;
    parms.old_addr = Ipv4Addr::new(10, 0, 0, 1);
    parms.new_addr = Ipv4Addr::new(10, 0, 0, 2);
    parms.mask = Ipv4Addr::new(255, 255, 255, 255);
    parms.flags = TcNatFlags::Egress;
    action(1, one(TcActionNatOption::Parms(parms))?)
}

// The options of a gact action, whose verdict is shot.
static SHOT: [u8; 20] = [0, 0, 0, 0, 0, 0, 0, 0, 2, 0, 0, 0, 0, 0, 0, 0, 0, 0, 0, 0];

fn gact() -> Result<TcAction, RequestError> {
    let options = DefaultNla::new(2, SHOT.try_to_vec()?);
    raw_action(2, "gact", one(options)?)
}

// Both actions.
fn both() -> Result<Vec<TcAction>, RequestError> {
    let mut actions = one(nat()?)?;
    actions.try_push(gact()?)?;
    Ok(actions)
}

// A type of Ethernet, an address and both actions.
fn three() -> Result<Vec<TcFilterFlowerOption>, RequestError> {
    let mut options = one(TcFilterFlowerOption::EthType(0x0800))?;
    options.try_push(TcFilterFlowerOption::Ipv4Dst(Ipv4Addr::new(10, 0, 0, 1)))?;
    options.try_push(TcFilterFlowerOption::Actions(both()?))?;
    Ok(options)
}

// The filter with both actions.
fn two_actions() -> Result<TcMessage, RequestError> {
    filter(&target(0, 0xFFFF_FFF2), 5, 0x0800, Some(9), three()?)
}

// The message about a mirred action.
fn redirect() -> Result<TcActionMessage, RequestError> {
    let mut parms = TcMirror::default();
    parms.generic.action = TcActionType::Stolen;
    parms.eaction = TcMirrorActionType::EgressRedir;
    parms.ifindex = 8;
    let mirred = action(1, one(TcActionMirrorOption::Parms(parms))?)?;
    action_message(one(mirred)?)
}

// The request that the documentation of `tc_requests` has.
fn limit() -> Result<TcMessage, RequestError> {
    let target = Target { index: 2, handle: TcHandle::from(0x10000), parent: TcHandle::ROOT };
    qdisc(&target, one(TcQdiscFqCodelOption::Limit(10240))?)
}

fn clsact_qdisc() -> Result<TcMessage, RequestError> {
    plain_qdisc(&target(0xFFFF_0000, 0xFFFF_FFF1), "clsact")
}

fn ninth_chain() -> Result<TcMessage, RequestError> {
    chain(&target(0, 0xFFFF_FFF2), 9)
}

// True if a request is built, and has these bytes.
fn is_built<M: Emitable>(built: Result<M, RequestError>, digits: &str) -> bool {
    match built {
        Ok(message) => is_written(&message, digits),
        Err(_) => false,
    }
}

#[test]
fn known_bytes() {
    assert!(is_built(limit(), QDISC));
    assert!(is_built(two_actions(), FILTER));
    assert!(is_built(redirect(), ACTIONS));
    assert!(is_built(clsact_qdisc(), CLSACT));
    assert!(is_built(ninth_chain(), CHAIN));
}

// A filter with a number in its range, and one that isn't.
fn beyond() -> Result<TcMessage, RequestError> {
    let mut options = one(TcFilterFlowerOption::MplsBos(1))?;
    options.try_push(TcFilterFlowerOption::MplsBos(3))?;
    filter(&target(0, 0xFFFF_FFF2), 1, 0x8847, None, options)
}

// A qdisc whose limit is kept raw.
fn kept_limit() -> Result<TcMessage, RequestError> {
    let limit = TcQdiscFqCodelOption::Other(DefaultNla::new(2, Vec::new()));
    qdisc(&target(0, 0xFFFF_FFF2), one(limit)?)
}

// A nat action whose options are kept raw.
fn kept_nat() -> Result<TcAction, RequestError> {
    raw_action(1, "nat", one(DefaultNla::new(9, Vec::new()))?)
}

// A nat action, and one without a kind.
fn without_kind() -> Result<TcActionMessage, RequestError> {
    let mut actions = one(nat()?)?;
    actions.try_push(TcAction::default())?;
    action_message(actions)
}

// True if an error names the part at this place.
fn names(error: Option<RequestError>, place: usize) -> bool {
    error == Some(RequestError::NotSettled { place })
}

#[test]
fn parts_that_are_not_settled() {
    assert!(names(beyond().err(), 1));
    assert!(names(kept_limit().err(), 0));
    assert!(names(kept_nat().err(), 0));
    assert!(names(without_kind().err(), 1));
}

#[test]
fn handles() {
    assert!(TcHandle::from(0x10010).tc_text().as_str() == "1:10");
    assert!(TcHandle::from_tc_text("ingress") == Some(TcHandle::INGRESS));
    assert!(TcHandle::from_tc_text("clsact") == Some(TcHandle::CLSACT));
    assert!(TcHandle::from_tc_text("1:x").is_none());
}
