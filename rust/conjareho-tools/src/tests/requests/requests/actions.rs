//! Standalone actions and a filter's own; order numbers of actions in their lists.

use crate::user::prelude::*;

use crate::nla_frames::DefaultNla;
use crate::restore::{RestoreError, kind_of_action, request_of_actions, standalone_index};
use crate::tc_action_messages::TcActionMessageAttribute;
use crate::tc_actions::{TcAction, TcActionNatOption};
use crate::tc_options::{TcFilterFlowerOption, TcFilterMatchAllOption, TcFilterU32Option};
use crate::tc_records::TcNat;
use crate::tests::requests::requests::in_hex;
use crate::tests::requests::requests::in_hex::is_written;
use crate::typed_requests::{FilterOption, RequestError, Target, action, action_message, filter, raw_action};
use crate::user::Fail;

// What Linux dumps of mirred: three actions that a filter holds each (1 reference, 1 of a filter), and a standalone one (1, 0).
#[rustfmt::skip]
const STANDALONE: &str =
"000000000800030004000000e4020100b80000000b0001006d69727265640000040005005000040004000600140001000000\
0000000000000000000000000000040006001400070000000000000000000000000000000000040006001800030000000000\
0000000000000000000000000000000008000a00000000004c00020020000200010000000000000003000000010000000100\
0000020000000b00000004000300240001006305000000000000630500000000000000000000000000000000000000000000\
b80001000b0001006d6972726564000004000500500004000400060014000100000000000000000000000000000000000400\
0600140007000000000000000000000000000000000004000600180003000000000000000000000000000000000000000000\
08000a00000000004c000200200002000200000000000000040000000100000001000000010000000b000000040003002400\
01004005000000000000400500000000000000000000000000000000000000000000b80002000b0001006d69727265640000\
0400050050000400040006001400010000000000000000000000000000000000040006001400070000000000000000000000\
0000000000000400060018000300000000000000000000000000000000000000000008000a00000000004c00020020000200\
0300000000000000040000000100000001000000010000000b00000004000300240001000605000000000000060500000000\
000000000000000000000000000000000000b80003000b0001006d6972726564000004000500500004000400060014000100\
0000000000000000000000000000000004000600140007000000000000000000000000000000000004000600180003000000\
00000000000000000000000000000000000008000a00000000004c0002002000020058000000000000000300000001000000\
00000000020000000b0000000400030024000100c204000000000000c2040000000000000000000000000000000000000000\
0000";

// The last of them alone, as the first of its list.
#[rustfmt::skip]
static STANDALONE_RESTORED: &str =
"0000000038000100340001000b0001006d6972726564000024000280200002005800000000000000030000000000000000000000020000000b000000";

// What it dumps of nat, pedit and police: each held by one filter, its counts at another byte.
#[rustfmt::skip]
const HELD_NAT: &str =
"000000000800030001000000bc000100b8000000080001006e61740050000400040006001400010000000000000000000000\
0000000000000400060014000700000000000000000000000000000000000400060018000300000000000000000000000000\
000000000000000008000a0000000000540002002800010001000000000000000300000001000000010000000a0700010506\
0708ffffffff0100000004000300240002002f050000000000002f0500000000000000000000000000000000000000000000";

#[rustfmt::skip]
const HELD_PEDIT: &str =
"000000000800030001000000e4000100e00000000a0001007065646974000000040005005000040004000600140001000000\
0000000000000000000000000000040006001400070000000000000000000000000000000000040006001800030000000000\
0000000000000000000000000000000008000a00000000007400020018000500140006000600010002000000060002000000\
00003400040001000000000000000300000001000000010000000100000000ffffff0a000000080000000000000000000000\
00000000240001000005000000000000000500000000000000000000000000000000000000000000";

#[rustfmt::skip]
const HELD_POLICE: &str =
"000000000800030001000000d4000100d00000000b000100706f6c6963650000040005005000040004000600140001000000\
0000000000000000000000000000040006001400070000000000000000000000000000000000040006001800030000000000\
0000000000000000000000000000000008000a0000000000640002003c00010001000000020000000000000000881300f807\
0000000100000000000048e8010000000000000000000000000001000000010000000000000024000600fe04000000000000\
fe0400000000000000000000000000000000000000000000";

static HELD: [&str; 3] = [HELD_NAT, HELD_PEDIT, HELD_POLICE];

// Actions that go on in chain 8: one that no filter holds, and one that is its filter's own.
static GOTO_CHAIN: &str =
    "00000000300001002c0000000900010067616374000000001c000200180002000400000000000000080000200100000000000000";

static GOTO_CHAIN_HELD: &str =
    "00000000300001002c0000000900010067616374000000001c000200180002000400000000000000080000200100000001000000";

// A gact and a police that no filter holds.
const GACT: &str =
    "00000000300001002c0000000900010067616374000000001c000200180002000600000000000000000000000100000000000000";

#[rustfmt::skip]
const POLICE: &str =
"000000005400010050000000\
0b000100706f6c6963650000400002003c00010007090a0b02000000000000000088130\
0f8070000000100000000000048e80100000000000000000000000000010000000000000000000000";

// The actions of dumps: their kinds, and the index of each standalone one.
static INDICES: [(&str, &[(&str, Option<u32>)]); 4] = [
    (STANDALONE, &[("mirred", None), ("mirred", None), ("mirred", None), ("mirred", Some(88))]),
    (GACT, &[("gact", Some(6))]),
    (POLICE, &[("police", Some(185207047))]),
    (HELD_PEDIT, &[("pedit", None)]),
];

// True if this request restores the actions of a dump.
fn is_restored(dump: &str, digits: &str) -> Result<bool, Fail> {
    match request_of_actions(in_hex::action_message(dump)?) {
        Ok(request) => Ok(is_written(&request.message, digits)),
        Err(_) => Ok(false),
    }
}

// Why no request restores the actions of a dump.
fn refusal(dump: &str) -> Result<Option<RestoreError>, Fail> {
    Ok(request_of_actions(in_hex::action_message(dump)?).err())
}

#[test]
fn standalone_actions() -> Result<(), Fail> {
    assert!(is_restored(INDICES[0].0, STANDALONE_RESTORED)?);
    for dump in &HELD {
        assert!(refusal(dump)? == Some(RestoreError::MadeByKernel));
    }
    assert!(refusal(GOTO_CHAIN)? == Some(RestoreError::GotoChain));
    assert!(refusal(GOTO_CHAIN_HELD)? == Some(RestoreError::MadeByKernel));
    Ok(())
}

// True if these are the kinds of actions, each with its index if it is standalone.
fn are(actions: &[TcAction], wanted: &[(&str, Option<u32>)]) -> bool {
    let mut rest = actions;
    for (kind, index) in wanted {
        match rest.split_first() {
            Some((action, others)) => {
                if kind_of_action(action) != *kind || standalone_index(action) != *index {
                    return false;
                }
                rest = others;
            }
            None => return false,
        }
    }
    rest.is_empty()
}

// The same of the actions of a dump.
fn are_in(dump: &str, wanted: &[(&str, Option<u32>)]) -> Result<bool, Fail> {
    let message = in_hex::action_message(dump)?;
    for attribute in &message.attributes {
        if let TcActionMessageAttribute::Actions(actions) = attribute {
            return Ok(are(actions, wanted));
        }
    }
    Ok(false)
}

#[test]
fn indices_of_actions() -> Result<(), Fail> {
    for (dump, actions) in &INDICES {
        assert!(are_in(dump, actions)?, "{dump}");
    }
    Ok(())
}

// A nat action for a place.
fn nat(place: u16) -> Result<TcAction, RequestError> {
    let parms = TcActionNatOption::Parms(TcNat::default());
    action(place, crate::user::collected([parms].into_iter())?)
}

// Two of them.
fn two(first: u16, second: u16) -> Result<Vec<TcAction>, RequestError> {
    let first = nat(first)?;
    let second = nat(second)?;
    Ok(crate::user::collected([first, second].into_iter())?)
}

// An action without options for a place.
fn raw(place: u16, kind: &str) -> Result<TcAction, RequestError> {
    raw_action(place, kind, Vec::<DefaultNla>::new())
}

// The error of a message with two actions at these places.
fn error_of_message(first: u16, second: u16) -> Result<Option<RequestError>, Fail> {
    Ok(action_message(two(first, second)?).err())
}

// The error of a filter with these options.
fn error_of_filter<O: FilterOption>(options: Vec<O>) -> Option<RequestError> {
    filter(&Target::default(), 1, 0x0800, None, options).err()
}

// True if this is the text of an error; empty, if there is none.
fn says(error: Option<RequestError>, text: &str) -> bool {
    match error {
        Some(error) => match crate::user::formatted(format_args!("{error}")) {
            Ok(said) => said.as_str() == text,
            Err(_) => false,
        },
        None => text.is_empty(),
    }
}

#[test]
fn places_of_actions() {
    assert!(says(nat(0).err(), "an action at place 0"));
    assert!(says(raw(0, "gact").err(), "an action at place 0"));
    assert!(says(raw(1, "gact").err(), ""));
    let known = "raw options under a kind whose options are known";
    assert!(says(raw(1, "nat").err(), known));
}

#[test]
fn places_in_a_message() -> Result<(), Fail> {
    assert!(says(error_of_message(1, 2)?, ""));
    assert!(says(error_of_message(2, 2)?, "two actions at place 2"));
    Ok(())
}

#[test]
fn places_in_a_filter() -> Result<(), Fail> {
    let flower = crate::user::collected([TcFilterFlowerOption::Actions(two(3, 3)?)].into_iter())?;
    assert!(says(error_of_filter(flower), "two actions at place 3"));
    let u32_options = crate::user::collected([TcFilterU32Option::Action(two(4, 4)?)].into_iter())?;
    assert!(says(error_of_filter(u32_options), "two actions at place 4"));
    let matchall = crate::user::collected([TcFilterMatchAllOption::Action(two(1, 2)?)].into_iter())?;
    assert!(says(error_of_filter(matchall), ""));
    Ok(())
}
