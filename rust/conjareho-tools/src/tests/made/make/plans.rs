//! Plans, by the argument `--plan`. What is wanted of a request is what `tc` sends: `tc qdisc change dev lo root handle 1: cake bandwidth 20mbit`,
//! `tc class delete dev lo classid 1:10`, `tc qdisc delete dev lo root handle 1:`, `tc qdisc add dev lo root handle 1: htb default 30`,
//! `tc chain delete dev lo ingress chain 7` and `tc actions delete action gact index 5`, each with the sequence number 0.

use crate::user::prelude::*;

use std::io::BufReader;
use crate::make::lines::{NetlinkHeader, packet_at};
use crate::make::program::arguments::{Arguments, Options};
use crate::make::program::order::RequestOptions;
use crate::make::program::plans::plan_of_dumps;
use crate::make::program::program::serve_with;
use crate::make::requests::order::LineRequest;
use crate::plan::objects::KindRules;
use crate::streams::{Reader, Writer};
use crate::tc_capture::{MessageType, Time};
use crate::tc_changes::Key;
use crate::tests::made::make::runs::{FORMS, Outcome};
use crate::user::Fail;
use clap::Parser as _;

const CAKE_10: &str = r#"{"type":"RTM_NEWQDISC","flags":0,"message":{"header":{"family":"Unspec","index":1,"handle":"1:","parent":"root","info":2},"attributes":[{"Kind":"cake"},{"Options":[{"Cake":{"BaseRate64":1250000}},{"Cake":{"Autorate":0}}]}]}}
"#;

const CAKE_20: &str = r#"{"type":"RTM_NEWQDISC","flags":0,"message":{"header":{"family":"Unspec","index":1,"handle":"1:","parent":"root","info":2},"attributes":[{"Kind":"cake"},{"Options":[{"Cake":{"BaseRate64":2500000}},{"Cake":{"Autorate":0}}]}]}}
"#;

// The same of another interface.
const CAKE_OF_2: &str = r#"{"type":"RTM_NEWQDISC","flags":0,"message":{"header":{"family":"Unspec","index":2,"handle":"1:","parent":"root","info":2},"attributes":[{"Kind":"cake"},{"Options":[{"Cake":{"BaseRate64":1250000}},{"Cake":{"Autorate":0}}]}]}}
"#;

// A save of an interface that has nothing.
const NOTHING: &str = r#"{"save":1,"devs":{"lo":{"index":1}},"names":{"1":"lo"}}
{"end":0}
"#;

const HTB: &str = r#"{"type":"RTM_NEWQDISC","flags":0,"message":{"header":{"family":"Unspec","index":1,"handle":"1:","parent":"root","info":2},"attributes":[{"Kind":"htb"},{"Options":[{"Htb":{"Init":{"version":196625,"rate2quantum":10,"defcls":48,"debug":0,"direct_pkts":7}}}]}]}}
"#;

const CLASS: &str = r#"{"type":"RTM_NEWTCLASS","flags":0,"message":{"header":{"family":"Unspec","index":1,"handle":"1:10","parent":"1:","info":0},"attributes":[{"Kind":"htb"},{"Options":[{"Htb":{"DirectQlen":1000}}]}]}}
"#;

const CLSACT: &str = r#"{"type":"RTM_NEWQDISC","flags":0,"message":{"header":{"family":"Unspec","index":1,"handle":"ffff:","parent":"ffff:fff1","info":1},"attributes":[{"Kind":"clsact"},{"Options":[]}]}}
"#;

const CHAIN: &str = r#"{"type":"RTM_NEWCHAIN","flags":0,"message":{"header":{"family":"Unspec","index":1,"handle":"0:0","parent":"ffff:fff2","info":0},"attributes":[{"Chain":7}]}}
"#;

const ACTION: &str = r#"{"type":"RTM_NEWACTION","flags":0,"message":{"header":{"family":"Unspec"},"attributes":[{"Actions":[{"tab":1,"attributes":[{"Kind":"gact"},{"Options":[{"Gact":{"Parms":{"generic":{"index":5,"capab":0,"action":"Shot","refcnt":1,"bindcnt":0}}}}]}]}]}]}}
"#;

const RED: &str = r#"{"type":"RTM_NEWQDISC","flags":0,"message":{"header":{"family":"Unspec","index":1,"handle":"1:","parent":"root","info":2},"attributes":[{"Kind":"red"},{"Options":[{"Red":{"MaxP":5}}]}]}}
"#;

const CHANGE_CAKE: &str = "\
480000002400050100000000000000000000000001000000000001\
00ffffffff000000000900010063616b6500000000180002000c000200a0252600000000000800090000000000
";

const DELETE_CLASS: &str = "240000002900050000000000000000000000000001000000100001000000000000000000\n";

const DELETE_QDISC: &str = "24000000250005000000000000000000000000000100000000000100ffffffff00000000\n";

const DELETE_CHAIN: &str = "2c000000650005000000000000000000000000000100000000000000f2ffffff0000000008000b0007000000\n";

// struct tcamsg; TCA_ACT_TAB { 1 { TCA_ACT_KIND "gact", TCA_ACT_OPTIONS { TCA_GACT_PARMS { index 5, capab 0, action 2, refcnt 1, bindcnt 0 } } } }
const DUMPED_ACTION: [u8; 52] = [
    0, 0, 0, 0, 48, 0, 1, 0, 44, 0, 1, 0, 9, 0, 1, 0, 103, 97, 99, 116, 0, 0, 0, 0, 28, 0, 2, 0, 24, 0, 2, 0, 5, 0, 0,
    0, 0, 0, 0, 0, 2, 0, 0, 0, 1, 0, 0, 0, 0, 0, 0, 0,
];

const DELETED_ACTION: [u8; 32] =
    [0, 0, 0, 0, 28, 0, 1, 0, 24, 0, 1, 0, 9, 0, 1, 0, 103, 97, 99, 116, 0, 0, 0, 0, 8, 0, 3, 0, 5, 0, 0, 0];

const ADD_HTB: &str = "\
48000000240005060000000000000000000000000100000000000100ffffffff0000000008000100687462001c00020018000200030000000a00000030000000\
0000000000000000
";

// What becomes of these lines if those are there now.
fn planned(now: &str, want: &str) -> Result<Outcome, Fail> {
    let words = ["tcmake", "--plan", "now.json"];
    let arguments = Arguments::try_parse_from(words)?;
    let options: Options = arguments.options();
    let requests = RequestOptions {
        index: None,
        now: Some(now.as_bytes()),
        plans: arguments.plans(),
        replaces_actions: false,
        names: None,
    };
    let mut reader = BufReader::new(Reader::new(want.as_bytes()));
    let mut writer = Writer::new(Vec::new());
    let mut errors = Vec::new();
    let ended = serve_with(FORMS, &options, &requests, &mut reader, &mut writer, &mut errors);
    Ok(Outcome { status: ended.status(), written: writer.into_inner(), errors })
}

// True if these lines are written of what is there and what is wanted, and nothing is said.
fn leads(now: &str, want: &str, written: &str) -> Result<bool, Fail> {
    let run = planned(now, want)?;
    Ok(run.status == 0 && run.written.as_slice() == written.as_bytes() && run.errors.is_empty())
}

#[test]
fn a_rate_is_one_request() -> Result<(), Fail> {
    assert!(leads(CAKE_10, CAKE_20, CHANGE_CAKE)?);
    Ok(())
}

#[test]
fn nothing_differs() -> Result<(), Fail> {
    assert!(leads(CAKE_20, CAKE_20, "")?);
    assert!(leads("", "", "")?);
    Ok(())
}

#[test]
fn deletes_and_makes() -> Result<(), Fail> {
    assert!(leads(HTB, NOTHING, DELETE_QDISC)?);
    assert!(leads("", HTB, ADD_HTB)?);
    let with_class = crate::user::formatted(format_args!("{HTB}{CLASS}"))?;
    assert!(leads(with_class.as_str(), HTB, DELETE_CLASS)?);
    // the class goes with its qdisc
    assert!(leads(with_class.as_str(), NOTHING, DELETE_QDISC)?);
    let with_chain = crate::user::formatted(format_args!("{CHAIN}{CLSACT}"))?;
    assert!(leads(with_chain.as_str(), CLSACT, DELETE_CHAIN)?);
    let again = crate::user::formatted(format_args!("{DELETE_QDISC}{ADD_HTB}"))?;
    assert!(leads(CAKE_10, HTB, again.as_str())?);
    Ok(())
}

#[test]
fn only_what_is_named() -> Result<(), Fail> {
    // nothing is
    assert!(leads(HTB, "", "")?);
    // an interface is, and neither another one nor an action
    let with_others = crate::user::formatted(format_args!("{CAKE_10}{CAKE_OF_2}{ACTION}"))?;
    assert!(leads(with_others.as_str(), CAKE_20, CHANGE_CAKE)?);
    assert!(leads(with_others.as_str(), NOTHING, DELETE_QDISC)?);
    Ok(())
}

// The requests that lead from an action to nothing, if these keys are named.
fn without_action(keys: &[Key]) -> Result<Vec<LineRequest>, Fail> {
    let header = NetlinkHeader {
        holds: MessageType::Action,
        kind: Some(48),
        flags: 0,
        sequence: 0,
        port: 0,
        packet: packet_at(Time { seconds: 0, nanoseconds: 0 }),
    };
    let mut now = Vec::new();
    now.try_push((header, fallible::copy(&DUMPED_ACTION)?))?;
    match plan_of_dumps(&KindRules, keys, now, Vec::new()) {
        Ok(planned) => Ok(planned.requests),
        Err(_) => Err(Fail::from(AllocError)),
    }
}

#[test]
fn an_action_that_is_named() -> Result<(), Fail> {
    let mut kind = [0; 16];
    kind[..4].copy_from_slice(b"gact");
    let requests = without_action(&[Key::Action { kind, index: 5 }])?;
    let is_delete = |request: &LineRequest| {
        request.given.kind == Some(49)
            && request.given.flags == 5
            && request.bytes.as_slice() == DELETED_ACTION.as_slice()
    };
    assert!(requests.len() == 1 && requests.iter().all(is_delete));
    assert!(without_action(&[Key::Action { kind, index: 6 }])?.is_empty());
    Ok(())
}

#[test]
fn refusals() -> Result<(), Fail> {
    // its table isn't dumped; but if it is there, it stays
    let run = planned(HTB, RED)?;
    assert!(run.status == 1 && run.written.is_empty() && !run.errors.is_empty());
    assert!(leads(RED, RED, "")?);
    // a class without its qdisc, and a second dump
    let run = planned("", CLASS)?;
    assert!(run.status == 1 && run.written.is_empty());
    let twice = crate::user::formatted(format_args!("{HTB}{HTB}"))?;
    let run = planned("", twice.as_str())?;
    assert!(run.status == 1 && run.written.is_empty());
    let said = "tcmake: line 2: a second dump of the qdisc at root of interface 1\n";
    assert!(run.errors.as_slice() == said.as_bytes());
    Ok(())
}
