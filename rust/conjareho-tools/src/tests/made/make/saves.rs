//! Saves, what there is now, and names of interfaces.

use crate::user::prelude::*;

use std::io::BufReader;
use crate::make::lines::Encoding;
use crate::make::messages::Making;
use crate::make::program::arguments::{Arguments, Options};
use crate::make::program::order::RequestOptions;
use crate::make::program::program::serve_with;
use crate::streams::{Reader, Writer};
use crate::tests::made::make::runs::FORMS;
use clap::Parser as _;

// The first line of a save of the interface wan.
#[rustfmt::skip]
const HEAD: &str = r#"{"save":1,"devs":{"wan":{"index":2}},"names":{"2":"wan","3":"ids"},"kernel":"6.12.48","by":"tcsave","time":"x"}
"#;

// Its root qdisc and its clsact qdisc.
#[rustfmt::skip]
const QDISCS: &str = r#"{"type":"RTM_NEWQDISC","flags":0,"seq":11,"message":{"header":{"family":"Unspec","index":2,"handle":"1:","parent":"root","info":2},"attributes":[{"Kind":"fq_codel"},{"Options":[{"FqCodel":{"Limit":10240}}]}]}}
{"type":"RTM_NEWQDISC","flags":0,"seq":11,"message":{"header":{"family":"Unspec","index":2,"handle":"ffff:","parent":"ffff:fff1","info":2},"attributes":[{"Kind":"clsact"}]}}
"#;

// Two actions: one that two filters hold, and one that stands by itself.
#[rustfmt::skip]
const ACTIONS: &str = r#"{"type":"RTM_GETACTION","flags":0,"seq":29,"message":{"header":{"family":"Unspec"},"attributes":[{"Actions":[{"tab":1,"attributes":[{"Kind":"mirred"},{"Stats":[{"Basic":{"bytes":0,"packets":0}}]},{"Options":[{"Mirror":{"Parms":{"generic":{"index":7,"capab":0,"action":"Pipe","refcnt":3,"bindcnt":2},"eaction":"EgressMirror","ifindex":3}}},{"Mirror":{"Tm":{"install":29,"lastuse":29,"expires":0,"firstuse":0}}}],"word":2}]},{"tab":2,"attributes":[{"Kind":"mirred"},{"Stats":[{"Basic":{"bytes":0,"packets":0}}]},{"Options":[{"Mirror":{"Parms":{"generic":{"index":8,"capab":0,"action":"Pipe","refcnt":1,"bindcnt":0},"eaction":"EgressMirror","ifindex":3}}},{"Mirror":{"Tm":{"install":29,"lastuse":29,"expires":0,"firstuse":0}}}],"word":2}]}]}]}}
"#;

// A filter that holds the first of them, and one with an action of its own.
#[rustfmt::skip]
const FILTERS: &str = r#"{"type":"RTM_NEWTFILTER","flags":0,"seq":40,"message":{"header":{"family":"Unspec","index":2,"handle":":1","parent":"ffff:fff2","info":22610688},"attributes":[{"Kind":"matchall"},{"Chain":0},{"Options":[{"MatchAll":{"Action":[{"tab":1,"attributes":[{"Kind":"mirred"},{"Stats":[{"Basic":{"bytes":0,"packets":0}}]},{"Options":[{"Mirror":{"Parms":{"generic":{"index":7,"capab":0,"action":"Pipe","refcnt":3,"bindcnt":2},"eaction":"EgressMirror","ifindex":3}}},{"Mirror":{"Tm":{"install":29,"lastuse":29,"expires":0,"firstuse":0}}}],"word":2}]}]}}]}]}}
{"type":"RTM_NEWTFILTER","flags":0,"seq":40,"message":{"header":{"family":"Unspec","index":2,"handle":":2","parent":"ffff:fff2","info":22610688},"attributes":[{"Kind":"matchall"},{"Chain":0},{"Options":[{"MatchAll":{"Action":[{"tab":1,"attributes":[{"Kind":"mirred"},{"Stats":[{"Basic":{"bytes":0,"packets":0}}]},{"Options":[{"Mirror":{"Parms":{"generic":{"index":9,"capab":0,"action":"Pipe","refcnt":1,"bindcnt":1},"eaction":"EgressMirror","ifindex":3}}},{"Mirror":{"Tm":{"install":29,"lastuse":29,"expires":0,"firstuse":0}}}],"word":2}]}]}}]}]}}
"#;

// The same two actions now: the first is as it was saved, and the second is another one.
#[rustfmt::skip]
const SAME: &str = r#"{"type":"RTM_GETACTION","flags":0,"seq":29,"message":{"header":{"family":"Unspec"},"attributes":[{"Actions":[{"tab":1,"attributes":[{"Kind":"mirred"},{"Stats":[{"Basic":{"bytes":0,"packets":0}}]},{"Options":[{"Mirror":{"Parms":{"generic":{"index":7,"capab":0,"action":"Pipe","refcnt":1,"bindcnt":0},"eaction":"EgressMirror","ifindex":3}}},{"Mirror":{"Tm":{"install":29,"lastuse":29,"expires":0,"firstuse":0}}}],"word":2}]},{"tab":2,"attributes":[{"Kind":"mirred"},{"Stats":[{"Basic":{"bytes":0,"packets":0}}]},{"Options":[{"Mirror":{"Parms":{"generic":{"index":8,"capab":0,"action":"Pipe","refcnt":1,"bindcnt":0},"eaction":"EgressMirror","ifindex":4}}},{"Mirror":{"Tm":{"install":29,"lastuse":29,"expires":0,"firstuse":0}}}],"word":2}]}]}]}}
"#;

// The first is another one now, and one filter holds it, which is one of this interface.
#[rustfmt::skip]
const OWN: &str = r#"{"type":"RTM_GETACTION","flags":0,"seq":29,"message":{"header":{"family":"Unspec"},"attributes":[{"Actions":[{"tab":1,"attributes":[{"Kind":"mirred"},{"Stats":[{"Basic":{"bytes":0,"packets":0}}]},{"Options":[{"Mirror":{"Parms":{"generic":{"index":7,"capab":0,"action":"Pipe","refcnt":2,"bindcnt":1},"eaction":"EgressMirror","ifindex":4}}},{"Mirror":{"Tm":{"install":29,"lastuse":29,"expires":0,"firstuse":0}}}],"word":2}]}]}]}}
{"type":"RTM_NEWTFILTER","flags":0,"seq":40,"message":{"header":{"family":"Unspec","index":2,"handle":":1","parent":"ffff:fff2","info":22610688},"attributes":[{"Kind":"matchall"},{"Chain":0},{"Options":[{"MatchAll":{"Action":[{"tab":1,"attributes":[{"Kind":"mirred"},{"Stats":[{"Basic":{"bytes":0,"packets":0}}]},{"Options":[{"Mirror":{"Parms":{"generic":{"index":7,"capab":0,"action":"Pipe","refcnt":2,"bindcnt":1},"eaction":"EgressMirror","ifindex":4}}},{"Mirror":{"Tm":{"install":29,"lastuse":29,"expires":0,"firstuse":0}}}],"word":2}]}]}}]}]}}
"#;

// The first is another one now, and two filters hold it, of which one is of this interface.
#[rustfmt::skip]
const OTHERS: &str = r#"{"type":"RTM_GETACTION","flags":0,"seq":29,"message":{"header":{"family":"Unspec"},"attributes":[{"Actions":[{"tab":1,"attributes":[{"Kind":"mirred"},{"Stats":[{"Basic":{"bytes":0,"packets":0}}]},{"Options":[{"Mirror":{"Parms":{"generic":{"index":7,"capab":0,"action":"Pipe","refcnt":2,"bindcnt":2},"eaction":"EgressMirror","ifindex":4}}},{"Mirror":{"Tm":{"install":29,"lastuse":29,"expires":0,"firstuse":0}}}],"word":2}]}]}]}}
{"type":"RTM_NEWTFILTER","flags":0,"seq":40,"message":{"header":{"family":"Unspec","index":2,"handle":":1","parent":"ffff:fff2","info":22610688},"attributes":[{"Kind":"matchall"},{"Chain":0},{"Options":[{"MatchAll":{"Action":[{"tab":1,"attributes":[{"Kind":"mirred"},{"Stats":[{"Basic":{"bytes":0,"packets":0}}]},{"Options":[{"Mirror":{"Parms":{"generic":{"index":7,"capab":0,"action":"Pipe","refcnt":2,"bindcnt":2},"eaction":"EgressMirror","ifindex":4}}},{"Mirror":{"Tm":{"install":29,"lastuse":29,"expires":0,"firstuse":0}}}],"word":2}]}]}}]}]}}
"#;

// The first is as it was saved, and a filter of another interface has it alone.
#[rustfmt::skip]
const ANOTHERS: &str = r#"{"type":"RTM_GETACTION","flags":0,"seq":29,"message":{"header":{"family":"Unspec"},"attributes":[{"Actions":[{"tab":1,"attributes":[{"Kind":"mirred"},{"Stats":[{"Basic":{"bytes":0,"packets":0}}]},{"Options":[{"Mirror":{"Parms":{"generic":{"index":7,"capab":0,"action":"Pipe","refcnt":1,"bindcnt":1},"eaction":"EgressMirror","ifindex":3}}}],"word":2}]}]}]}}
"#;

// It is another one, which a filter of this interface, of basic, has alone.
#[rustfmt::skip]
const OF_BASIC: &str = r#"{"type":"RTM_GETACTION","flags":0,"seq":29,"message":{"header":{"family":"Unspec"},"attributes":[{"Actions":[{"tab":1,"attributes":[{"Kind":"mirred"},{"Stats":[{"Basic":{"bytes":0,"packets":0}}]},{"Options":[{"Mirror":{"Parms":{"generic":{"index":7,"capab":0,"action":"Pipe","refcnt":1,"bindcnt":1},"eaction":"EgressMirror","ifindex":4}}}],"word":2}]}]}]}}
{"type":"RTM_NEWTFILTER","flags":0,"seq":40,"message":{"header":{"family":"Unspec","index":2,"handle":":1","parent":"1:","info":65544},"attributes":[{"Kind":"basic"},{"Options":[{"Basic":{"Action":[{"tab":1,"attributes":[{"Kind":"mirred"},{"Stats":[{"Basic":{"bytes":0,"packets":0}}]},{"Options":[{"Mirror":{"Parms":{"generic":{"index":7,"capab":0,"action":"Pipe","refcnt":1,"bindcnt":1},"eaction":"EgressMirror","ifindex":4}}}],"word":2}]}]}}]}]}}
"#;

// The requests, without netlink headers.
const QDISC_REQUESTS: &str = "\
000000000200000000000100ffffffff020000000d00010066715f636f64656c000000000c0002000800020000280000
00000000020000000000fffff1ffffff020000000b000100636c736163740000
";

const SHARED_REQUEST: &str = "0000000038000100340001000b0001006d69727265640000240002802000020007000000000000000300000000000000000000000200000003000000\n";

const ALONE_REQUEST: &str = "0000000038000100340001000b0001006d69727265640000240002802000020008000000000000000300000000000000000000000200000003000000\n";

#[rustfmt::skip]
const FILTER_REQUESTS: &str = "\
000000000200000001000000f2ffffff000359010d0001006d61746368616c6c0000000008000b00000000003c00020038000200340001000b0001006d69727265640000240002802000020007000000000000000300000000000000000000000200000003000000
000000000200000002000000f2ffffff000359010d0001006d61746368616c6c0000000008000b00000000003c00020038000200340001000b0001006d69727265640000240002802000020000000000000000000300000000000000000000000200000003000000
";

// The request of the second action after its netlink header: with NLM_F_CREATE and NLM_F_EXCL (0x605), and with NLM_F_REPLACE and NLM_F_CREATE (0x505).
const MAKES: &str = "4c000000300005061d00000000000000";

const CHANGES: &str = "4c000000300005051d00000000000000";

const BARE: Options =
    Options { form: Encoding::Bare, making: Making::Restored, in_order: false, index: None, verbose: false };

const HEX: Options =
    Options { form: Encoding::Hex, making: Making::Restored, in_order: false, index: None, verbose: true };

const ALONE: RequestOptions<'static> =
    RequestOptions { index: None, now: None, plans: false, replaces_actions: false, names: None };

// What is asked for where this is what there is now.
fn now(lines: &str, replaces_actions: bool) -> RequestOptions<'_> {
    RequestOptions { index: None, now: Some(lines.as_bytes()), plans: false, replaces_actions, names: None }
}

// What is asked for where interfaces have these names now.
fn named<'a>(names: &'a [(u32, &'a str)]) -> RequestOptions<'a> {
    RequestOptions { index: None, now: None, plans: false, replaces_actions: false, names: Some(names) }
}

// True if a run over these parts of an input ends with this status, having written these texts one after the other and said this.
fn makes(
    options: &Options,
    requests: &RequestOptions<'_>,
    input: &[&str],
    status: u8,
    written: &[&str],
    said: &str,
) -> bool {
    match (joined(input), joined(written)) {
        (Some(lines), Some(wanted)) => {
            let mut reader = BufReader::new(Reader::new(lines.as_bytes()));
            let mut output = Writer::new(Vec::new());
            let mut errors = Vec::new();
            let ended = serve_with(FORMS, options, requests, &mut reader, &mut output, &mut errors);
            ended.status() == status
                && output.into_inner().as_slice() == wanted.as_bytes()
                && errors.as_slice() == said.as_bytes()
        }
        _ => false,
    }
}

fn joined(parts: &[&str]) -> Option<String> {
    let mut text = String::new();
    for part in parts {
        text.push_str(part);
    }
    Some(text)
}

#[test]
fn whole_saves() {
    let objects = [HEAD, QDISCS, ACTIONS, FILTERS, "{\"end\":5}\n"];
    let requests = [QDISC_REQUESTS, SHARED_REQUEST, ALONE_REQUEST, FILTER_REQUESTS];
    assert!(makes(&BARE, &ALONE, &objects, 0, &requests, ""));
    assert!(makes(&BARE, &ALONE, &[HEAD, "\n", QDISCS, "{\"end\":true}\n"], 0, &[QDISC_REQUESTS], ""));
    assert!(makes(&BARE, &ALONE, &[HEAD, "{\"end\":0}\n"], 0, &[], ""));
}

// Saves that aren't whole, and what is said of them.
static BROKEN: [(&[&str], &str); 5] = [
    (&[HEAD, QDISCS], "tcmake: line 3: the save is cut: its last line, with /end, is missing\n"),
    (
        &[HEAD, QDISCS, "{\"end\":3}\n"],
        "tcmake: line 4: /end: found 3, wanted 2, the number of lines between it and the first\n",
    ),
    (&[QDISCS, "{\"end\":2}\n"], "tcmake: line 3: the last line of a save, whose first line is missing\n"),
    (
        &[QDISCS, HEAD, "{\"end\":0}\n"],
        "tcmake: line 3: the first line of a save after other lines\n\
tcmake: line 4: the last line of a save, whose first line is missing\n",
    ),
    (&[HEAD, "{\"end\":0}\n", ACTIONS], "tcmake: line 3: a line after the last line of a save\n"),
];

#[test]
fn saves_that_are_cut() {
    for (lines, said) in &BROKEN {
        assert!(makes(&BARE, &ALONE, *lines, 1, &[], *said), "{said}");
    }
}

#[test]
fn actions_that_are_there() {
    assert!(makes(&HEX, &ALONE, &[ACTIONS], 0, &[MAKES, SHARED_REQUEST, MAKES, ALONE_REQUEST], ""));
    let there = "tcmake: line 1: there already\n";
    assert!(makes(&HEX, &now(SAME, false), &[ACTIONS], 0, &[CHANGES, ALONE_REQUEST], there));
    assert!(makes(&HEX, &now(OWN, false), &[ACTIONS], 0, &[CHANGES, SHARED_REQUEST, MAKES, ALONE_REQUEST], ""));
    assert!(makes(&HEX, &now(ANOTHERS, false), &[ACTIONS], 0, &[MAKES, ALONE_REQUEST], there));
    assert!(makes(&HEX, &now(OF_BASIC, false), &[ACTIONS], 0, &[CHANGES, SHARED_REQUEST, MAKES, ALONE_REQUEST], ""));
}

#[test]
fn actions_that_differ() {
    let unlisted = "tcmake: line 1: the action mirred 7 is there and differs, and no line has it by itself\n";
    assert!(makes(&HEX, &now(OWN, false), &[FILTERS], 1, &[], unlisted));
    let held = "tcmake: line 1: the action mirred 7 is there and differs, and others hold it\n";
    assert!(makes(&HEX, &now(OTHERS, false), &[ACTIONS], 1, &[], held));
    assert!(makes(&HEX, &now(OTHERS, true), &[ACTIONS], 0, &[CHANGES, SHARED_REQUEST, MAKES, ALONE_REQUEST], ""));
    let broken = "tcmake: --now, line 1: not JSON at byte 1\n";
    assert!(makes(&BARE, &now("?\n", false), &[QDISCS], 1, &[], broken));
}

// A filter of basic with an extended match: packets that came by ids.
#[rustfmt::skip]
const MATCHED: &str = r#"{"type":"RTM_NEWTFILTER","flags":0,"seq":1,"message":{"header":{"family":"Unspec","index":2,"handle":":1","parent":"1:","info":65544},"attributes":[{"Kind":"basic"},{"Options":[{"Basic":{"Ematches":[{"Hdr":{"nmatches":1,"progid":0}},{"List":[{"tab":1,"attributes":{"Meta":{"flags":0,"attributes":[{"Hdr":{"left":{"kind":4101,"shift":0,"op":"Eq"},"right":{"kind":4096,"shift":0,"op":"Eq"}}},{"Rvalue":"03000000"}]}}}]}]}}]}]}}
"#;

// Its request for the interfaces 12 and 13.
const MATCHED_REQUEST: &str = "\
000000000c0000000100000000000100080001000a000100626173696300000034000200300002000800010001000000\
240002002000010000000400000000000c0001000510000000100000080003000d000000
";

// The qdiscs and the actions for the interfaces 12 and 13.
const NAMED_REQUESTS: &str = "\
000000000c00000000000100ffffffff020000000d00010066715f636f64656c000000000c0002000800020000280000
000000000c0000000000fffff1ffffff020000000b000100636c736163740000
0000000038000100340001000b0001006d6972726564000024000280200002000700000000000000030000000000000000000000020000000d000000
0000000038000100340001000b0001006d6972726564000024000280200002000800000000000000030000000000000000000000020000000d000000
";

#[test]
fn interfaces_by_name() {
    let lines = [HEAD, QDISCS, ACTIONS, "{\"end\":true}\n"];
    assert!(makes(&BARE, &named(&[(12, "wan"), (13, "ids")]), &lines, 0, &[NAMED_REQUESTS], ""));
    assert!(makes(
        &BARE,
        &named(&[(12, "wan"), (13, "ids")]),
        &[HEAD, MATCHED, "{\"end\":1}\n"],
        0,
        &[MATCHED_REQUEST],
        ""
    ));
}

#[test]
fn interfaces_without_names() {
    let lines = [HEAD, QDISCS, ACTIONS, "{\"end\":true}\n"];
    let missing = "tcmake: line 4: there is no interface ids\n";
    assert!(makes(&BARE, &named(&[(12, "wan")]), &lines, 1, &[], missing));
    let none = "tcmake: line 1: no names of interfaces: the first line of a save, with /names, is missing\n";
    assert!(makes(&BARE, &named(&[(12, "wan")]), &[QDISCS], 1, &[], none));
    let without = ["{\"save\":1,\"names\":{\"3\":\"ids\"}}\n", QDISCS, "{\"end\":2}\n"];
    let unknown = "tcmake: line 2: no name for interface 2\ntcmake: line 3: no name for interface 2\n";
    assert!(makes(&BARE, &named(&[(13, "ids")]), &without, 1, &[], unknown));
}

// Options that go with no other of these, or want one.
static WRONG: [&[&str]; 5] = [
    &["tcmake", "--now", "now"],
    &["tcmake", "--request", "--replace-actions"],
    &["tcmake", "--request", "--in-order", "--now", "now"],
    &["tcmake", "--request", "--names", "names", "--index", "7"],
    &["tcmake", "--request", "--names", "names", "--in-order"],
];

#[test]
fn options_of_saves() -> Result<(), crate::user::Fail> {
    let words = ["tcmake", "--request", "--now", "n", "--replace-actions", "--names", "m"];
    let arguments = Arguments::try_parse_from(words)?;
    assert!(arguments.now() == Some("n") && arguments.names() == Some("m") && arguments.replaces_actions());
    for words in &WRONG {
        assert!(Arguments::try_parse_from(*words).is_err(), "{words:?}");
    }
    Ok(())
}

// Two filters of basic with one priority, the newest first, as they are dumped.
#[rustfmt::skip]
const NEWEST_FIRST: &str = r#"{"type":"RTM_NEWTFILTER","flags":0,"seq":1,"message":{"header":{"family":"Unspec","index":2,"handle":":2","parent":"1:","info":65544},"attributes":[{"Kind":"basic"},{"Options":[{"Basic":{"ClassId":"1:2"}}]}]}}
{"type":"RTM_NEWTFILTER","flags":0,"seq":2,"message":{"header":{"family":"Unspec","index":2,"handle":":1","parent":"1:","info":65544},"attributes":[{"Kind":"basic"},{"Options":[{"Basic":{"ClassId":"1:1"}}]}]}}
"#;

// Their requests, the oldest first.
const OLDEST_FIRST: &str = "\
0000000002000000010000000000010008000100\
0a0001006261736963000000\
0c0002000800010001000100
0000000002000000020000000000010008000100\
0a0001006261736963000000\
0c0002000800010002000100
";

#[test]
fn oldest_first() {
    assert!(makes(&BARE, &ALONE, &[NEWEST_FIRST], 0, &[OLDEST_FIRST], ""));
}
