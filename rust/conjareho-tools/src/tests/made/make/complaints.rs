//! Complaints about lines.

use crate::user::prelude::*;

use crate::make::lines::MOST_LINE;
use crate::make::messages::Making;
use crate::tests::made::make::runs::{HEX, bare, made, makes, makes_line};
use crate::user::Fail;

// Lines of which no message is made, and the complaints.
static ROWS: [(&str, &str); 22] = [
    // a control of C1, and one that turns the direction of text
    (
        "{\"type\":\"\u{9b}1m\u{202e}\",\"message\":{}}",
        r#"/type: found "\xc2\x9b1m\xe2\x80\xae", wanted RTM_NEWQDISC, RTM_DELQDISC, RTM_GETQDISC, the same of TCLASS, TFILTER, ACTION or CHAIN, or NLMSG_ERROR"#,
    ),
    (
        r#"{"type":"RTM_NEWQDISC","seq":-1,"message":{"header":{"family":"Unspec","index":2,"handle":"1:","parent":"root","info":0},"attributes":[{"Kind":"fq_codel"}]}}"#,
        r#"/seq: found -1, wanted a number from 0 to 4294967295"#,
    ),
    (
        r#"{"type":"RTM_NEWQDISC","seq":4294967296,"message":{"header":{"family":"Unspec","index":2,"handle":"1:","parent":"root","info":0},"attributes":[{"Kind":"fq_codel"}]}}"#,
        r#"/seq: found 4294967296, wanted a number from 0 to 4294967295"#,
    ),
    (
        r#"{"type":"RTM_NEWQDISC","flags":"x","message":{"header":{"family":"Unspec","index":2,"handle":"1:","parent":"root","info":0},"attributes":[{"Kind":"fq_codel"}]}}"#,
        r#"/flags: found "x", wanted a number from 0 to 65535"#,
    ),
    (
        r#"{"type":"RTM_NEWLINK","message":{"header":{"family":"Unspec","index":2,"handle":"1:","parent":"root","info":0},"attributes":[{"Kind":"fq_codel"}]}}"#,
        r#"/type: found "RTM_NEWLINK", wanted RTM_NEWQDISC, RTM_DELQDISC, RTM_GETQDISC, the same of TCLASS, TFILTER, ACTION or CHAIN, or NLMSG_ERROR"#,
    ),
    (
        r#"{"type":"RTM_NEWQDISC","time":12,"message":{"header":{"family":"Unspec","index":2,"handle":"1:","parent":"root","info":0},"attributes":[{"Kind":"fq_codel"}]}}"#,
        r#"/time: found 12, wanted seconds, a point and nine digits"#,
    ),
    (
        r#"{"type":"RTM_NEWQDISC","time":"1.+00000001","message":{"header":{"family":"Unspec","index":2,"handle":"1:","parent":"root","info":0},"attributes":[{"Kind":"fq_codel"}]}}"#,
        r#"/time: found "1.+00000001", wanted seconds, a point and nine digits"#,
    ),
    (
        r#"{"type":"RTM_NEWQDISC","message":{"header":{"family":"Unspec","index":2,"handle":"1:","parent":"root","info":0},"attributes":[{"Kind":"fq_codle"},{"Options":[{"FqCodel":{"Limit":5}}]}]}}"#,
        r#"/attributes/1/Options: unknown attribute "Options" (the kind fq_codle isn't known; tcshow --explain lists those that are)"#,
    ),
    (
        r#"{"type":"RTM_NEWACTION","message":{"header":{"family":"Unspec"},"attributes":[{"Actions":[{"tab":1,"attributes":[{"Kind":"mirrred"},{"Options":[{"Mirror":{"Tm":{}}}]}]}]}]}}"#,
        r#"/attributes/0/Actions/0/attributes/1/Options/0/Mirror: unknown attribute "Mirror" (tcshow --explain mirrred lists them)"#,
    ),
    (
        r#"{"type":"RTM_NEWQDISC","portid":[],"message":{"header":{"family":"Unspec","index":2,"handle":"1:","parent":"root","info":0},"attributes":[{"Kind":"fq_codel"}]}}"#,
        r#"/portid: found a list of 0, wanted a number from 0 to 4294967295"#,
    ),
    (
        r#"{"type":"RTM_NEWQDISC","packet":"1","message":{"header":{"family":"Unspec","index":2,"handle":"1:","parent":"root","info":0},"attributes":[{"Kind":"fq_codel"}]}}"#,
        r#"/packet: found "1", wanted the number of a packet"#,
    ),
    (
        r#"{"type":"RTM_NEWQDISC","packet_type":65536,"message":{"header":{"family":"Unspec","index":2,"handle":"1:","parent":"root","info":0},"attributes":[{"Kind":"fq_codel"}]}}"#,
        r#"/packet_type: found 65536, wanted a number from 0 to 65535"#,
    ),
    (
        r#"{"type":"RTM_NEWQDISC","sequence":1,"message":{"header":{"family":"Unspec","index":2,"handle":"1:","parent":"root","info":0},"attributes":[{"Kind":"fq_codel"}]}}"#,
        r#"/sequence: found a member that a line doesn't have"#,
    ),
    (
        r#"{"type":"RTM_NEWQDISC","\u001b[31m":1,"message":{"header":{"family":"Unspec","index":2,"handle":"1:","parent":"root","info":0},"attributes":[{"Kind":"fq_codel"}]}}"#,
        r#"/\u001b[31m: found a member that a line doesn't have"#,
    ),
    (
        r#"{"type":"RTM_NEWQDISC","message":{"header":{"family":"Unspec","index":2,"handle":"1:","parent":"root","info":0,"a\u001b\u0007\n":1},"attributes":[]}}"#,
        r#"/header/a\u001b\u0007\u000a: found 1, wanted nothing"#,
    ),
    (
        r#"{"type":"RTM_NEWQDISC","a\u0007b":1,"a\u0007b":2,"message":{"header":{"family":"Unspec","index":2,"handle":"1:","parent":"root","info":0},"attributes":[{"Kind":"fq_codel"}]}}"#,
        r#"/a\u0007b: found twice, wanted once"#,
    ),
    (r#"{"summary":{"messages":[],"faults":[]},"all":{}}"#, r#"this line is a summary; there is nothing to make"#),
    (
        r#"{"note":"cut: 16 bytes needed, 3 left","at":24}"#,
        r#"this line is a note on a capture; there is nothing to make"#,
    ),
    (r#"{"#, r#"a part of JSON on several lines; wanted all of it on one, as jq -c writes it"#),
    (r#"  "type": "RTM_NEWQDISC","#, r#"a part of JSON on several lines; wanted all of it on one, as jq -c writes it"#),
    (r#"}"#, r#"a part of JSON on several lines; wanted all of it on one, as jq -c writes it"#),
    (
        r#"{"type":"RTM_NEWQDISC","message":[[[[[[[[[[[[[[[[[[[[[[[[[[[[[[[[[[[[[[[[[[[[[[[[[[[[[[[[[[[[[[[[[[[[[[[[[[[[[[[[[[[[[[[[[[[[[[[[[[[[[[[[[[[[[[[[[[[[[[[[[[[[[[[[]]]]]]]]]]]]]]]]]]]]]]]]]]]]]]]]]]]]]]]]]]]]]]]]]]]]]]]]]]]]]]]]]]]]]]]]]]]]]]]]]]]]]]]]]]]]]]]]]]]]]]]]]]]]]]]]]]]]]]]]]]]]]]]]}"#,
        r#"lists and objects nest more than 127 deep"#,
    ),
];

#[test]
fn each_complaint() {
    for (line, complaint) in &ROWS {
        assert!(makes_line(&HEX, line, "", complaint), "{complaint}");
    }
}

// What follows a line that is too long, and is made.
static NEXT: &str = "\n{\"type\":\"RTM_GETACTION\",\"message\":{\"header\":{\"family\":\"Unspec\"},\"attributes\":[]}}";

static NEXT_MADE: &str = "1400000032000000000000000000000000000000\n";

// A line that is too long gets a complaint, and the next is made.
#[test]
fn a_long_line() -> Result<(), Fail> {
    let mut lines = fallible::filled(b' ', 4_194_305)?;
    lines.try_extend(NEXT.as_bytes())?;
    let said = "tcmake: line 1: longer than 4194304 bytes\n";
    assert!(makes(&HEX, &lines, 1, NEXT_MADE.as_bytes(), said));
    Ok(())
}

// The longest lines of a message are those with the longest names of attributes without a payload.
static FRONT: &str = r#"{"message":{"header":{"family":"Unspec","index":2,"handle":"1:","parent":"root","info":0},"attributes":[{"Kind":"taprio"}"#;

static SHORTEST: &str = r#"{"Taprio":{"SchedCycleTimeExtension":{"raw":""}}}"#;

fn put_options(line: &mut Vec<u8>, count: usize) -> Result<(), AllocError> {
    line.try_extend(b",{\"Options\":[")?;
    for at in 0..count {
        if at > 0 {
            line.try_push(b',')?;
        }
        line.try_extend(SHORTEST.as_bytes())?;
    }
    line.try_extend(b"]}")
}

// A message of 256 KiB, whose line has 3.2 MB.
#[test]
fn the_longest_line() -> Result<(), Fail> {
    let mut line = Vec::new();
    line.try_extend(FRONT.as_bytes())?;
    for count in [16_382usize, 16_382, 16_382, 16_378] {
        put_options(&mut line, count)?;
    }
    line.try_extend(b"]}}")?;
    assert!(line.len() > MOST_LINE * 3 / 4 && line.len() < MOST_LINE);
    let run = made(&bare(Making::Checked), &line);
    assert!(run.status == 0 && run.written.len() == 2 * 262_144 + 1);
    Ok(())
}

// A line of attributes whose texts begin with a quote, and have 60,000 braces.
fn with_braces(count: usize) -> Result<Vec<u8>, AllocError> {
    let mut line = Vec::new();
    line.try_extend(FRONT.as_bytes())?;
    for _ in 0..count {
        let braces = fallible::filled(b'{', 60_000)?;
        line.try_extend(b",{\"ExtWarnMsg\":\"\\\"")?;
        line.try_extend(&braces)?;
        line.try_extend(b"\"}")?;
    }
    line.try_extend(b"]}}")?;
    Ok(line)
}

// Braces in texts are no values.
#[test]
fn braces_in_texts() -> Result<(), Fail> {
    let line = with_braces(4)?;
    let run = made(&bare(Making::Checked), &line);
    assert!(run.status == 0 && run.written.len() == 2 * 240_064 + 1);
    Ok(())
}

// A message of more than 256 KiB.
#[test]
fn a_long_message() -> Result<(), Fail> {
    let line = with_braces(5)?;
    let said = "tcmake: line 1: found a message of more than 262144 bytes\n";
    assert!(makes(&bare(Making::AsGiven), &line, 1, b"", said));
    Ok(())
}

// More values than such a message has.
#[test]
fn many_values() -> Result<(), Fail> {
    let mut lines = fallible::filled(b'{', 212_048)?;
    lines.try_extend(NEXT.as_bytes())?;
    let said = "tcmake: line 1: more objects, lists, values or texts than a message of 256 KiB has\n";
    assert!(makes(&HEX, &lines, 1, NEXT_MADE.as_bytes(), said));
    Ok(())
}

// The same of a dump.
#[test]
fn many_values_of_a_dump() -> Result<(), Fail> {
    let line = fallible::filled(b'{', 212_048)?;
    let said = "tcmake: line 1: more objects, lists, values or texts than a message of 256 KiB has\n";
    assert!(makes(&bare(Making::Restored), &line, 1, b"", said));
    Ok(())
}
