//! Lines of JSON as an input.

use crate::user::prelude::*;

use crate::make::lines::Encoding;
use crate::show::program::json::{encoding_by, made_of};
use crate::show::program::kinds::{explain, write_all_kinds};
use crate::show::program::options::OutputFormat;
use crate::tests::shown::show::runs::{all_in, shown};
use core::str;

// A save, a line with the time of its packet, and one with a misspelt option.
static SAVE: &str = r#"{"save":1,"devs":{"wan":{"index":2}},"names":{"2":"wan"}}
{"type":"RTM_NEWQDISC","flags":2,"seq":5,"message":{"header":{"family":"Unspec","index":2,"handle":"1:","parent":"root","info":0},"attributes":[{"Kind":"fq_codel"},{"Options":[{"FqCodel":{"Limit":10240}}]}]}}
{"end":1}
"#;

static TIMED: &str = r#"{"time":"1700000000.123456000","packet":1,"type":"RTM_NEWQDISC","flags":1536,"seq":5,"message":{"header":{"family":"Unspec","index":2,"handle":"1:","parent":"root","info":0},"attributes":[{"Kind":"fq_codel"},{"Options":[{"FqCodel":{"Limit":10240}}]}]}}
"#;

static MISSPELT: &str = r#"{"type":"RTM_NEWQDISC","flags":2,"seq":5,"message":{"header":{"family":"Unspec","index":2,"handle":"1:","parent":"root","info":0},"attributes":[{"Kind":"fq_codel"},{"Options":[{"FqCodel":{"Limmit":10240}}]}]}}
"#;

// True if lines of JSON are shown so, and a complaint about them begins so.
fn are_shown(json: &str, lines: &str, complaint: &str) -> bool {
    let Some(form) = encoding_by(json.as_bytes()) else {
        return false;
    };
    let mut errors = Vec::new();
    match made_of("input", form, json.as_bytes(), &mut errors) {
        Ok(made) => {
            let run = shown(&all_in(OutputFormat::Lines(false)), &made.bytes);
            let said = core::str::from_utf8(&errors).unwrap_or("?");
            run.written.as_slice() == lines.as_bytes()
                && made.has_wrong == !complaint.is_empty()
                && said.starts_with(complaint)
                && said.is_empty() == complaint.is_empty()
        }
        Err(_) => false,
    }
}

#[test]
fn lines_of_json() {
    assert!(encoding_by(b"{\"ti") == Some(Encoding::Capture));
    assert!(encoding_by(b"{\"sa") == Some(Encoding::Stream));
    assert!(encoding_by(b"3800").is_none() && encoding_by(b"").is_none());
    let line = "is qdisc fq_codel 1: dev 2 root limit 10240p\n";
    assert!(are_shown(SAVE, line, ""));
    let line = "22:13:20.123456 new qdisc fq_codel 1: dev 2 root limit 10240p\n";
    assert!(are_shown(TIMED, line, ""));
    assert!(are_shown(MISSPELT, "", "tcshow: input: line 1: "));
}

// The lines around the attributes of an example, of a qdisc and of an action.
static AROUND: [(&str, &str); 2] = [
    (
        r#"{"type":"RTM_NEWQDISC","message":{"header":{"family":"Unspec","index":2,"handle":"1:","parent":"root","info":0},"attributes":"#,
        "}}\n",
    ),
    (
        r#"{"type":"RTM_NEWACTION","message":{"header":{"family":"Unspec"},"attributes":[{"Actions":[{"tab":1,"attributes":"#,
        "}]}]}}\n",
    ),
];

// True if messages are made of lines, and there is no complaint.
fn are_made(lines: &str) -> bool {
    let mut errors = Vec::new();
    match made_of("input", Encoding::Stream, lines.as_bytes(), &mut errors) {
        Ok(made) => !made.has_wrong && errors.is_empty() && !made.bytes.is_empty(),
        Err(_) => false,
    }
}

// True if a message with these attributes is made, of a qdisc or of an action.
fn is_taken(example: &str) -> bool {
    for (before, after) in &AROUND {
        match crate::user::formatted(format_args!("{before}{example}{after}")) {
            Ok(line) if are_made(line.as_str()) => return true,
            _ => {}
        }
    }
    false
}

// True if `--explain` has examples of a kind, two of one that filters and actions have, and all of them are taken.
fn are_taken(kind: &str) -> bool {
    let mut text = Vec::new();
    if explain(kind, &mut text).is_err() {
        return false;
    }
    let mut has_example = false;
    for line in core::str::from_utf8(&text).unwrap_or("").lines() {
        if let Some(example) = line.strip_prefix("example: ") {
            if !is_taken(example) {
                return false;
            }
            has_example = true;
        }
    }
    has_example
}

#[test]
fn examples_are_taken() {
    let mut kinds = String::new();
    assert!(write_all_kinds(&mut kinds).is_ok() && !kinds.as_str().is_empty());
    for kind in kinds.as_str().lines() {
        assert!(are_taken(kind), "{kind}");
    }
}
