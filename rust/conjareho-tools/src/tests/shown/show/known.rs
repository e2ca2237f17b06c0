//! Known messages and their output.

use crate::user::prelude::*;

use crate::read::select::{Filter, Types};
use crate::show::outline::Interfaces;
use crate::show::program::options::OutputFormat;
use crate::tc_capture::MessageType;
use crate::tests::shown::show::runs::{Written, all_in, alone_in, chosen_in, counted_in, gives, writes};

// In hex: a qdisc of fq_codel with a limit of 10240 packets; the same with a limit of three bytes; NLMSG_DONE; a list of actions with an
// index of 5.
static TEXT: &str =
    "40000000 2400 0006 05000000 00000000 000000000200000000000100ffffffff00000000 0d00010066715f636f64656c00000000 0c0002000800020000280000
40000000 2400 0006 05000000 00000000 000000000200000000000100ffffffff00000000 0d00010066715f636f64656c00000000 0c0002000700020000280000
14000000 0300 0200 05000000 00000000 00000000
30000000 3000 0000 07000000 00000000 00000000 1c000100 18000100 08000300 05000000 0b0001006d697272656400 00
";

static LINES: &str = "RTM_NEWQDISC create excl seq 5 index 2 (eth0) handle 1: parent root
kind fq_codel
options
  limit 10240p

RTM_NEWQDISC create excl seq 5 index 2 (eth0) handle 1: parent root
kind fq_codel
options
  limit raw 002800
refused WrongLength expected 4 got 3 offset 44 path /attributes/1/Options/0/FqCodel/Limit

RTM_NEWACTION seq 7
actions
  action 1
    index 5
    kind mirred

summary
  2 RTM_NEWQDISC fq_codel
  1 RTM_NEWACTION mirred
  1 refused WrongLength
  3 messages
  0 answers
  1 refused
  0 left out
  1 other netlink messages
  0 packets of other link types
  0 packets of other netlink families
  0 cut
  0 skipped
  0 broken
";

const ACTION: &str = "RTM_NEWACTION seq 7
actions
  action 1
    index 5
    kind mirred

";

const JSON: &str = r#"{"type":"RTM_NEWQDISC","flags":1536,"seq":5,"fits":true,"settled":true,"canonical":true,"message":{"header":{"family":"Unspec","index":2,"handle":"1:","parent":"root","info":0},"attributes":[{"Kind":"fq_codel"},{"Options":[{"FqCodel":{"Limit":10240}}]}]}}
{"type":"RTM_NEWQDISC","flags":1536,"seq":5,"refused":"WrongLength","expected":4,"got":3,"offset":44,"path":"/attributes/1/Options/0/FqCodel/Limit","message":{"header":{"family":"Unspec","index":2,"handle":"1:","parent":"root","info":0},"attributes":[{"Kind":"fq_codel"},{"Options":[{"FqCodel":{"Limit":{"raw":"002800"}}}]}]}}
"#;

// A filter, the format, the output and the status.
static CHOICES: [(Filter<'static>, OutputFormat, &str, u8); 4] = [
    (Filter { kinds: &["mirred"], ..Filter::ALL }, OutputFormat::Outline, ACTION, 0),
    (Filter { types: &[Types { first: 48, last: 48 }], ..Filter::ALL }, OutputFormat::Outline, ACTION, 0),
    (Filter { interfaces: &[2], ..Filter::ALL }, OutputFormat::Json, JSON, 1),
    (Filter { interfaces: &[3], ..Filter::ALL }, OutputFormat::Json, "", 0),
];

#[test]
fn known_messages() {
    let mut options = counted_in(OutputFormat::Outline);
    options.names = Interfaces { names: &[(2, "eth0")] };
    assert!(writes(&options, TEXT, 1, LINES));
    for (chosen, form, written, status) in &CHOICES {
        let options = chosen_in(*form, *chosen);
        assert!(writes(&options, TEXT, *status, written), "{written}");
    }
}

// Inputs that are neither a capture nor hex, and hex without a message.
static NO_CAPTURES: [&[u8]; 6] = [
    b"",
    b"\x7fELF",
    b"\x01\x02",
    b"text",
    b"# a comment\n\ndear reader,\nthis is no capture\n",
    b"1 a line\n2\n3\n4\n5\n6\n7\n8\n9\n10 g\n11 g\n12 g\n13 g\n14 g\n15 g\n16 g\n00000000\n",
];

static NO_MESSAGES: [&str; 3] = ["#", "\n\n\n\n\n", "# text"];

#[test]
fn no_capture() {
    let options = all_in(OutputFormat::Outline);
    for input in &NO_CAPTURES {
        assert!(gives(
            &options,
            input,
            2,
            Written::Is(&[]),
            "tcshow: input: not a capture, and its first lines are not hex; lines of JSON have to be the only FILE\n"
        ));
    }
    for input in &NO_MESSAGES {
        assert!(writes(&options, input, 0, ""));
    }
}

// A kind of `a`, U+009B, U+202E and U+007F, in a message without a netlink header.
static HIDDEN: &str = "0000000000000000000000000000000000000000 0c000100 61c29be280ae7f00";

#[test]
fn control_characters() {
    for (form, shown) in [
        (OutputFormat::Json, r#"{"Kind":"a\u009b\u202e\u007f"}"#),
        (OutputFormat::Outline, r#"kind "a\xc2\x9b\xe2\x80\xae\x7f""#),
        (OutputFormat::Lines(false), r"- qdisc a\xc2\x9b\xe2\x80\xae\x7f "),
    ] {
        let options = alone_in(form, MessageType::Tc);
        assert!(gives(&options, HIDDEN.as_bytes(), 0, Written::Has(shown), ""));
    }
}
