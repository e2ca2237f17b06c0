//! Packets as lines say them.

use crate::user::prelude::*;

use crate::make::program::arguments::Options;
use crate::tests::made::make::runs::{HEX, PCAP, STREAM, makes, makes_line};

// Two messages of one packet, and an answer of the kernel between them; a message of the next; one of the same number at another
// time; one without a number; one that says nothing but its type.
static LINES: &str = r#"{"time":"1700000000.123456789","packet":3,"packet_type":6,"type":"RTM_NEWQDISC","flags":1536,"seq":5,"portid":77,"message":{"header":{"family":"Unspec","index":2,"handle":"1:","parent":"root","info":0},"attributes":[{"Kind":"fq_codel"}]}}
{"time":"1700000000.123456789","packet":3,"packet_type":6,"type":"NLMSG_ERROR","flags":768,"seq":5,"errno":"EINVAL","request":{"type":"RTM_NEWQDISC","flags":1536,"seq":5}}
{"time":"1700000000.123456789","packet":3,"packet_type":6,"type":"RTM_NEWQDISC","flags":1536,"seq":6,"fits":true,"settled":true,"canonical":true,"message":{"header":{"family":"Unspec","index":2,"handle":"1:","parent":"root","info":0},"attributes":[{"Kind":"fq_codel"}]}}
{"time":"1700000000.123456789","packet":4,"type":"RTM_NEWQDISC","flags":1536,"seq":7,"message":{"header":{"family":"Unspec","index":2,"handle":"1:","parent":"root","info":0},"attributes":[{"Kind":"fq_codel"}]}}
{"time":"1700000000.123456789","packet":5,"type":"RTM_NEWQDISC","flags":1536,"seq":8,"message":{"header":{"family":"Unspec","index":2,"handle":"1:","parent":"root","info":0},"attributes":[{"Kind":"fq_codel"}]}}
{"type":"RTM_NEWQDISC","flags":1536,"seq":9,"message":{"header":{"family":"Unspec","index":2,"handle":"1:","parent":"root","info":0},"attributes":[{"Kind":"fq_codel"}]}}

{"type":"RTM_NEWQDISC","message":{"header":{"family":"Unspec","index":2,"handle":"1:","parent":"root","info":0},"attributes":[{"Kind":"fq_codel"}]}}
"#;

// The capture, of bytes as the formats' specifications have them.
static CAPTURE: &str = "4d3cb2a102000400000000000000000000001000fd00000000f1536515cd5b07780000007800000000060338000000000000\
     0000000000003400000024000006050000004d000000000000000200000000000100ffffffff000000000d00010066715f63\
     6f64656c0000000034000000240000060600000000000000000000000200000000000100ffffffff000000000d0001006671\
     5f636f64656c0000000000f1536515cd5b074400000044000000000403380000000000000000000000003400000024000006\
     0700000000000000000000000200000000000100ffffffff000000000d00010066715f636f64656c0000000000f1536515cd\
     5b07440000004400000000040338000000000000000000000000340000002400000608000000000000000000000002000000\
     00000100ffffffff000000000d00010066715f636f64656c0000000000000000000000004400000044000000000403380000\
     0000000000000000000034000000240000060900000000000000000000000200000000000100ffffffff000000000d000100\
     66715f636f64656c000000000000000000000000440000004400000000040338000000000000000000000000340000002400\
     00000000000000000000000000000200000000000100ffffffff000000000d00010066715f636f64656c00000000";

// True if a run over lines ends with this status, having written the bytes of this hex and said this.
fn makes_bytes(options: &Options, lines: &str, status: u8, digits: &str, said: &str) -> bool {
    match crate::hex::decode(digits) {
        Ok(bytes) => makes(options, lines.as_bytes(), status, &bytes, said),
        Err(_) => false,
    }
}

#[test]
fn packets_of_lines() {
    assert!(makes_bytes(&PCAP, LINES, 0, CAPTURE, ""));
}

static LINE: &str = r#"{"type":"RTM_DELCHAIN","flags":1541,"seq":16909060,"portid":84281096,"message":{"header":{"family":"Unspec","index":2,"handle":"1:","parent":"root","info":0},"attributes":[{"Kind":"fq_codel"}]}}"#;

// A line of hex for each message: the number and the port are the line's, and so is the type of the last but one in the table.
#[test]
fn a_line_of_hex() {
    let want =
        "34000000650005060403020108070605000000000200000000000100ffffffff000000000d00010066715f636f64656c00000000";
    assert!(makes_line(&HEX, LINE, want, ""));
}

static STREAM_LINES: &str = r#"{"type":"RTM_NEWACTION","seq":1,"message":{"raw":"00"}}

{"type":"RTM_NEWACTION","seq":"2","message":{"raw":"00"}}
{"type":"RTM_NEWACTION","seq":3,"message":{"raw":"0000"}}
{"type":"NLMSG_ERROR","seq":3,"errno":"EINVAL"}
{"type":"RTM_NEWACTION","seq":4,"message":{"raw":"000000"}}
{"type":"RTM_NEWACTION","seq":5,"message":{"header":{"family":"Unspec"},"attributes":[]}}
{"type":"RTM_NEWACTION","seq":6,"message":{"raw":""}}"#;

// Messages of a stream begin at multiples of four, and the last is padded too. Blank lines count, and so does a line that is wrong, of
// which nothing is written.
#[test]
fn a_stream() {
    let want = "11000000300000000100000000000000000000001200000030000000030000000000000000000000\
         1300000030000000040000000000000000000000140000003000000005000000000000000000000010000000300000000600000000000000";
    let said = "tcmake: line 3: /seq: found \"2\", wanted a number from 0 to 4294967295\n";
    assert!(makes_bytes(&STREAM, STREAM_LINES, 1, want, said));
}
