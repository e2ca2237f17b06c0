//! Filters of messages.

use crate::user::prelude::*;

use crate::read::select::Filter;
use crate::show::program::arguments::Arguments;
use crate::show::program::filter::{FilterError, FilterValues};
use crate::show::program::kinds::explain;
use crate::read::select::names_in;
use crate::show::program::options::{OutputFormat, TimeZone, options_of};
use crate::tests::shown::show::runs::{Written, all_in, gives, gives_of_hex, is_written};
use clap::Parser as _;

// What Linux answered tc, a message a line: a qdisc of bfifo, handle 1:; a filter of u32 with an action of mirred, handle 80d::800, parent
// 1:, chain 0, priority 14, index 7; one of flower with such an action, handle 0x1, priority 49152, chain 0, index 3; such an action alone; a
// chain 7; and a qdisc whose header is cut.
static LINES: &str = "38000000240000060700000000000000000000000400000000000100ffffffff000000000a000100626669666f00000008000200b80b0000\n\
440100002c000006070000000000000000000000070000000008d0800000010008000e00080001007533320008000b000000000010010200240005000100\
0100000000000000000000000000ffffffff010203070c00000000000000080002000000d08008000b0008000000b8000700b40001000b0001006d697272\
6564000050000400040006001400010000000000000000000000000000000000040006001400070000000000000000000000000000000000040006001800\
0300000000000000000000000000000000000000000008000a00000000004c00020020000200010000000000000004000000010000000100000001000000\
080000000400030024000100400000000000000040000000000000000000000000000000000000000000000004000c001c00090000000000000000000000\
0000000000000000000000000000\n\
200100002c0000060700000000000000000000000300000001000000f2ffffff080000c00b000100666c6f776572000008000b0000000000e80002000600\
08000800000008000c000103030708000d00ffffffff08001600080000000800560000000000bc000300b80001000b0001006d6972726564000004000500\
5000040004000600140001000000000000000000000000000000000004000600140007000000000000000000000000000000000004000600180003000000\
00000000000000000000000000000000000008000a00000000004c0002002000020001000000000000000300000001000000010000000200000004000000\
04000300240001002200000000000000220000000000000000000000000000000000000000000000\n\
d000000030000006070000000000000000000000bc000100b80001000b0001006d6972726564000044000400140001000000000000000000000000000000\
000014000700000000000000000000000000000000001800030000000000000000000000000000000000000000000600060000ff00000c00090000000000\
0300000008000a000000000048000200200002000700000000000000ffffffff01000000000000000400000002000000240001001d000000000000001d00\
00000000000000000000000000000000000000000000\n\
5c0000006400000607000000000000000000000007000000000000000000ffff0000000008000b00070000000b000100666c6f7765720000240002000a00\
040000000000000000000a000500ffffffffffff00000600080000000000\n\
180000002400000605000000000000000000000002000000\n";

// pcap: a qdisc of fq_codel, captured at 1700000000.123456.
static CAPTURE: &str = "d4c3b2a102000400000000000000000000001000fd00000000f1536540e2010050000000500000000004033800000000000000000000000040000000\
240000060500000000000000000000000200000000000100ffffffff000000000d00010066715f636f64656c000000000c0002000800020000280000";

// True if a run with these arguments and names of interfaces ends with this status and writes this.
fn gives_by(arguments: &Arguments, names: &[(u32, &str)], input: &[u8], status: u8, written: Written<'_>) -> bool {
    match FilterValues::of_arguments(&arguments.filters, names) {
        Ok(values) => {
            let options = options_of(arguments, TimeZone::Utc, values.filter(), names);
            gives(&options, input, status, written, "")
        }
        Err(_) => false,
    }
}

// True if so many lines of JSON are shown by these words.
fn counts(words: &[&str], input: &[u8], count: usize, status: u8) -> bool {
    match Arguments::try_parse_from(words.iter().copied().chain(["--json"])) {
        Ok(arguments) => gives_by(&arguments, &[], input, status, Written::Counts(count)),
        Err(_) => false,
    }
}

// Words, how many lines are shown of the messages, and the status.
static OPTIONS: [(&[&str], usize, u8); 28] = [
    (&["tcshow"], 6, 1),
    (&["tcshow", "--kind", "bfifo"], 1, 0),
    (&["tcshow", "--kind", "mirred"], 3, 0),
    (&["tcshow", "--kind", "mirred", "--kind", "bfifo"], 4, 0),
    (&["tcshow", "--kind", "mirred", "--kind", "bfifo", "--dev", "7"], 1, 0),
    (&["tcshow", "--type", "newqdisc"], 2, 1),
    (&["tcshow", "--type", "RTM_NEWTFILTER"], 2, 0),
    (&["tcshow", "--type", "tclass"], 0, 0),
    (&["tcshow", "--type", "action", "--type", "100"], 2, 0),
    (&["tcshow", "--dev", "7"], 2, 0),
    (&["tcshow", "--dev", "7", "--dev", "3"], 3, 0),
    (&["tcshow", "--handle", "1:"], 1, 0),
    (&["tcshow", "--handle", "80d::800"], 1, 0),
    (&["tcshow", "--handle", "0x1"], 1, 0),
    (&["tcshow", "--parent", "root"], 1, 0),
    (&["tcshow", "--parent", "1:", "--parent", "ffff:"], 2, 0),
    (&["tcshow", "--chain", "0"], 2, 0),
    (&["tcshow", "--chain", "7"], 1, 0),
    (&["tcshow", "--pref", "14"], 1, 0),
    (&["tcshow", "--pref", "49152"], 1, 0),
    (&["tcshow", "--refused"], 1, 1),
    (&["tcshow", "--refused", "--kind", "bfifo"], 0, 0),
    (&["tcshow", "--since", "0"], 0, 0),
    (&["tcshow", "--until", "2026-11-26T14:00:00Z"], 0, 0),
    (&["tcshow", "--handle", "0x1", "--pref", "49152"], 1, 0),
    (&["tcshow", "--handle", "0x1", "--pref", "14"], 0, 0),
    (&["tcshow", "--kind", "mirred", "--chain", "0"], 2, 0),
    (&["tcshow", "--type", "36", "--parent", "root"], 1, 0),
];

#[test]
fn each_option() {
    for (words, count, status) in &OPTIONS {
        assert!(counts(words, LINES.as_bytes(), *count, *status), "{words:?}");
    }
}

// The same of the capture.
static TIMES: [(&[&str], usize); 6] = [
    (&["tcshow", "--since", "1700000000.123456"], 1),
    (&["tcshow", "--since", "1700000000.123456001"], 0),
    (&["tcshow", "--since", "2023-11-14T22:13:20Z"], 1),
    (&["tcshow", "--until", "2023-11-14T22:13:20.123456Z"], 1),
    (&["tcshow", "--until", "1700000000"], 0),
    (&["tcshow", "--since", "1700000000", "--until", "1700000001"], 1),
];

fn counts_of_hex(words: &[&str], digits: &str, count: usize) -> bool {
    match crate::hex::decode(digits) {
        Ok(input) => counts(words, &input, count, 0),
        Err(_) => false,
    }
}

#[test]
fn times() {
    for (words, count) in &TIMES {
        assert!(counts_of_hex(words, CAPTURE, *count), "{words:?}");
    }
}

// Options with words that aren't known, and a part of the complaint.
static UNKNOWN: [(&str, &str, &str); 8] = [
    (
        "--kind",
        "fq_code",
        "unknown kind 'fq_code'; near it are fq_codel, fq_pie and codel (tcshow --explain lists all)",
    ),
    ("--kind", "Htb", "near it are htb, "),
    ("--kind", "gac", "near it are gact, "),
    ("--type", "newclass", "unknown type 'newclass': a type is one of qdisc, tclass,"),
    ("--handle", "10", "unknown handle '10': a handle is one such as 1:10"),
    ("--parent", "1:2:3:4", "unknown handle '1:2:3:4': a handle is one such as 1:10"),
    ("--since", "today", "unknown time 'today': a time is seconds since 1970"),
    ("--until", "2026-02-30T00:00:00Z", "unknown time '2026-02-30T00:00:00Z': "),
];

// True if a complaint has this part.
fn has_part(complaint: FilterError<'_>, part: &str) -> bool {
    complaint.to_string().contains(part)
}

// True if the values of the filter are refused, and the complaint has this part.
fn is_refused_filter(arguments: &Arguments, part: &str) -> bool {
    match FilterValues::of_arguments(&arguments.filters, &[(7, "eth7")]) {
        Err(complaint) => has_part(complaint, part),
        Ok(_) => false,
    }
}

// True if the complaint about an option has this part.
fn complains<'a>(option: &'a str, word: &'a str, part: &str) -> bool {
    match Arguments::try_parse_from(["tcshow", option, word]) {
        Ok(arguments) => is_refused_filter(&arguments, part),
        Err(_) => false,
    }
}

#[test]
fn unknown_words() {
    for (option, word, part) in &UNKNOWN {
        assert!(complains(option, word, part), "{option} {word}");
    }
}

static SOME_NAMES: &str = "# names\n\n7 eth7 # of the test\n5: veth0@if6: <BROADCAST,MULTICAST> mtu 1500 qdisc noop state DOWN\n4: vlan#5: <UP>\n";

// Texts with a line that is no name, and its number.
static NO_NAMES: [(&str, u64); 3] = [("eth7", 1), ("7 eth7\n\n8\n", 3), ("5: :", 1)];

// True if the first line that is no name has this number.
fn is_wrong_at(text: &str, number: u64) -> bool {
    names_in(text) == Err(number)
}

fn are_names(text: &str, want: &[(u32, &str)]) -> bool {
    names_in(text).as_deref() == Ok(want)
}

#[test]
fn names() {
    assert!(are_names(SOME_NAMES, &[(7, "eth7"), (5, "veth0"), (4, "vlan#5")]));
    for (text, line) in &NO_NAMES {
        assert!(is_wrong_at(text, *line), "{text}");
    }
}

// The names of interfaces as `ip -o link` prints them and as people write them; and qdiscs: of fq_codel, the one that is chosen; of htb; of
// fq_codel below another; and of fq_codel at another interface.
static NAMES: &str = "# names of interfaces
7: eth7@if8: <BROADCAST,MULTICAST,UP> mtu 1500 qdisc fq_codel state UP
8 eth8
";

static QDISCS: &str = "\
34000000240000060100000000000000000000000700000000000100ffffffff000000000d00010066715f636f64656c00000000
2c000000240000060200000000000000000000000700000000000100ffffffff000000000800010068746200
3400000028000006030000000000000000000000070000000100010000000100000000000d00010066715f636f64656c00000000
34000000240000060400000000000000000000000800000000000100ffffffff000000000d00010066715f636f64656c00000000
";

static CHOSEN: &str = "new qdisc fq_codel 1: dev eth7 root\n";

// An action message without a netlink header, and what is shown of it.
static BARE: &str = "00000000100001000c000100080001006e617400\n";

static BARE_LINE: &str = "- action nat -\n";

// A filter without a netlink header: its kind says that it is one.
static BARE_FILTER: &str = "0000000003000000010000000000ffff080001000a0001006261736963000000\n";

static BARE_FILTER_LINE: &str = "- filter basic 0x1 dev 3 parent ffff: pref 1 protocol ip\n";

// True if a run by these words, where interfaces have these names, writes this and nothing else.
fn writes(words: &[&str], names: &[(u32, &str)], input: &str, want: &str) -> bool {
    match Arguments::try_parse_from(words) {
        Ok(arguments) => gives_by(&arguments, names, input.as_bytes(), 0, Written::Is(&[want])),
        Err(_) => false,
    }
}

// The same with the names of a text.
fn writes_with(words: &[&str], text: &str, input: &str, want: &str) -> bool {
    names_in(text).is_ok_and(|names| writes(words, &names, input, want))
}

static WORDS: [&str; 12] = [
    "tcshow",
    "--oneline",
    "--names",
    "names",
    "--dev",
    "eth7",
    "--kind",
    "fq_codel",
    "--type",
    "newqdisc",
    "--handle",
    "1:",
];

// Filters of u32 without a netlink header, and the table and the bucket that are chosen as they are shown.
static U32: &str = "\
0000000003000000000000800000ffff080001000800010075333200
0000000003000000001000800000ffff080001000800010075333200
0000000003000000000800800000ffff080001000800010075333200
";

static U32_WORDS: [&str; 7] = ["tcshow", "--no-header", "tc", "--handle", "800:", "--handle", "800:1"];

static U32_LINES: &str = "- filter u32 800: dev 3 parent ffff: pref 1 protocol ip
- filter u32 800:1 dev 3 parent ffff: pref 1 protocol ip
";

static BARE_WORDS: [&str; 3] = ["tcshow", "--no-header", "action"];

static BARE_FILTER_WORDS: [&str; 3] = ["tcshow", "--no-header", "tc"];

#[test]
fn words_of_a_command_line() {
    assert!(writes_with(&WORDS, NAMES, QDISCS, CHOSEN));
    assert!(writes_with(&BARE_WORDS, "", BARE, BARE_LINE));
    assert!(writes_with(&U32_WORDS, "", U32, U32_LINES));
    assert!(writes_with(&BARE_FILTER_WORDS, "", BARE_FILTER, BARE_FILTER_LINE));
}

// A message of a link, which names the interface 2, a request to name it otherwise, and a qdisc of it; then other names of 2 and of 1,
// and a qdisc of each.
static LINKS: &str = "2c00000010000000010000000000000000000100020000000000000000000000 0900 0300 6574683900 000000
2c00000010000100010000000000000000000100020000000000000000000000 0900 0300 6c616e3000 000000
34000000240000060100000000000000000000000200000000000100ffffffff000000000d00010066715f636f64656c00000000
2c00000010000000010000000000000000000100020000000000000000000000 0900 0300 64736c3000 000000
2c00000010000000010000000000000000000100010000000000000000000000 0900 0300 77616e3000 000000
34000000240000060100000000000000000000000200000000000100ffffffff000000000d00010066715f636f64656c00000000
34000000240000060100000000000000000000000100000000000100ffffffff000000000d00010066715f636f64656c00000000
";

// A message about an interface is chosen by the name that the capture has given it before.
#[test]
fn names_choose() {
    assert!(writes(&["tcshow", "--dev", "dsl0"], &[], LINKS, "new qdisc fq_codel 1: dev dsl0 root\n"));
}

#[test]
fn links_name() {
    let options = all_in(OutputFormat::Lines(false));
    for part in [
        "new qdisc fq_codel 1: dev eth9 root\n",
        "new qdisc fq_codel 1: dev dsl0 root\n",
        "new qdisc fq_codel 1: dev wan0 root\n",
    ] {
        assert!(gives(&options, LINKS.as_bytes(), 0, Written::Has(part), ""));
    }
}

// Kinds, and what is written in words about them: lines, and the kernel's names in them, of bits too, and of a number below zero, as
// linux/pkt_sched.h and linux/pkt_cls.h have them.
static EXPLAINED: [(&str, Written<'static>); 10] = [
    ("Htb", Written::Is(&[])),
    (
        "htb",
        Written::Begins(
            "htb\n  Options: attributes (TCA_OPTIONS)\n    Parms: record (TCA_HTB_PARMS)\n      rate: record\n        cell_log: u8",
        ),
    ),
    ("htb", Written::Has("        linklayer: u8\n          Unaware = 0 (TC_LINKLAYER_UNAWARE)\n")),
    ("htb", Written::Has("\n    Rate64: u64, bytes a second (TCA_HTB_RATE64)\n")),
    (
        "htb",
        Written::Has("\nexample: [{\"Kind\":\"htb\"},{\"Options\":[{\"Htb\":{\"Parms\":{\"rate\":{\"cell_log\":1,"),
    ),
    (
        "matchall",
        Written::Has(
            "    Flags: u32 (TCA_MATCHALL_FLAGS)\n      skip_hw = 0x1 (TCA_CLS_FLAGS_SKIP_HW)\n      skip_sw = 0x2 (TCA_CLS_FLAGS_SKIP_SW)\n",
        ),
    ),
    ("gact", Written::Has("Unspec = -1 (TC_ACT_UNSPEC)\n")),
    ("gact", Written::Has("Shot = 2 (TC_ACT_SHOT)\n")),
    // no line of a choice without any
    ("bfifo", Written::Begins("bfifo\n  Options: record (TCA_OPTIONS)\n    limit: u32, bytes\nexample: ")),
    ("prio", Written::Has("\"priomap\":[1,1,1,1,1,1,1,1,1,1,1,1,1,1,1,1]")),
];

// True if this is written about a kind.
fn is_explained(kind: &str, want: Written<'_>) -> bool {
    let mut text = Vec::new();
    explain(kind, &mut text).is_ok() && is_written(&text, want)
}

#[test]
fn kinds_are_explained() {
    for (kind, want) in &EXPLAINED {
        assert!(is_explained(kind, *want), "{kind}");
    }
}
