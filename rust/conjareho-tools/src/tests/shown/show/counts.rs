//! Counts at the end of a run.

use crate::user::prelude::*;

use crate::read::select::{Filter, Types};
use crate::show::program::options::{Options, OutputFormat};
use crate::tests::shown::show::runs::{Written, chosen_in, gives};

// Parts of a pcapng, and how often they are in it: a section with interfaces of the link types 253 and 1; then packets, with a qdisc;
// with one that is refused; with an answer of the kernel; with a qdisc that isn't chosen; with another netlink message; of another
// link type; of another netlink family; of which the capture holds a part; and a block that can't be read.
#[rustfmt::skip]
static PARTS: [(&str, usize); 10] = [
    ("0a0d0d0a1c0000004d3c2b1a01000000ffffffffffffffff1c0000000100000014000000fd00000000000000140000000100\
      000014000000010000000000000014000000",
      1),
    ("060000006000000000000000240a060040222018400000004000000000040338000000000000000000000000300000002400\
      00060100000000000000000000000200000000000100ffffffff000000000a000100706669666f00000060000000",
      4),
    ("060000007000000000000000240a060040222018500000005000000000040338000000000000000000000000400000002400\
      00060100000000000000000000000200000000000100ffffffff000000000d00010066715f636f64656c000000000c000200\
      070002000102030070000000",
      3),
    ("060000007400000000000000240a060040222018540000005400000000040338000000000000000000000000440000000200\
      00000100000000000000eaffffff30000000240000060100000000000000000000000200000000000100ffffffff00000000\
      0a000100706669666f00000074000000",
      2),
    ("060000006000000000000000240a060040222018400000004000000000040338000000000000000000000000300000002500\
      00060100000000000000000000000200000000000100ffffffff000000000a000100706669666f00000060000000",
      4),
    ("060000004000000000000000240a060040222018200000002000000000040338000000000000000000000000100000001000\
      0006010000000000000040000000",
      5),
    ("060000002400000001000000240a06004022201804000000040000000000000024000000",
      6),
    ("060000003000000000000000240a06004022201810000000100000000004033800000000000000000000001030000000",
      8),
    ("0600000048000000000000000000000000000000280000003100000000040338000000000000000000000000300000002400\
      00060100000000000000000000000200000048000000",
      9),
    ("060000000c0000000c000000",
      10),
];

// Appends a part so many times.
fn put(all: &mut Vec<u8>, part: &[u8], count: usize) -> Result<(), AllocError> {
    for _ in 0..count {
        all.try_extend(part)?;
    }
    Ok(())
}

// Appends all parts; false where one isn't hex, or memory runs out.
fn put_all(all: &mut Vec<u8>) -> bool {
    for (part, count) in &PARTS {
        match crate::hex::decode(part) {
            Ok(part) if put(all, &part, *count).is_ok() => {}
            _ => return false,
        }
    }
    true
}

// All qdiscs that are made, and counts.
fn options_in(form: OutputFormat) -> Options<'static> {
    let mut chosen = Filter::ALL;
    chosen.types = &[Types { first: 36, last: 36 }];
    let mut options = chosen_in(form, chosen);
    options.has_summary = true;
    options
}

static LINES: &str = "
summary
  4 RTM_NEWQDISC pfifo
  3 RTM_NEWQDISC fq_codel
  2 NLMSG_ERROR EINVAL
  3 refused WrongLength
  7 messages
  2 answers
  3 refused
  4 left out
  5 other netlink messages
  6 packets of other link types
  8 packets of other netlink families
  9 cut
  0 skipped
  10 broken
";

static JSON: &str = r#"
{"summary":{"messages":[{"type":"RTM_NEWQDISC","kind":"pfifo","count":4},{"type":"RTM_NEWQDISC","kind":"fq_codel","count":3},{"type":"NLMSG_ERROR","kind":"EINVAL","count":2}],"faults":[{"name":"WrongLength","count":3}]},"all":{"shown":7,"answers":2,"refused":3,"left_out":4,"others":5,"other_links":6,"other_families":8,"cut":9,"skipped":0,"broken":10}}
"#;

// True if the capture in this form ends with these counts, and something in it is refused.
fn ends_with(form: OutputFormat, counts: &str) -> bool {
    let mut all = Vec::new();
    put_all(&mut all) && gives(&options_in(form), &all, 1, Written::Ends(counts), "")
}

#[test]
fn counts() {
    assert!(ends_with(OutputFormat::Outline, LINES));
    assert!(ends_with(OutputFormat::Json, JSON));
}
