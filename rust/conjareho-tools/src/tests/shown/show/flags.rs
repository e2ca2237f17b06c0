//! The flags of netlink headers in words.

use crate::user::prelude::*;

use crate::show::program::options::OutputFormat;
use crate::tests::shown::show::runs::{all_in, writes};

// In hex, netlink headers of `linux/netlink.h` with empty messages: RTM_NEWQDISC with all flags but NLM_F_REPLACE and of the sequence number 1,
// of the port 258; RTM_GETTFILTER of a dump; RTM_DELQDISC of flags 0x8125; RTM_DELACTION with the flags of a flush.
static HEADERS: &str = "14000000 2400 3f0e 01000000 02010000 00000000
14000000 2e00 0103 02000000 00000000 00000000
14000000 2500 2581 03000000 00000000 00000000
14000000 3100 0101 04000000 00000000 00000000
";

static LINES: &str = "RTM_NEWQDISC request multi ack echo dump_intr dump_filtered create excl append seq 1 port 258
raw 00000000
refused BufferTooSmall len 4 needed 20 offset 0 path /header

RTM_GETTFILTER request root match seq 2
raw 00000000
refused BufferTooSmall len 4 needed 20 offset 0 path /header

RTM_DELQDISC request ack dump_filtered nonrec 0x8000 seq 3
raw 00000000
refused BufferTooSmall len 4 needed 20 offset 0 path /header

RTM_DELACTION request root seq 4

";

#[test]
fn flags_in_words() {
    assert!(writes(&all_in(OutputFormat::Outline), HEADERS, 1, LINES));
}
