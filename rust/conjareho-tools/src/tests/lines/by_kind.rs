//! Units and names that only one kind has, with the output of tc (iproute2 6.1) in comments. The messages are Linux's
//! and iproute2's without statistics; GRED has one queue of a dump, FQ one option, QFQ only its statistics, and SKBEDIT
//! a priority too.

use crate::user::prelude::*;

use crate::show::columns::Root;
use crate::tests::lines::known::{Known, is_known};

// tc: limit 1000p
static PFIFO: Known = Known {
    root: Root::Qdisc,
    digits: "00000000040000000000000000000100010000000a000100706669666f00000008000200e8030000",
    lines: &[" index 4 (eth0) handle 0:0 parent 1: refcnt 1", "kind pfifo", "options", "  limit 1000p"],
};

// tc: limit 3000b
static BFIFO: Known = Known {
    root: Root::Qdisc,
    digits: "000000000400000000000100ffffffff000000000a000100626669666f00000008000200b80b0000",
    lines: &[" index 4 (eth0) handle 1: parent root", "kind bfifo", "options", "  limit 3000B"],
};

// tc: limit 1000p min 83p max 250p ewma 6 probability 0.02 Scell_log 26
static CHOKE: Known = Known {
    root: Root::Qdisc,
    digits: "000000000400000000000100ffffffff020000000a00010063686f6b650000002000020014000100e803000053000000fa00000006171a00\
             0800030051b81e05",
    lines: &[
        " index 4 (eth0) handle 1: parent root refcnt 2",
        "kind choke",
        "options",
        "  parms",
        "    limit 1000p",
        "    qth_min 83p",
        "    qth_max 250p",
        "    Wlog 6 (64)",
        "    Plog 23 (8388608)",
        "    Scell_log 26 (67108864)",
        "    flags 0x0",
        "  max_p 85899345 (2%)",
    ],
};

// tc: rehash 600s db 60s limit 1000p max 25p target 20p .. penalty_rate 10pps penalty_burst 20p
static SFB: Known = Known {
    root: Root::Qdisc,
    digits: "000000000400000000000100ffffffff0200000008000100736662002c00020028000100c027090060ea0000190000001400000021000000\
             03000000e80300000a00000014000000",
    lines: &[
        " index 4 (eth0) handle 1: parent root refcnt 2",
        "kind sfb",
        "options",
        "  parms",
        "    rehash_interval 600000ms (600s)",
        "    warmup_time 60000ms (60s)",
        "    max 25p",
        "    bin_size 20p",
        "    increment 33",
        "    decrement 3",
        "    limit 1000p",
        "    penalty_rate 10 p/s",
        "    penalty_burst 20p",
    ],
};

// tc: vq 1 prio 8 limit 60Kb min 15Kb max 25Kb ewma 8 .. Total packets: 14 (2268b)
static GRED: Known = Known {
    root: Root::Qdisc,
    digits: "000000000400000000000100ffffffff020000000900010067726564000000003c0002003800010000f00000003c00000064000001000000\
             000000000000000000000000000000000000000000000000081113080e000000dc080000",
    lines: &[
        " index 4 (eth0) handle 1: parent root refcnt 2",
        "kind gred",
        "options",
        "  parms",
        "    queue limit 61440B qth_min 15360B qth_max 25600B DP 1 backlog 0B qave 0B forced 0p early 0p other 0p pdrop 0p Wlog 8 (256) Plog 17 (131072) \
         Scell_log 19 (524288) prio 8 packets 14p bytesin 2268B",
    ],
};

// tc: buckets 1024
static FQ: Known = Known {
    root: Root::Qdisc,
    digits: "000000000400000000000100ffffffff0100000007000100667100000c000200080008000a000000",
    lines: &[" index 4 (eth0) handle 1: parent root refcnt 1", "kind fq", "options", "  buckets_log 10 (1024)"],
};

// tc: clockid TAI delta 0
static ETF: Known = Known {
    root: Root::Qdisc,
    digits: "000000000400000000000100ffffffff0100000008000100657466001400020010000100000000000b00000000000000",
    lines: &[
        " index 4 (eth0) handle 1: parent root refcnt 1",
        "kind etf",
        "options",
        "  parms",
        "    delta 0ns",
        "    clockid TAI (11)",
        "    flags 0x0",
    ],
};

// tc: weight 100 maxpkt 1514
static QFQ: Known = Known {
    root: Root::Class,
    digits: "000000000400000001000100ffffffff0000000008000100716671000c00040064000000ea050000",
    lines: &[" index 4 (eth0) handle 1:1 parent root", "kind qfq", "xstats", "  weight 100", "  lmax 1514B"],
};

// tc: cmp(u8 at 0 layer 0 mask 0xff trans gt 10)
static BASIC: Known = Known {
    root: Root::Filter,
    digits: "0000000003000000010000000000ffff080001000a0001006261736963000000340002002800020008000100010000001c00020018000100\
             00000100000000000a000000ff000000000011100800010001000100",
    lines: &[
        " index 3 handle 0x1 parent ffff: pref 1 protocol ip (0x0800)",
        "kind basic",
        "options",
        "  ematches",
        "    hdr",
        "      nmatches 1",
        "      progid 0",
        "    list",
        "      match 1",
        "        cmp",
        "          flags 0x0",
        "          match",
        "            val 0xa",
        "            mask 0xff",
        "            off 0B",
        "            align_flags u8_trans (0x11)",
        "            layer_opnd link_gt (0x10)",
        "  class_id 1:1",
    ],
};

// tc: priority :10 ptype host goto chain 42
static SKBEDIT: Known = Known {
    root: Root::Action,
    digits: "0000000048000100440001000c000100736b6265646974002c000280180002005a000000000000002a000020000000000000000006000700\
             00000000080003001000000008000600c1a0c1a0",
    lines: &[
        "",
        "actions",
        "  action 1",
        "    kind skbedit",
        "    options",
        "      parms",
        "        index 90",
        "        capab 0",
        "        action goto chain 42",
        "        refcnt 0",
        "        bindcnt 0",
        "      ptype host (0)",
        "      priority 0x10",
        "    cookie c1a0c1a0",
    ],
};

// tc: key #0  at 12: val 00005600 mask ffff00ff
static PEDIT: Known = Known {
    root: Root::Action,
    digits: "000000004c000100480001000a00010070656469740000003800028034000200000000000000000000000000000000000000000001000000\
             ffff00ff000056000c000000000000000000000000000000",
    lines: &[
        "",
        "actions",
        "  action 1",
        "    kind pedit",
        "    options",
        "      parms",
        "        index 0",
        "        capab 0",
        "        action pass",
        "        refcnt 0",
        "        bindcnt 0",
        "        nkeys 1",
        "        flags 0",
        "        keys",
        "          key mask 0xffff00ff val 0x5600 off 12 at 0 offmask 0x0 shift 0",
    ],
};

// A request for a chain; the protocol of its template is where a filter's is.
static CHAIN: Known = Known {
    root: Root::Chain,
    digits: "000000000400000000000000f3ffffff0800000008000b0009000000",
    lines: &[" index 4 (eth0) handle 0:0 parent ffff:fff3 pref 0 protocol ip (0x0800)", "chain 9"],
};

#[test]
fn units_and_names_by_kind() {
    assert!(is_known(&PFIFO, false));
    assert!(is_known(&BFIFO, false));
    assert!(is_known(&CHOKE, false));
    assert!(is_known(&SFB, false));
    assert!(is_known(&GRED, false));
    assert!(is_known(&FQ, false));
    assert!(is_known(&ETF, false));
    assert!(is_known(&QFQ, false));
    assert!(is_known(&BASIC, false));
    assert!(is_known(&SKBEDIT, false));
    assert!(is_known(&PEDIT, false));
    assert!(is_known(&CHAIN, false));
}
