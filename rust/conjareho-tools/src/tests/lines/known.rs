//! Lines of messages, written by hand from the bytes. The messages are Linux's and iproute2's, except KEYS, TWICE,
//! GOTO, CLASS and SHORT.

use crate::user::prelude::*;

use crate::forms_kinds::TcTables;
use crate::show::attributes::lines_of;
use crate::show::columns::{KindColumns, Root};

/// A message: its root, its bytes in hex, and its lines, the first of which continues the line of the header.
pub(crate) struct Known {
    pub(crate) root: Root,
    pub(crate) digits: &'static str,
    pub(crate) lines: &'static [&'static str],
}

// The lines of a message. Fails as if out of memory if the hex is malformed.
fn text_of(known: &Known, all: bool) -> Result<Vec<u8>, AllocError> {
    let columns = KindColumns { root: known.root, interfaces: &[(4, "eth0")], links: None, all };
    let bytes = match crate::hex::decode(known.digits.as_bytes()) {
        Ok(bytes) => bytes,
        Err(_) => return Err(AllocError),
    };
    match lines_of(TcTables, known.root.form(), columns, bytes.as_slice()) {
        Ok(text) => Ok(text),
        Err(_) => Err(AllocError),
    }
}

// Lines with a line feed between them.
fn joined(lines: &[&str]) -> Result<Vec<u8>, AllocError> {
    let mut text = Vec::new();
    for (n, line) in lines.iter().enumerate() {
        if n > 0 {
            text.try_push(b'\n')?;
        }
        text.try_extend(line.as_bytes())?;
    }
    Ok(text)
}

/// True if a message has these lines.
pub(crate) fn is_known(known: &Known, all: bool) -> bool {
    match (text_of(known, all), joined(known.lines)) {
        (Ok(text), Ok(lines)) => text.as_slice() == lines.as_slice(),
        _ => false,
    }
}

static HTB: Known = Known {
    root: Root::Qdisc,
    digits: "000000000400000000000100ffffffff0000000008000100687462001c00020018000200030000000a0000000100000000000000000000\
             00",
    lines: &[
        " index 4 (eth0) handle 1: parent root",
        "kind htb",
        "options",
        "  init",
        "    version 3",
        "    rate2quantum 10",
        "    defcls 0x1",
        "    debug 0",
        "    direct_pkts 0",
    ],
};

// A class that has overdrawn both of its buckets: -145 and -15625 ticks.
static OVERDRAWN: Known = Known {
    root: Root::Class,
    digits: "0000000004000000100001000000010000000000080001006874620018000400010000000200000003000000\
             6ffffffff7c2ffff",
    lines: &[
        " index 4 (eth0) handle 1:10 parent 1:",
        "kind htb",
        "xstats",
        "  lends 1",
        "  borrows 2",
        "  giants 3",
        "  tokens -145 ticks (-9280ns)",
        "  ctokens -15625 ticks (-1ms)",
    ],
};

static NETEM: Known = Known {
    root: Root::Qdisc,
    digits: "000000000400000000000100ffffffff000000000a0001006e6574656d0000003400020000000000e80300000000000000000000000000\
             00000000001800058014000200295c8f02d6a370fd0000000000000000",
    lines: &[
        " index 4 (eth0) handle 1: parent root",
        "kind netem",
        "options",
        "  latency 0 ticks (0s)",
        "  limit 1000p",
        "  loss 0 (0%)",
        "  gap 0p",
        "  duplicate 0 (0%)",
        "  jitter 0 ticks (0s)",
        "  loss",
        "    ge",
        "      p 42949673 (1%)",
        "      r 4252017622 (99%)",
        "      h 0 (0%)",
        "      k1 0 (0%)",
    ],
};

static CAKE: Known = Known {
    root: Root::Qdisc,
    digits: "000000000400000000000100ffffffff000000000900010063616b65000000001c0002000800040001000000080006003000000008000f\
             0001000000",
    lines: &[
        " index 4 (eth0) handle 1: parent root",
        "kind cake",
        "options",
        "  atm atm (1)",
        "  overhead 48B",
        "  ingress 1",
    ],
};

static TBF: Known = Known {
    root: Root::Qdisc,
    digits: "000000000400000000000100ffffffff0200000008000100746266002c000200280001000001000000000000e204000000000000000000\
             0000000000e8030000301a1e010000000005000c0000000000",
    lines: &[
        " index 4 (eth0) handle 1: parent root refcnt 2",
        "kind tbf",
        "options",
        "  parms",
        "    rate",
        "      cell_log 0 (1)",
        "      linklayer ethernet (1)",
        "      overhead 0B",
        "      cell_align 0",
        "      mpu 0B",
        "      rate 1250 B/s (10Kbit)",
        "    peakrate",
        "      cell_log 0 (1)",
        "      linklayer unaware (0)",
        "      overhead 0B",
        "      cell_align 0",
        "      mpu 0B",
        "      rate 0 B/s (0bit)",
        "    limit 1000B",
        "    buffer 18750000 ticks (1200ms)",
        "    mtu 0 ticks (0s)",
        "hw_offload 0",
    ],
};

static FLOWER: Known = Known {
    root: Root::Filter,
    digits: "000000000300000000000000f2ffffff080001000b000100666c6f77657200009c0002000a000400e41122114a5100000a000500ffffff\
             ffffff00000a000600e41122114a5000000a000700ffffffffffff0000050009000600000008000a000101010108000b00ffffffff0800\
             0c000202020208000d00ffffffff300003002c0001000900010067616374000000001c0002801800020000000000000000000200000000\
             0000000000000008001600000000000600080008000000",
    lines: &[
        " index 3 handle 0x0 parent ffff:fff2 pref 1 protocol ip (0x0800)",
        "kind flower",
        "options",
        "  eth_dst e4:11:22:11:4a:51/48",
        "  eth_src e4:11:22:11:4a:50/48",
        "  ip_proto tcp (6)",
        "  ipv4_src 1.1.1.1/32",
        "  ipv4_dst 2.2.2.2/32",
        "  actions",
        "    action 1",
        "      kind gact",
        "      options",
        "        parms",
        "          index 0",
        "          capab 0",
        "          action drop",
        "          refcnt 0",
        "          bindcnt 0",
        "  flags 0x0",
        "  eth_type ip (0x0800)",
    ],
};

static U32: Known = Known {
    root: Root::U32Filter,
    digits: "0000000003000000000800800000100008000200080001007533320008000b000000000040000200240005000100010000000000000000\
             0000000000ffffffff000000020c000000000000000800020000000080080001001000010008000b0008000000",
    lines: &[
        " index 3 handle 800::800 parent 10: pref 2 protocol ip (0x0800)",
        "kind u32",
        "chain 0",
        "options",
        "  selector",
        "    flags terminal (0x1)",
        "    offshift 0",
        "    nkeys 1",
        "    offmask 0x0",
        "    off 0B",
        "    offoff 0B",
        "    hoff 0B",
        "    hmask 0x0",
        "    keys",
        "      key mask 0xffffffff val 0x2 off 12B offmask 0",
        "  hash 800:",
        "  class_id 1:10",
        "  flags not_in_hw (0x8)",
    ],
};

static DIVISOR: Known = Known {
    root: Root::U32Filter,
    digits: "000000000300000000002004f2ffffff00036300080001007533320008000b00000000000c0002000800040000010000",
    lines: &[
        " index 3 handle 42: parent ffff:fff2 pref 99 protocol all (0x0003)",
        "kind u32",
        "chain 0",
        "options",
        "  divisor 256",
    ],
};

static CT: Known = Known {
    root: Root::Action,
    digits: "00000000500001004c000100070001006374000040000280070007001231230014000800ffffffffffffffffffffffffffffffff060003\
             0000000000180001002c00000000000000030000000000000000000000",
    lines: &[
        "",
        "actions",
        "  action 1",
        "    kind ct",
        "    options",
        "      labels 123123",
        "      labels_mask ffffffffffffffffffffffffffffffff",
        "      action 0x0",
        "      parms",
        "        index 44",
        "        capab 0",
        "        action pipe",
        "        refcnt 0",
        "        bindcnt 0",
    ],
};

static NAT: Known = Known {
    root: Root::Action,
    digits: "000000003c00010038000100080001006e6174002c000280280001000000000000000000000000000000000000000000c0a80101c8c8c8\
             01ffffffff00000000",
    lines: &[
        "",
        "actions",
        "  action 1",
        "    kind nat",
        "    options",
        "      parms",
        "        index 0",
        "        capab 0",
        "        action pass",
        "        refcnt 0",
        "        bindcnt 0",
        "        old_addr 192.168.1.1",
        "        new_addr 200.200.200.1",
        "        mask 255.255.255.255",
        "        flags ingress (0x0)",
    ],
};

static POLICE: Known = Known {
    root: Root::Filter,
    digits: "0000000004000000010000000000ffff080001000d0001006d61746368616c6c000000005800020054000200500001000b000100706f6c\
             6963650000400002803c000100010000000100000000000000000000000000000000000000000000000000000000000000000000000000\
             0000000000000000000000000000",
    lines: &[
        " index 4 (eth0) handle 0x1 parent ffff: pref 1 protocol ip (0x0800)",
        "kind matchall",
        "options",
        "  action",
        "    action 1",
        "      kind police",
        "      options",
        "        tbf",
        "          index 1",
        "          action reclassify",
        "          limit 0",
        "          burst 0 ticks (0s)",
        "          mtu 0B",
        "          rate",
        "            cell_log 0 (1)",
        "            linklayer unaware (0)",
        "            overhead 0B",
        "            cell_align 0",
        "            mpu 0B",
        "            rate 0 B/s (0bit)",
        "          peakrate",
        "            cell_log 0 (1)",
        "            linklayer unaware (0)",
        "            overhead 0B",
        "            cell_align 0",
        "            mpu 0B",
        "            rate 0 B/s (0bit)",
        "          refcnt 0",
        "          bindcnt 0",
        "          capab 0",
    ],
};

static MIRRED: Known = Known {
    root: Root::Action,
    digits: "0000000038000100340001000b0001006d6972726564000024000280200002000100000000000000000000000000000000000000040000\
             0001000000",
    lines: &[
        "",
        "actions",
        "  action 1",
        "    kind mirred",
        "    options",
        "      parms",
        "        index 1",
        "        capab 0",
        "        action pass",
        "        refcnt 0",
        "        bindcnt 0",
        "        eaction ingress_mirror (4)",
        "        ifindex 1",
    ],
};

static FLUSH: Known = Known {
    root: Root::Flush,
    digits: "00000000180001001400000007000100637400000800060001000000",
    lines: &["", "actions", "  action 0", "    kind ct", "    count 1"],
};

// A filter of a block: a prefix mask and another mask, a range, flags, and an unknown attribute.
static KEYS: Known = Known {
    root: Root::Filter,
    digits: "00000000ffffffff020000001500000086dd03000b000100666c6f77657200006c0002001400100020010db80000000000000000000000\
             0114001100ffffffffffff0000000000000000000008000a000a08000108000b00ff00ff00060059000050000006005a00005a00000600\
             470000120000060048000fff000006005b00090000000600c800dead0000",
    lines: &[
        " handle 0x2 block 21 pref 3 protocol ipv6 (0x86dd)",
        "kind flower",
        "options",
        "  ipv6_dst 2001:db8::1/48",
        "  ipv4_src 10.8.0.1",
        "  ipv4_src_mask 255.0.255.0",
        "  ports_dst 80-90",
        "  tcp_flags syn ack (0x12)",
        "  tcp_flags_mask fin syn rst psh ack urg ece cwr 0xf00 (0xfff)",
        "  ct_state new tracked (0x9)",
        "  other word 0x00c8 value dead",
    ],
};

// A mask and the maximum of a range, each twice: the second has a line of its own.
static TWICE: Known = Known {
    root: Root::Filter,
    digits: "000000000300000000000000f2ffffff080001000b000100666c6f77657200003400020008000c000a08000108000d00ffff000008000d00\
             ffff0000060059000050000006005a00005a000006005a00005a0000",
    lines: &[
        " index 3 handle 0x0 parent ffff:fff2 pref 1 protocol ip (0x0800)",
        "kind flower",
        "options",
        "  ipv4_dst 10.8.0.1/16",
        "  ipv4_dst_mask 255.255.0.0",
        "  ports_dst 80-90",
        "  port_dst_max 90",
    ],
};

static GOTO: Known = Known {
    root: Root::Action,
    digits: "00000000300001002c0001000900010067616374000000001c0002801800020001000000000000002a0000200200000001000000",
    lines: &[
        "",
        "actions",
        "  action 1",
        "    kind gact",
        "    options",
        "      parms",
        "        index 1",
        "        capab 0",
        "        action goto chain 42",
        "        refcnt 2",
        "        bindcnt 1",
    ],
};

static CLASS: Known = Known {
    root: Root::Class,
    digits: "0200000004000000100001000000010000000180080001006474620004000900",
    lines: &[" family inet (2) index 4 (eth0) handle 1:10 parent 1: leaf 8001:", "kind dtb", "pad true"],
};

static SHORT: Known = Known { root: Root::Chain, digits: "0011", lines: &["", "raw 0011"] };

#[test]
fn lines_are_known() {
    assert!(is_known(&HTB, false));
    assert!(is_known(&OVERDRAWN, false));
    assert!(is_known(&NETEM, false));
    assert!(is_known(&CAKE, false));
    assert!(is_known(&TBF, false));
    assert!(is_known(&FLOWER, false));
    assert!(is_known(&U32, false));
    assert!(is_known(&DIVISOR, false));
    assert!(is_known(&CT, false));
    assert!(is_known(&NAT, false));
    assert!(is_known(&POLICE, false));
    assert!(is_known(&MIRRED, false));
    assert!(is_known(&FLUSH, false));
}

#[test]
fn headers_masks_ranges_and_paddings() {
    assert!(is_known(&KEYS, false));
    assert!(is_known(&TWICE, false));
    assert!(is_known(&GOTO, false));
    assert!(is_known(&CLASS, true));
    assert!(!is_known(&CLASS, false));
    assert!(is_known(&SHORT, false));
}
