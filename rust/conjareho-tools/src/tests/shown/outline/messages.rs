//! Messages, and the lines that they are shown as: written by hand from their bytes, the kernel's headers and the units of what `kinds/`
//! describes.

use crate::user::prelude::*;

use crate::show::columns::Root;

/// A message in hex, and its lines.
#[derive(Clone, Copy)]
pub(crate) struct Shown {
    pub root: Root,
    pub hex: &'static str,
    pub lines: &'static str,
}

/// A qdisc as Linux dumps it.
pub(crate) static FQ_CODEL: Shown = Shown {
    root: Root::Qdisc,
    hex: "000000000700000000000180ffffffff020000000d00010066715f636f64656c00000000440002000800010087130000\
0800020000280000080003009f860100080004000100000008000600ea05000008000800400000000800090000000002\
080005000004000005000c00000000000400090068000700040006002c00040000000000000000000000000000000000\
0000000000000000000000000000000000000000000000000400060014000100080a0000000000000400000000000000\
040006001800030000000000000000000000000000000000000000002c000300080a0000000000000400000000000000\
000000000000000000000000000000000000000000000000040009002c00040000000000000000000000000000000000\
000000000000000000000000000000000000000000000000",
    lines: " index 7 handle 8001: parent root refcnt 2
kind fq_codel
options
  target 4999us
  limit 10240p
  interval 99999us
  ecn 1
  quantum 1514B
  drop_batch_size 64p
  memory_limit 33554432B
  flows 1024
hw_offload 0
stats2
  app
    maxpacket 0B
    drop_overlimit 0p
    ecn_mark 0p
    new_flow_count 0
    new_flows_len 0
    old_flows_len 0
    ce_mark 0p
    memory_usage 0B
    drop_overmemory 0p
  basic
    bytes 2568B
    packets 4p
  queue
    qlen 0p
    backlog 0B
    drops 0p
    requeues 0p
    overlimits 0
stats
  bytes 2568B
  packets 4p
  drops 0p
  overlimits 0
  bps 0 B/s (0bit)
  pps 0 p/s
  qlen 0p
  backlog 0B
xstats
  maxpacket 0B
  drop_overlimit 0p
  ecn_mark 0p
  new_flow_count 0
  new_flows_len 0
  old_flows_len 0
  ce_mark 0p
  memory_usage 0B
  drop_overmemory 0p",
};

/// A u32 filter with an action, as tc sends it.
pub(crate) static U32: Shown = Shown {
    root: Root::U32Filter,
    hex: "0000000003000000000000000000010008000e0008000100753332006000020038000700340001000b0001006d697272\
656400002400028020000200000000000000000004000000000000000000000001000000040000002400050001000100\
000000000000000000000000ffffffff010203070c00000000000000",
    lines: " index 3 handle none parent 1: pref 14 protocol ip (0x0800)
kind u32
options
  action
    action 1
      kind mirred
      options
        parms
          index 0
          capab 0
          action stolen
          refcnt 0
          bindcnt 0
          eaction egress_redir (1)
          ifindex 4
  selector
    flags terminal (0x1)
    offshift 0
    nkeys 1
    offmask 0x0
    off 0B
    offoff 0B
    hoff 0B
    hmask 0x0
    keys
      key mask 0xffffffff val 0x1020307 off 12B offmask 0",
};

/// A flower filter with two actions, as tc sends it.
pub(crate) static TWO_ACTIONS: Shown = Shown {
    root: Root::Filter,
    hex: "000000000300000000000000f2ffffff080059020b000100666c6f7765720000a4000200050009000600000008000c00\
0a08000108000d00ffffffff78000300340001000b0001006d6972726564000024000280200002000000000000000000\
030000000000000000000000020000000600000040000200080001006e6174002c000280280001002100000000000000\
0000000000000000000000000000000004040404ffffffff0000000006000600cafe0000080016000000000006000800\
08000000",
    lines: " index 3 handle 0x0 parent ffff:fff2 pref 601 protocol ip (0x0800)
kind flower
options
  ip_proto tcp (6)
  ipv4_dst 10.8.0.1/32
  actions
    action 1
      kind mirred
      options
        parms
          index 0
          capab 0
          action pipe
          refcnt 0
          bindcnt 0
          eaction egress_mirror (2)
          ifindex 6
    action 2
      kind nat
      options
        parms
          index 33
          capab 0
          action pass
          refcnt 0
          bindcnt 0
          old_addr 0.0.0.0
          new_addr 4.4.4.4
          mask 255.255.255.255
          flags ingress (0x0)
      cookie cafe
  flags 0x0
  eth_type ip (0x0800)",
};

/// A flower filter on label stack entries.
pub(crate) static MPLS: Shown = Shown {
    root: Root::Filter,
    hex: "000000000700000028000000f2ffffff884728000b000100666c6f776572000008000b00000000002801020006000800\
884700004c0063802c000180050001000100000005000200ff0000000500030000000000050004000100000008000500\
100000001c00018005000100020000000500030001000000080005006300000008001600080000000800560000000000\
c0000300bc000100080001006e6174000400050050000400040006001400010000000000000000000000000000000000\
040006001400070000000000000000000000000000000000040006001800030000000000000000000000000000000000\
0000000008000a0000000000540002002800010002000000000000000200000001000000010000000a0000000b000000\
ffffff000100000004000300240002000000000000000000000000000000000000000000000000000000000000000000",
    lines: " index 7 handle 0x28 parent ffff:fff2 pref 40 protocol mpls_uc (0x8847)
kind flower
chain 0
options
  eth_type mpls_uc (0x8847)
  mpls_opts
    lse
      lse_depth 1
      lse_ttl 255
      lse_bos 0
      lse_tc 1
      lse_label 16
    lse
      lse_depth 2
      lse_bos 1
      lse_label 99
  flags not_in_hw (0x8)
  in_hw_count 0
  actions
    action 1
      kind nat
      stats
        basic
          bytes 0B
          packets 0p
        basic_hw
          bytes 0B
          packets 0p
        queue
          qlen 0p
          backlog 0B
          drops 0p
          requeues 0p
          overlimits 0
      in_hw_count 0
      options
        parms
          index 2
          capab 0
          action drop
          refcnt 1
          bindcnt 1
          old_addr 10.0.0.0
          new_addr 11.0.0.0
          mask 255.255.255.0
          flags egress (0x1)
        tm
          install 0 clock_t (0s)
          lastuse 0 clock_t (0s)
          expires 0 clock_t (0s)
          firstuse 0 clock_t (0s)
      word 0x0002",
};

/// A u32 filter with a tunnel, as Linux announces it.
pub(crate) static TUNNEL_KEY: Shown = Shown {
    root: Root::U32Filter,
    hex: "000000000700000000086080f3ffffff08003f01080001007533320008000b00000000004c0102002400050001000100\
000000000000000000000000ffffffff0a0900130c00000000000000080002000000608008000b0008000000f4000700\
f00001000f00010074756e6e656c5f6b6579000050000400040006001400010000000000000000000000000000000000\
040006001400070000000000000000000000000000000000040006001800030000000000000000000000000000000000\
0000000008000a0000000000840002001c0002000b000000000000000300000001000000010000000100000008000700\
00ffffff1400050020010db80000000000000000000000011400060020010db800000000000000000000000206000900\
12b5000005000a0000000000240001000000000000000000000000000000000000000000000000000000000000000000\
04000c001c000900000000000000000000000000000000000000000000000000",
    lines: " index 7 handle 806::800 parent ffff:fff3 pref 319 protocol ip (0x0800)
kind u32
chain 0
options
  selector
    flags terminal (0x1)
    offshift 0
    nkeys 1
    offmask 0x0
    off 0B
    offoff 0B
    hoff 0B
    hmask 0x0
    keys
      key mask 0xffffffff val 0xa090013 off 12B offmask 0
  hash 806:
  flags not_in_hw (0x8)
  action
    action 1
      kind tunnel_key
      stats
        basic
          bytes 0B
          packets 0p
        basic_hw
          bytes 0B
          packets 0p
        queue
          qlen 0p
          backlog 0B
          drops 0p
          requeues 0p
          overlimits 0
      in_hw_count 0
      options
        parms
          index 11
          capab 0
          action pipe
          refcnt 1
          bindcnt 1
          t_action set (1)
        enc_key_id 16777215
        enc_ipv6_src 2001:db8::1
        enc_ipv6_dst 2001:db8::2
        enc_dst_port 4789
        no_csum false
        tm
          install 0 clock_t (0s)
          lastuse 0 clock_t (0s)
          expires 0 clock_t (0s)
          firstuse 0 clock_t (0s)
      word 0x0002
  pnct
    rcnt 0p
    rhit 0p
    kcnts 0p",
};

/// An action as tc sends it.
pub(crate) static NAT: Shown = Shown {
    root: Root::Action,
    hex: "000000003c00010038000100080001006e6174002c000280280001000000000000000000020000000000000000000000\
0a0000000b000000ffffff0001000000",
    lines: "
actions
  action 1
    kind nat
    options
      parms
        index 0
        capab 0
        action drop
        refcnt 0
        bindcnt 0
        old_addr 10.0.0.0
        new_addr 11.0.0.0
        mask 255.255.255.0
        flags egress (0x1)",
};

/// A dump of actions.
pub(crate) static ACTIONS: Shown = Shown {
    root: Root::Action,
    hex: "0000000008000300020000007c010100b80000000b0001006d6972726564000004000500500004000400060014000100\
000000000000000000000000000000000400060014000700000000000000000000000000000000000400060018000300\
000000000000000000000000000000000000000008000a00000000004c00020020000200090000000000000003000000\
0100000001000000020000000900000004000300240001005a000000000000005a000000000000000000000000000000\
0000000000000000c00001000b0001006d69727265640000040005005000040004000600140001000000000000000000\
000000000000000004000600140007000000000000000000000000000000000004000600180003000000000000000000\
00000000000000000000000008000600aabbccdd08000a00000000004c000200200002000a0000000000000004000000\
010000000100000003000000060000000400030024000100430000000000000043000000000000000000000000000000\
0000000000000000",
    lines: "
root_count 2
actions
  action 0
    kind mirred
    stats
      basic
        bytes 0B
        packets 0p
      basic_hw
        bytes 0B
        packets 0p
      queue
        qlen 0p
        backlog 0B
        drops 0p
        requeues 0p
        overlimits 0
    in_hw_count 0
    options
      parms
        index 9
        capab 0
        action pipe
        refcnt 1
        bindcnt 1
        eaction egress_mirror (2)
        ifindex 9
      tm
        install 90 clock_t (900ms)
        lastuse 90 clock_t (900ms)
        expires 0 clock_t (0s)
        firstuse 0 clock_t (0s)
    word 0x0002
  action 1
    kind mirred
    stats
      basic
        bytes 0B
        packets 0p
      basic_hw
        bytes 0B
        packets 0p
      queue
        qlen 0p
        backlog 0B
        drops 0p
        requeues 0p
        overlimits 0
    cookie aabbccdd
    in_hw_count 0
    options
      parms
        index 10
        capab 0
        action stolen
        refcnt 1
        bindcnt 1
        eaction ingress_redir (3)
        ifindex 6
      tm
        install 67 clock_t (670ms)
        lastuse 67 clock_t (670ms)
        expires 0 clock_t (0s)
        firstuse 0 clock_t (0s)
    word 0x0002",
};

/// Options that are no attributes, with both flags, unknown types, and a known one with flags that are not written.
pub(crate) static UNKNOWN_KIND: Shown = Shown {
    root: Root::Qdisc,
    hex: "000000000200000000000100ffffffff020000000800010068746200080002c0010203040600634011ee000004000900\
08000b80070000000400638004000a0005000a0001000000",
    lines: " index 2 handle 1: parent root refcnt 2
kind htb
options
  raw 01020304
word 0xc002
other word 0x4063 value 11ee
chain 7
word 0x800b
other word 0x8063 value \"\"
dump_invisible true
dump_invisible raw 01",
};

/// Texts with control bytes, quotes and letters that are not ASCII; bytes that are no text.
pub(crate) static HOSTILE: Shown = Shown {
    root: Root::Filter,
    hex: "0a000000feffffff010000000000ffff00030a000b000100666c6f776572000018000200140002001b5b33316d225c0a\
c3a97fc29b2000000b0005001b5b48ff00410a00",
    lines: " family inet6 (10) index -2 handle 0x1 parent ffff: pref 10 protocol all (0x0003)
kind flower
options
  in_dev \"\\x1b[31m\\\"\\\\\\x0a\\xc3\\xa9\\x7f\\xc2\\x9b \\x00\"
rate
  interval 27 (134217728)
  ewma_log 91
  rest 48ff00410a",
};

/// A class, with its leaf, a kind without a NUL, and statistics that are too short.
pub(crate) static CLASS: Shown = Shown {
    root: Root::Class,
    hex: "00000000090000000500010000000100000012a00800010068667363090004000102030405000000",
    lines: " index 9 handle 1:5 parent 1: leaf a012:
kind hfsc
bare true
xstats
  raw 0102030405",
};
