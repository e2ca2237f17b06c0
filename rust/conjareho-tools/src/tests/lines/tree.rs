//! Lines as a tree.

use crate::user::prelude::*;

use crate::show::tree::tree_lines;
use crate::user::Fail;
use core::result::Result;

// Lines, and their tree.
static TREES: [(&str, &str); 11] = [
    // The classes of a dump are in the order of a hash table, and qdiscs precede them.
    (
        "is qdisc htb 1: dev eth0 root r2q 10 default 0x20\n\
is qdisc fq_codel 10: dev eth0 parent 1:10 limit 10240p\n\
is qdisc clsact ffff: dev eth0 parent ffff:fff1\n\
is class htb 1:10 dev eth0 parent 1:1 leaf 10: rate 10Mbit\n\
is class htb 1:1 dev eth0 root rate 50Mbit\n\
is class htb 1:20 dev eth0 parent 1:1 rate 40Mbit\n\
is filter u32 800:: dev eth0 parent 1: pref 10 protocol ip\n\
is filter flower 0x1 dev eth0 parent 1:10 pref 1\n\
is filter flower 0x1 dev eth0 ingress pref 601\n\
is filter flower 0x2 dev eth0 egress pref 602\n\
is chain 5 dev eth0 ingress\n\
is chain 6 dev eth0 parent 1: kind flower\n",
        "dev eth0\n\x20 qdisc htb 1: root r2q 10 default 0x20\n\x20   class htb 1:1 root rate 50Mbit\n\
\x20     class htb 1:10 leaf 10: rate 10Mbit\n\x20       qdisc fq_codel 10: limit 10240p\n\x20       filter flower 0x1 pref 1\n\
\x20     class htb 1:20 rate 40Mbit\n\x20   filter u32 800:: pref 10 protocol ip\n\x20   chain 6 kind flower\n\x20 qdisc clsact ffff:\n\
\x20   filter flower 0x1 ingress pref 601\n\x20   filter flower 0x2 egress pref 602\n\x20   chain 5 ingress\n",
    ),
    // The queues of an interface, which have no handles: with classes, and without.
    (
        "is qdisc mq - dev eth0 root\nis qdisc fq_codel - dev eth0 parent :2 limit 10240p\nis qdisc fq_codel - dev eth0 parent :1\n\
is class mq :1 dev eth0 root\nis class mq :2 dev eth0 root\n",
        "dev eth0\n\x20 qdisc mq - root\n\x20   class mq :1 root\n\x20     qdisc fq_codel -\n\x20   class mq :2 root\n\x20     qdisc fq_codel - limit 10240p\n",
    ),
    (
        "is qdisc mq - dev eth0 root\nis qdisc fq_codel - dev eth0 parent :2\nis qdisc pfifo_fast - dev eth1 parent :1\n",
        "dev eth0\n\x20 qdisc mq - root\n\x20   qdisc fq_codel -\ndev eth1\n\x20 qdisc pfifo_fast -\n",
    ),
    // Two interfaces and a shared block, in turns, with times.
    (
        "14:00:01.1 is qdisc noqueue 0: dev lo root\n14:00:01.2 is filter flower 0x1 block 5 pref 1\n\
14:00:01.3 is qdisc prio 1: dev eth1 root\n14:00:01.4 is qdisc pfifo 2: dev lo parent 0:\n",
        "dev lo\n  qdisc noqueue 0: root\n    qdisc pfifo 2:\nblock 5\n  filter flower 0x1 pref 1\ndev eth1\n  qdisc prio 1: root\n",
    ),
    // A class that isn't there: below its qdisc. Neither there: below the interface.
    (
        "is qdisc mq 8001: dev eth0 root\nis qdisc fq 0: dev eth0 parent 8001:3\nis qdisc fq 5: dev eth0 parent 7:1\nis class htb 7:9 dev eth0 root\n",
        "dev eth0\n  qdisc mq 8001: root\n    qdisc fq 0:\n  qdisc fq 5:\n  class htb 7:9 root\n",
    ),
    // The same handle on another interface is another class.
    (
        "is class htb 1:1 dev eth0 root\nis qdisc sfq 11: dev eth1 parent 1:1\n",
        "dev eth0\n  class htb 1:1 root\ndev eth1\n  qdisc sfq 11:\n",
    ),
    // A circle, what is below it, and a class below itself.
    (
        "is class htb 1:1 dev eth0 parent 1:2\nis class htb 1:2 dev eth0 parent 1:1\nis qdisc sfq 11: dev eth0 parent 1:1\n\
is class htb 2:2 dev eth0 parent 2:2\nis filter u32 - dev eth0 parent 11:\nis qdisc htb 1: dev eth0 root\n",
        "dev eth0\n  class htb 1:1\n  class htb 1:2\n  qdisc sfq 11:\n  class htb 2:2\n  filter u32 -\n  qdisc htb 1: root\n",
    ),
    // Lines about no object keep their place among the interfaces.
    (
        "==> a.pcap <==\n0.5 add qdisc htb 1: dev eth0 root\nis qdisc htb 1: dev eth0 root\nrefused EBUSY dump class\nis action police - index 1\n\
is qdisc htb 1: dev eth1 root\nis class htb 1:1 dev eth0 root malformed: 3 bytes, 4 expected, at Options (byte 44)\n\
is qdisc fq 1:\nbyte 924: truncated: 212 bytes\n\nsummary\n  3 is",
        "==> a.pcap <==\n0.5 add qdisc htb 1: dev eth0 root\ndev eth0\n  qdisc htb 1: root\n\
\x20   class htb 1:1 root malformed: 3 bytes, 4 expected, at Options (byte 44)\nrefused EBUSY dump class\nis action police - index 1\ndev eth1\n\
\x20 qdisc htb 1: root\nis qdisc fq 1:\nbyte 924: truncated: 212 bytes\nsummary\n  3 is\n",
    ),
    // The first of two with one handle has what is below them.
    (
        "is qdisc htb 1: dev d root\nis qdisc htb 1: dev d root refcnt 2\nis class htb 1:1 dev d root\n",
        "dev d\n  qdisc htb 1: root\n    class htb 1:1 root\n  qdisc htb 1: root refcnt 2\n",
    ),
    ("", ""),
    ("\n\n", ""),
];

#[test]
fn lines_as_trees() -> Result<(), Fail> {
    for (lines, tree) in &TREES {
        let mut out = Vec::new();
        tree_lines(&mut out, lines.as_bytes())?;
        assert!(out.as_slice() == tree.as_bytes());
    }
    Ok(())
}

// A chain of classes: each line is indented by two blanks more, up to 128.
#[test]
fn deep_trees() -> Result<(), Fail> {
    let mut lines = fallible::text("is qdisc hfsc 1: dev d root\nis class hfsc 1:1 dev d root\n")?;
    for i in 1..99u32 {
        let next = i + 1;
        let line = crate::user::formatted(format_args!("is class hfsc 1:{next:x} dev d parent 1:{i:x}\n"))?;
        lines.try_push_str(&line)?;
    }
    let mut out = Vec::new();
    tree_lines(&mut out, lines.as_bytes())?;
    let mut deepest = 0;
    let mut count = 0u32;
    for line in out.split(|byte| *byte == b'\n') {
        let blanks = line.iter().take_while(|byte| **byte == b' ').count();
        count = u32::wrapping_add(count, 1);
        if blanks > deepest {
            deepest = blanks;
        }
    }
    assert!(count == 102);
    assert!(deepest == 128);
    Ok(())
}
