"""Random interfaces: commands of tc that make one of every kind of qdisc, class, filter and action that the guest has, with chains,
blocks, u32's tables and actions that are shared. What a command can't have is refused, and that is no fault."""

import itertools
import random

# Options of qdiscs that hold no classes of their own, or those that the kernel makes. One line each.
QDISCS = {
    "pfifo": ["limit 10", "limit 500"],
    "bfifo": ["limit 10000", "limit 20000"],
    "pfifo_head_drop": ["limit 10"],
    "tbf": [
        "rate 1mbit burst 10k latency 70ms",
        "rate 2mbit burst 20k limit 3000",
        "rate 1mbit burst 10k latency 70ms peakrate 2mbit mtu 1540",
        "rate 40gbit burst 10m limit 10m",
        "rate 1mbit burst 10k limit 9000 overhead 14 linklayer atm mpu 64",
    ],
    "sfq": [
        "",
        "perturb 10",
        "limit 200 flows 64 depth 20 divisor 512",
        "quantum 3000",
        "limit 100 redflowlimit 100000 min 8000 max 60000 probability 0.2 ecn headdrop",
    ],
    "prio": ["", "bands 3", "bands 5 priomap 4 3 2 1 0 0 0 0 0 0 0 0 0 0 0 0", "bands 2 priomap 1 1 1 1 1 1 1 1 1 1 1 1 1 1 1 0"],
    "multiq": [""],
    "fq_codel": [
        "",
        "limit 1000",
        "flows 512",
        "target 10ms interval 200ms",
        "noecn",
        "ce_threshold 2ms",
        "quantum 600 memory_limit 1mb drop_batch 32",
    ],
    "codel": ["", "limit 500 target 10ms interval 150ms ecn", "ce_threshold 3ms"],
    "fq": [
        "",
        "limit 500 flow_limit 50",
        "nopacing",
        "maxrate 1mbit",
        "buckets 512",
        "quantum 3000 initial_quantum 9000",
        "orphan_mask 511",
        "refill_delay 20ms",
        "ce_threshold 4ms",
        "timer_slack 20us horizon 5s horizon_cap",
        "low_rate_threshold 1mbit horizon_drop",
    ],
    "pie": ["", "limit 500 target 20ms tupdate 20ms alpha 3 beta 22", "ecn", "bytemode", "dq_rate_estimator"],
    "hhf": ["", "limit 500 quantum 600 hh_limit 100 reset_timeout 20ms admit_bytes 1000 evict_timeout 500ms non_hh_weight 4"],
    "sfb": ["", "limit 200 max 30 target 20 increment 0.001 decrement 0.0001 penalty_rate 20 penalty_burst 30 rehash 100000 db 20000"],
    "netem": [
        "delay 100ms",
        "delay 50ms 5ms 25%",
        "delay 20ms 2ms distribution normal",
        "loss 1%",
        "loss 1% 20%",
        "loss gemodel 1% 10% 70% 0.1%",
        "loss state 1% 90% 1% 1% 1%",
        "delay 10ms reorder 25% 50% gap 5",
        "duplicate 1% corrupt 2%",
        "rate 1mbit 20",
        "rate 1mbit 20 64 3",
        "limit 500 loss 5% ecn",
        "slot 10ms 20ms packets 5 bytes 3000",
        "rate 40gbit",
    ],
    "skbprio": ["limit 10", "limit 20"],
    "cbs": [
        "idleslope 98688 sendslope -901312 hicredit 153 locredit -1389 offload 0",
        "idleslope 18688 sendslope -981312 hicredit 53 locredit -389 offload 0",
    ],
    "etf": ["clockid CLOCK_TAI delta 200000", "clockid CLOCK_TAI delta 300000 deadline_mode", "clockid CLOCK_TAI delta 200000 skip_sock_check"],
    "cake": [
        "",
        "bandwidth 10mbit",
        "besteffort",
        "ack-filter",
        "nat",
        "rtt 50ms overhead 20 mpu 64 atm",
        "ingress",
        "memlimit 1mb",
        "fwmark 0xff",
        "wash",
        "no-split-gso",
        "dual-srchost",
        "autorate-ingress",
        "diffserv8 triple-isolate ack-filter-aggressive",
    ],
    "plug": ["limit 10", ""],
    "mqprio": [
        "num_tc 2 map 0 1 1 1 1 1 1 1 1 1 1 1 1 1 1 1 queues 1@0 1@1 hw 0",
        "num_tc 2 map 1 0 1 1 1 1 1 1 1 1 1 1 1 1 1 1 queues 2@0 2@2 hw 0",
    ],
    "taprio": [
        "num_tc 2 map 0 1 1 1 1 1 1 1 1 1 1 1 1 1 1 1 queues 1@0 1@1 base-time 0 sched-entry S 01 300000 sched-entry S 02 300000"
        " clockid CLOCK_TAI",
    ],
    "htb": ["", "default 30 r2q 10", "default 10", "r2q 20", "direct_qlen 500"],
    "hfsc": ["", "default 1", "default 20"],
    "drr": [""],
    "qfq": [""],
}
# With those without options, which only interfaces that come back have.
ALL_QDISCS = {**QDISCS, **{it: [""] for it in ("pfifo_fast", "mq", "noqueue", "blackhole", "teql0")}}
ROOTS = ("mqprio", "taprio", "multiq", "mq", "noqueue", "teql0")  # only at the root, since they need a link with several queues, or a link
CHILD = ("tbf", "netem", "sfb", "cbs", "plug")  # these have room for one qdisc, in their class 1

CLASSES = {
    "htb": [
        "rate 1mbit",
        "rate 2mbit ceil 4mbit burst 20k cburst 10k prio 3 quantum 3000",
        "rate 10gbit ceil 40gbit",
        "rate 1mbit overhead 20 mpu 64",
        "rate 3mbit linklayer atm",
    ],
    "hfsc": ["sc rate 1mbit ul rate 2mbit", "rt m1 1mbit d 10ms m2 500kbit ls rate 1mbit", "ls rate 1mbit", "rt rate 1mbit"],
    "drr": ["", "quantum 1600", "quantum 3000"],
    "qfq": ["weight 2 maxpkt 1600", "weight 5 maxpkt 1500", "weight 1 maxpkt 512"],
}

# What can't be made again: requests.md says why. The place of a qdisc and of its options is filled in.
UNMADE_QDISCS = ["red limit 100kb avpkt 1000 bandwidth 10mbit", "choke limit 100 bandwidth 10mbit ecn", "gred setup DPs 3 default 2 grio"]
STAB, ESTIMATOR = "stab mtu 1500 overhead 10 linklayer atm", "estimator 250ms 1s"

ACTIONS = {
    "gact": ["pass", "drop", "pipe", "reclassify", "continue", "pass random determ drop 5", "pass random netrand drop 3", "trap", "jump 1"],
    "mirred": ["egress redirect dev d8", "egress mirror dev d8", "ingress redirect dev d8", "egress mirror dev d9 pipe"],
    "nat": ["egress 10.0.0.0/24 1.2.3.4", "ingress 10.0.0.0/24 1.2.3.4", "egress 10.0.0.0/25 1.2.3.5 pass"],
    "pedit": [
        "ex munge ip ttl set 10",
        "ex munge ip ttl set 10 munge ip tos set 4",
        "ex munge ip dst set 1.2.3.4 retain 0xff",
        "munge offset 0 u32 set 0x12345678",
        "ex munge eth dst set 02:00:00:00:00:01 pipe",
    ],
    "police": [
        "rate 1mbit burst 10k conform-exceed drop",
        "rate 2mbit burst 20k mtu 3000 conform-exceed pass",
        "pkts_rate 100 pkts_burst 10 conform-exceed drop",
        "rate 1mbit burst 10k peakrate 2mbit mtu 2000 conform-exceed drop",
        "rate 40gbit burst 1m conform-exceed drop/pipe",
        "rate 1mbit burst 10k overhead 14 linklayer atm conform-exceed continue",
    ],
    "simple": ['sdata "a"', 'sdata "some text"'],
    "skbedit": ["mark 1", "mark 0x10/0xff", "priority 1:20", "queue_mapping 2", "ptype host", "inheritdsfield", "mark 7 priority 2:3 pipe"],
    "skbmod": ["set dmac 02:00:00:00:00:01", "set smac 02:00:00:00:00:01", "swap mac", "set etype 0x800", "ecn"],
    "vlan": [
        "pop",
        "push id 5",
        "push id 6 priority 3 protocol 802.1ad",
        "modify id 7",
        "push_eth dst_mac 02:00:00:00:00:01 src_mac 02:00:00:00:00:02",
        "pop_eth pipe",
    ],
    "tunnel_key": [
        "unset",
        "set src_ip 1.1.1.1 dst_ip 2.2.2.2 id 42 dst_port 4789",
        "set src_ip 1.1.1.1 dst_ip 2.2.2.2 id 42 pipe",
        "set src_ip 2001:db8::1 dst_ip 2001:db8::2 id 7 nocsum",
        "set src_ip 1.1.1.1 dst_ip 2.2.2.2 id 42 geneve_opts 0102:80:1122334421314151 nocsum tos 4 ttl 5",
        "set src_ip 1.1.1.1 dst_ip 2.2.2.2 id 42 geneve_opts 0102:80:11223344,0103:81:5566778899aabbcc",
        "set src_ip 1.1.1.1 dst_ip 2.2.2.2 id 42 vxlan_opts 114",
        "set src_ip 1.1.1.1 dst_ip 2.2.2.2 id 42 erspan_opts 1:5:0:0",
    ],
    "csum": ["ip", "ip and tcp", "ip and udp and icmp pipe"],
    "ctinfo": ["dscp 0xfc000000 0x01000000", "cpmark 0xff", "dscp 0xfc000000 0x02000000 cpmark 0xf0"],
    "bpf": ["bytecode '1,6 0 0 4294967295,'", "bytecode '1,6 0 0 4,'", "bytecode '2,0 0 0 3,6 0 0 1,' pass"],
    "sample": ["rate 10 group 1", "rate 20 group 2 trunc 100"],
    "mpls": [
        "pop protocol ip",
        "push protocol mpls_uc label 5 ttl 6",
        "push protocol mpls_uc label 7 tc 3",
        "modify label 33 tc 2",
        "dec_ttl",
        "mac_push protocol mpls_uc label 9 pipe",
    ],
    "connmark": ["zone 0", "zone 5 pipe"],
    "ct": ["clear", "commit mark 5", "commit force mark 5/0xff label 00010203040506070809101112131415", "nat src addr 1.2.3.4 commit"],
    "ife": ["encode use mark 5", "encode use mark 6 type 0xface", "decode", "encode allow mark dst 02:00:00:00:00:01 pipe"],
}
BELOW_INGRESS = ("ct",)  # of these kinds of action only below clsact and ingress

EMATCHES = [
    "u32(u32 0x0a000000 0xff000000 at 12)",
    "u32(u16 0x0a00 0xff00 at 2)",
    "cmp(u16 at 2 layer 1 mask 0xff gt 5)",
    "meta(priority eq 3)",
    "meta(nf_mark mask 0xff gt 3)",
    "meta(random mask 0xff lt 20)",
    "nbyte(abc at 2 layer 1)",
    "text(bm abc from 0 to 100)",
    "canid(sff 0x123)",
    "u32(u32 0x0a000000 0xff000000 at 12) and not meta(priority eq 5)",
    "meta(priority eq 3) or (u32(u8 5 0xff at 9) and cmp(u8 at 0 layer 1 eq 69))",
]

# Keys of flower by their protocol.
FLOWER = [
    ("ip", "ip_proto tcp dst_port 80"),
    ("ip", "ip_proto tcp dst_port 1000-2000"),
    ("ip", "ip_proto tcp tcp_flags 0x2/0x3"),
    ("ip", "ip_proto udp src_port 53 dst_ip 10.0.0.0/8"),
    ("ip", "ip_proto icmp type 8 code 0"),
    ("ip", "src_ip 10.0.0.0/8 ip_tos 0x8/0xfc ip_ttl 64"),
    ("ip", "src_ip 10.1.0.0/16 skip_hw"),
    ("ip", "dst_mac 02:00:00:00:00:01/ff:ff:ff:00:00:00"),
    ("ip", "enc_key_id 5 enc_dst_ip 1.2.3.4 enc_dst_port 4789 enc_tos 3"),
    ("ip", "enc_key_id 5 geneve_opts 0102:80:11223344/ffff:ff:ffffffff"),
    ("ip", "ct_state +trk+est ct_mark 5/0xff"),
    ("ip", "indev d8"),
    ("ip", "ip_flags frag/nofirstfrag"),
    ("ipv6", "src_ip 2001:db8::/32 ip_proto tcp dst_port 443"),
    ("arp", "arp_op request arp_sip 10.0.0.0/8"),
    ("802.1q", "vlan_id 100"),
    ("802.1q", "vlan_id 5 vlan_prio 3 vlan_ethtype ip dst_ip 10.0.0.1"),
    ("802.1ad", "vlan_id 5 vlan_ethtype 802.1q cvlan_id 7 cvlan_prio 2 cvlan_ethtype ipv6"),
    ("mpls_uc", "mpls_label 1000 mpls_tc 3 mpls_bos 1 mpls_ttl 5"),
    ("mpls_uc", "mpls lse depth 1 label 5 tc 1 lse depth 2 label 6 bos 1"),
    ("all", ""),
]

# The other filters: the protocol and the keys.
FILTERS = {
    "matchall": [("all", ""), ("ip", "skip_hw")],
    "basic": [("ip", f"match '{it}'") for it in EMATCHES] + [("all", "")],
    "bpf": [("ip", "bytecode '1,6 0 0 4294967295,'"), ("all", "bytecode '2,0 0 0 3,6 0 0 1,'"), ("ip", "da bytecode '1,6 0 0 4294967295,'")],
    "fw": [("all", ""), ("ip", "indev d8")],
    "route": [("ip", "from 2 to 3"), ("ip", "to 4"), ("ip", "fromif d8 to 5")],
    "flow": [
        ("ip", "hash keys src,dst divisor 64 baseclass 1:1"),
        ("ip", "hash keys src,dst,proto-src perturb 10 divisor 128 baseclass 1:1"),
        ("ip", "map key mark and 0xff rshift 2 addend 1 divisor 64 baseclass 1:2"),
    ],
    "cgroup": [("all", f"match '{it}'") for it in EMATCHES[:6]] + [("all", "")],
    "flower": FLOWER,
    "u32": [
        ("ip", "match ip src 1.2.3.4"),
        ("ip", "match ip dst 10.9.0.0/16 match ip protocol 6 0xff"),
        ("ip", "match ip src 1.2.3.5 match mark 5 0xff"),
        ("all", "match u32 0x12345678 0xffffffff at 16"),
        ("ip", "match ip src 1.2.3.6 indev d8"),
        ("ipv6", "match ip6 dst 2001:db8::/32"),
        ("ip", "match ip src 1.2.3.7 skip_hw"),
    ],
}


class Deal:
    """Deals each element of a list before any of them again, in a random order."""

    def __init__(self, chance):
        self.chance, self.decks = chance, {}

    def one(self, name, items):
        deck = self.decks.setdefault(name, [])
        if not deck:
            deck += items
            self.chance.shuffle(deck)
        return deck.pop()

    def options(self, table, kind):
        return self.one((id(table), kind), table[kind])


class Interface:
    """The commands that make the interface d7 of a number, by the chance and the deal of a run. What comes back has only what can be made again."""

    def __init__(self, chance, deal, comes_back=False):
        self.chance, self.deal, self.commands, self.comes_back = chance, deal, [], comes_back
        self.handles, self.shared, self.priorities = iter(chance.sample(range(1, 200), 40)), [], {}
        self.qdiscs = ALL_QDISCS if comes_back else QDISCS
        self.is_unmade = self.likely(0.15) and not comes_back
        self.standalone_actions()
        self.root, self.classes, self.places = "", [], []
        if self.likely(0.85):
            self.tree()
        for place in self.places:
            self.filters(place, self.few(4), is_below_ingress=False)
            if self.likely(0.25):
                self.tables(place)
        if self.likely(0.7):
            self.sides()

    def likely(self, part):
        return self.chance.random() < part

    def few(self, most):
        return self.chance.choice([0, *range(most + 1)])

    def say(self, command):
        self.commands.append(" ".join(command.split()))

    # ---- Actions

    def kind_of_action(self, is_below_ingress):
        while True:
            kind = self.deal.one("action", list(ACTIONS))
            if is_below_ingress or kind not in BELOW_INGRESS:
                return kind

    def standalone_actions(self):
        """Actions with numbers: standalone ones, and some that only filters will hold."""
        for number in self.chance.sample(range(100, 190), self.few(4)):
            kind = self.kind_of_action(False)
            action = f"action {kind} {self.deal.options(ACTIONS, kind)} index {number}"
            self.shared.append(action)
            if self.likely(0.6):
                cookie = f"cookie {self.chance.randrange(1 << 32):08x}" if self.likely(0.3) else ""
                self.say(f"actions add {action} {cookie}")

    def action(self, is_below_ingress, others, is_own):
        """An action of a list that has these already. None is there twice: if its number is new, Linux 6.1 never answers."""
        if self.shared and self.likely(0.3) and not is_own:
            it = self.chance.choice(self.shared)
            if it not in others:
                return it
        kind = self.kind_of_action(is_below_ingress)
        more = self.chance.choice(["", "", "", "hw_stats disabled", "no_percpu", f"cookie {self.chance.randrange(1 << 32):08x}"])
        return f"action {kind} {self.deal.options(ACTIONS, kind)} {more}"

    def verdict(self, is_below_ingress, chain="", kind="", is_own=False):
        """What a filter does: a class, or actions, its own or shared ones, of which the last may go on in another chain."""
        if self.classes and kind != "cgroup" and self.likely(0.4):
            return f"classid {self.chance.choice(self.classes)}"
        count = self.chance.choice([1, 1, 1, 2, 3, 5])
        actions = []
        for _ in range(count):
            actions.append(self.action(is_below_ingress, actions, is_own))
        if chain and self.likely(0.2):
            actions.append(f"action gact goto chain {chain}")
        return " ".join(actions)

    # ---- Qdiscs and classes

    def tree(self):
        if self.likely(0.6):
            kind = self.chance.choice(["htb", "htb", "hfsc", "drr", "qfq", "prio"])
        else:
            kind = self.kind_of_qdisc("root")
        self.root = self.qdisc("root", kind, 0)

    def kind_of_qdisc(self, place):
        """Of interfaces that come back, roots have a deal of their own, so that none is dealt where it can't be."""
        if not self.comes_back:
            return self.deal.one("qdisc", list(QDISCS))
        return self.deal.one(place, [it for it in self.qdiscs if place == "root" or it not in ROOTS])

    def qdisc(self, parent, kind, depth):
        """A qdisc in this place, with what is below it. Returns its handle."""
        handle = "" if depth and self.likely(0.1) else f"{next(self.handles):x}:"
        if self.is_unmade and self.likely(0.15):
            self.say(f"qdisc add dev d7 {parent} {f'handle {handle}' if handle else ''} {self.deal.one('unmade', UNMADE_QDISCS)}")
            return handle
        prefix = self.chance.choice([ESTIMATOR, ESTIMATOR if depth else STAB]) if self.is_unmade and self.likely(0.2) else ""
        self.say(f"qdisc add dev d7 {parent} {f'handle {handle}' if handle else ''} {prefix} {kind} {self.deal.options(self.qdiscs, kind)}")
        if handle:
            self.below(handle, kind, depth)
        return handle

    def below(self, handle, kind, depth):
        if kind in CLASSES:
            leaves = self.class_tree(handle, kind, 4 - depth)
        elif kind in CHILD:
            leaves = [f"{handle}1"]
        elif kind in ("mqprio", "taprio", "multiq", "mq", "prio"):
            leaves = [f"{handle}{it}" for it in "12"]
        else:
            leaves = []
        if kind in CLASSES or kind in ("prio", "multiq"):
            self.places.append(f"dev d7 parent {handle}")
            self.classes += leaves
        elif kind in ("sfq", "fq_codel", "cake") and self.likely(0.3):
            self.places.append(f"dev d7 parent {handle}")
        for leaf in leaves:
            if depth < 3 and self.likely(0.6):
                inner = self.kind_of_qdisc("inner")
                if inner not in ROOTS:
                    self.qdisc(f"parent {leaf}", inner, depth + 1)

    def class_tree(self, handle, kind, most):
        """Classes, each below the qdisc or one that is there. Returns those without children."""
        leaves = []
        for minor in self.chance.sample(range(1, 0x400), self.chance.randrange(1, most + 1)):
            parent = self.chance.choice([handle, *leaves]) if kind in ("htb", "hfsc") else handle
            leaves = [it for it in leaves if it != parent]
            estimator = ESTIMATOR if self.is_unmade and self.likely(0.1) else ""
            self.say(f"class add dev d7 parent {parent} classid {handle}{minor:x} {estimator} {kind} {self.deal.options(CLASSES, kind)}")
            leaves.append(f"{handle}{minor:x}")
            if kind in ("htb", "hfsc") and self.likely(0.1):
                self.places.append(f"dev d7 parent {handle}{minor:x}")
        return leaves

    # ---- Filters

    def priority(self, place, kind, protocol):
        """A priority, in which the kind and the protocol are these: one that is there, or a new one."""
        own = self.priorities.setdefault(place, {})
        some = [number for number, it in own.items() if it == (kind, protocol)]
        if some and self.likely(0.5):
            return self.chance.choice(some)
        number = self.chance.choice([it for it in range(1, 60) if it not in own])
        if kind == "u32" and self.likely(0.5):  # else the kernel shows the tables of one priority with those of other chains and of the other side
            number += 1000 + 100 * sorted(self.priorities).index(place)
        own[number] = kind, protocol
        return number

    def filters(self, place, count, is_below_ingress, chains=()):
        for _ in range(count):
            chain = self.chance.choice(["", *chains])
            kind = self.deal.one("filter", list(FILTERS))
            protocol, keys = self.deal.options(FILTERS, kind)
            where = f"{place} chain {chain}" if chain else place
            priority = self.priority(where, kind, protocol)
            has_offload_flag = self.comes_back and "skip_" in keys  # with which no filter shares an action
            verdict = self.verdict(is_below_ingress, self.chance.choice([*chains, ""]), kind, has_offload_flag)
            self.say(f"filter add {where} prio {priority} protocol {protocol} {self.handle(kind)} {kind} {keys} {verdict}")
        if self.is_unmade and self.likely(0.2):
            self.say(f"filter add {place} prio 900 protocol ip u32 match ip src 9.9.9.9 police rate 1mbit burst 10k drop flowid 1:1")

    def handle(self, kind):
        number = self.chance.randrange(1, 30)
        if kind in ("fw", "cgroup", "flow"):
            return f"handle {number}"
        if kind == "u32":
            return self.chance.choice(["", f"handle ::{number}"])
        if kind in ("basic", "bpf", "flower", "matchall"):
            return self.chance.choice(["", f"handle {number}"])
        return ""

    def tables(self, place):
        """Two priorities of u32 with tables of a user, keys in them and links to them."""
        low, *numbers = self.chance.sample([2, 3, 5, 0x7FF, 0x900, 0xA00, 0xFFE], 4)
        for priority in self.chance.sample(range(2000, 2100), 2):
            own = [f"{it:x}:" for it in numbers[:2]]
            numbers = numbers[2:] or [low]
            line = f"filter add {place} prio {priority} protocol ip"
            for table in own:
                self.say(f"{line} handle {table} u32 divisor {self.chance.choice([4, 16, 256])}")
            for table in own:
                for bucket in self.chance.sample(range(4), 2):
                    key = f"handle {table}{bucket:x}:{self.chance.randrange(1, 9)} u32 ht {table}{bucket:x}: match ip src 10.0.0.{bucket}"
                    link = f"link {own[-1]}" if table != own[-1] and self.likely(0.3) else self.verdict(False)
                    self.say(f"{line} {key} {link}")
                self.say(f"{line} u32 match ip dst 10.9.{bucket}.0/24 hashkey mask 0xf at 12 link {table}")
            self.say(f"{line} u32 match ip dst 10.8.0.0/16 {self.verdict(False)}")

    # ---- Ingress and clsact

    def sides(self):
        kind = self.chance.choice(["clsact", "clsact", "ingress", "blocks"])
        if kind == "blocks":
            self.say(f"qdisc add dev d7 ingress_block 5 {self.chance.choice(['', 'egress_block 6'])} clsact")
            if self.likely(0.4):
                self.say("qdisc add dev d8 ingress_block 5 clsact")
            sides = ["block 5", "dev d7 egress"]
        else:
            self.say(f"qdisc add dev d7 {kind}")
            sides = ["dev d7 ingress", "dev d7 egress"] if kind == "clsact" else ["dev d7 ingress"]
        for side in sides:
            self.side(side)

    def side(self, side):
        if self.likely(0.4):
            bits = self.chance.choice([8, 16])
            self.say(f"chain add {side} protocol ip chain 7 flower dst_ip 0.0.0.0/{bits}")
            for number in range(self.few(2)):
                self.say(f"filter add {side} protocol ip chain 7 prio 3 flower dst_ip 10.{number}.0.0/{bits} {self.verdict(True)}")
        if self.likely(0.15):
            self.say(f"chain add {side} chain 9")
        self.filters(side, self.few(5), is_below_ingress=True, chains=("8", "11"))
        if self.likely(0.25):
            self.tables(side)


def endless(seed, comes_back=False):
    """The commands of interfaces without end; of those that come back without what can't be made again, and with all kinds that the guest has."""
    chance = random.Random(seed)
    deal = Deal(chance)
    while True:
        yield Interface(chance, deal, comes_back).commands


def interfaces(seed, count):
    """The commands of so many interfaces."""
    return list(itertools.islice(endless(seed), count))


def all_kinds():
    """Each kind that an interface which comes back may have, with its sort."""
    sorts = {"qdisc": [*ALL_QDISCS, "clsact", "ingress"], "class": CLASSES, "filter": FILTERS, "action": ACTIONS, "template": ["flower"]}
    return {(sort, kind) for sort, kinds in sorts.items() for kind in kinds}
