"""The tables of Linux's traffic control as forms: those of the kinds that the typed codec knows are written here, and all others are made of
`kinds.json`, facts of Linux's headers and sources with where each is from. How facts become forms is decided here: a number's name is the
kernel's without its prefix, the five fields with which an action's parameters begin are `generic`, gaps that the compiler leaves are
`padding`, and options are within an object with the name of the kind.
"""

import json
import os
import re

from forms import (BARE, BE16, BE32, BE64, DEEPEST, FLAG, HANDLE, HEX, I16, I32, I64, IPV4, IPV6, MAC, NESTED, TEXT, TRUTH, U8, U16, U32, U64,
                   Form, array, choice, indexed, list_of, list_with_kinds, number, octets, padding, record)

with open(f"{os.path.dirname(os.path.abspath(__file__))}/kinds.json", encoding="utf-8") as file:
    FACTS = json.load(file)

# ---- The records and the numbers with names

FAMILY = number(1, names={0: "Unspec", 1: "Unix", 2: "Inet", 7: "Bridge", 10: "Inet6", 16: "Netlink", 17: "Packet", 28: "Mpls"})
OUTCOME = number(4, signed=True, names=dict(enumerate("Unspec Ok Reclassify Shot Pipe Stolen Queued Repeat Redirect Trap".split(), -1)))
DIRECTION = number(4, signed=True, names=dict(enumerate("EgressRedir EgressMirror IngressRedir IngressMirror".split(), 1)))

def each(form, names): return [(name, form) for name in names.split()]

STATS = record(("bytes", U64), *each(U32, "packets drops overlimits bps pps qlen backlog"), padding(4))
BASIC = record(("bytes", U64), ("packets", U32), padding(4))
QUEUE = record(*each(U32, "qlen backlog drops requeues overlimits"))
QDISC = record(*each(U32, "maxpacket drop_overlimit ecn_mark new_flow_count new_flows_len old_flows_len ce_mark memory_usage drop_overmemory"))
CLASS = record(("deficit", I32), *each(U32, "ldelay count lastcount dropping"), ("drop_next", I32))
TIMES = record(*each(U64, "install lastuse expires firstuse"))
GENERIC = record(*each(U32, "index capab"), ("action", OUTCOME), *each(I32, "refcnt bindcnt"))
MIRROR = record(("generic", GENERIC), ("eaction", DIRECTION), ("ifindex", U32))
NAT = record(("generic", GENERIC), *each(IPV4, "old_addr new_addr mask"), ("flags", U32))
TUNNEL_KEY = record(("generic", GENERIC), ("t_action", I32))
KEY = record(*each(BE32, "mask val"), *each(I32, "off offmask"))
SELECTOR = record(*each(U8, "flags offshift nkeys"), padding(1), ("offmask", BE16), ("off", U16), *each(I16, "offoff hoff"), ("hmask", BE32),
                  ("keys", array(KEY)))

# ---- What is known of the other kinds: numbers, records, attributes

def camel(name): return "".join(part.capitalize() for part in name.split("_"))

# What the facts leave open: that a number has names, that it is a handle, an address or hex, and that it is another name's.
NAMED = {"tc_sizespec.linklayer": "TC_LINKLAYER_"}
HANDLES = "ClassId Baseclass".split()
IN_HEX = "act_simple.Data choke.Stab gred.Stab red.Stab act_ct.Labels act_ct.LabelsMask".split()
OTHERWISE = {"act_ct.NatIpv4Min": IPV4, "act_ct.NatIpv4Max": IPV4, "rsvp.Dst": IPV4, "rsvp.Src": IPV4, "rsvp6.Dst": IPV6, "rsvp6.Src": IPV6,
             "atm.Hdr": array(U8)}
# The attributes of rsvp and rsvp6 are those of one enum; their addresses differ. What iproute2 puts after prio's record is a nest.
FACTS["tables"]["rsvp6"] = FACTS["tables"]["rsvp"]
FACTS["kinds"]["filter"]["rsvp6"]["options"]["table"] = "rsvp6"
FACTS["tables"]["prio_tail"]["attrs"][0].update(form="nested", table="prio_tail")
JOINED = {"from_layer_to_layer": "layers"}

def number_of(kind, enum=None):
    """A number by its type, such as u32, s16 or be32; its names are the kernel's without their prefix."""
    sort, bits = re.fullmatch(r"(be|u|s)(\d+)", kind).groups()
    names = FACTS["enums"].get(enum)
    if names is not None:
        names = {value if sort == "s" else value % (1 << int(bits)): camel(name[len(enum):]) for name, value in names.items()}
    return number(int(bits) // 8, "big" if sort == "be" else "little", sort == "s", names)

def field_of(struct, name, fact):
    if fact["type"] == "struct":
        return fields_of(fact["struct"])
    if fact["type"] == "bytes":
        return octets(fact["width"])
    form = number_of(fact["type"], NAMED.get(f"{struct}.{name}", fact.get("enum")))
    return array(form, fact["count"]) if "count" in fact else form

def fields_of(struct, *after):
    """A record by its facts, with fields after it."""
    size, facts = FACTS["structs"][struct]["size"], FACTS["structs"][struct]["fields"]
    fields, at, units = [], 0, {}
    for fact in facts:
        units.setdefault(fact["off"], []).append(fact)
    if [fact["name"] for fact in facts[:5]] == "index capab action refcnt bindcnt".split():
        fields, at = [("generic", GENERIC)], 20
    for off, unit in units.items():
        if off < at:
            continue
        if at < off:
            fields.append(padding(off - at))
        # Numbers of a few bits each are one number, without names.
        name, fact = (unit[0]["name"], unit[0]) if len(unit) == 1 else ("_".join(it["name"] for it in unit), {**unit[0], "enum": None})
        name, at = JOINED.get(name, name), off + fact["width"]
        pads = re.fullmatch(r"_*(pad\d*|reserved|res\d*)", name)
        fields.append(padding(fact["width"], name) if pads else (name, field_of(struct, name, fact)))
    if at < size:
        fields.append(padding(size - at))
    return record(*fields, *after)

BITFIELD = record(*each(U32, "value selector"))
TABLES = {}

def is_nested(seen, kernel="no"):
    """Whether iproute2 sets the nested flag, or, of what it never sends, Linux."""
    sent = (seen or {}).get("iproute2")
    return "nested" in sent if sent else kernel == "yes"

def form_of(table, fact):
    """What an attribute holds."""
    kind, name, of = fact["form"], fact["short"], fact.get("of")
    if f"{table}.{name}" in IN_HEX or kind == "array" and fact.get("len") == 256:
        return HEX
    if f"{table}.{name}" in OTHERWISE:
        return OTHERWISE[f"{table}.{name}"]
    if kind in ("pad", "flag"):
        return FLAG
    if kind == "bytes":
        return {6: MAC, 16: IPV6}.get(fact.get("len")) or (octets(fact["len"]) if "len" in fact else HEX)
    if kind in ("nested", "list"):
        return {"action": ACTIONS, "cake_tin_stats": indexed(table_of("cake_tin_stats"))}.get(fact["table"]) or table_of(fact["table"])
    if kind == "ematches":
        return indexed(EMATCH)
    if kind == "struct":
        return fields_of(fact["struct"])
    if kind == "struct+array":
        return fields_of(fact["struct"], ("keys", array(fields_of(fact["item"]))))
    if kind == "array-struct":
        return array(fields_of(fact["struct"]))
    if kind in ("array", "value-or-empty"):
        return array(number_of(of))
    if kind == "string":
        return TEXT
    if kind == "bitfield32":
        return BITFIELD
    return HANDLE if name in HANDLES else number_of(kind, fact.get("enum"))

def attributes_of(table, *but):
    """The rows of a table."""
    for fact in FACTS["tables"][table]["attrs"]:
        if fact["short"] not in but:
            nested = fact["form"] == "nested" and is_nested(fact.get("flags_seen"), fact.get("kernel_nested_flag"))
            yield fact["num"] | (NESTED if nested else 0), fact["short"], form_of(table, fact)

def table_of(table, layer=None):
    """The list of a table's attributes, which may hold itself: it is made when it is first used."""
    def show(data, kind, depth):
        if (table, layer) not in TABLES:
            TABLES[table, layer] = list_of(*attributes_of(table), layer=layer)
        return TABLES[table, layer].show(data, kind, depth)
    return Form(None, show)

def held(fact, layer):
    """What options or statistics hold. Attributes are within objects of the kind's name."""
    if fact["form"] == "struct":
        return fields_of(fact["struct"])
    if fact["form"] == "struct+attrs":
        return fields_of(fact["struct"], *GAPS.get(fact["struct"], []), ("attributes", table_of(fact["table"])))
    if fact["form"] == "struct-by-length":
        return choice(*[(camel(it[len("tc_sfq_"):]), b"", fields_of(it), FACTS["structs"][it]["size"]) for it in fact["structs"]])
    return table_of(fact["table"], layer)

# The attributes of mqprio begin at a multiple of four bytes.
GAPS = {"tc_mqprio_qopt": [padding(2)]}

def further_options(family):
    """Rows of the options of a family's kinds: word, name, form, kind."""
    for kind, facts in FACTS["kinds"][family].items():
        options, of_class = facts["options"], facts.get("class_options", {"form": "none"})
        if kind == "teql":  # its kind has a number in it
            continue
        layer, nested = camel(kind), NESTED if family == "action" or is_nested(facts.get("flags_seen")) else 0
        if options["form"] == "none":
            form = list_of() if of_class["form"] == "none" else held(of_class, layer)
        elif of_class["form"] != "none" and of_class != options:
            form = choice(("Qdisc", b"", held(options, layer), FACTS["structs"][options["struct"]]["size"]), ("Class", b"", held(of_class, layer)))
        else:
            form = held(options, layer)
        yield 2 | nested, "Options", form, kind

def further_statistics(word, name):
    """Rows of the statistics of qdiscs and their classes, each within an object of the kind's name."""
    for kind, facts in FACTS["kinds"]["qdisc"].items():
        fact = facts["xstats"] if facts["xstats"]["form"] != "none" else facts["class_xstats"]
        if fact["form"] != "none":
            nested = NESTED if kind == "taprio" else 0
            inner = held(fact, None) if fact.get("struct") != "tc_fq_qd_stats" else FQ_STATS
            yield word | nested, name, record((camel(kind), inner)), kind

# ---- The attributes of both messages, and the options of the kinds that the typed codec knows

def rows(first, form, names): return [(first + at, name, form) for at, name in enumerate(names.split())]

FQ_CODEL_STATS = record(("FqCodel", choice(("Qdisc", bytes(4), QDISC), ("Class", b"\1\0\0\0", CLASS))))
# What Linux 6.7 added to fq's statistics is after them, or isn't there.
FQ_STATS = record(
    *each(U64, "gc_flows highprio_packets tcp_retrans throttled flows_plimit pkts_too_long allocation_errors"), ("time_next_delayed_flow", I64),
    *each(U32, "flows inactive_flows throttled_flows unthrottle_latency_ns"), *each(U64, "ce_mark horizon_drops horizon_caps"),
    ("since_6_7", array(record(("fastpath_packets", U64), ("band_drops", array(U64, 3)), ("band_pkt_count", array(U32, 3)), padding(4, "pad")))))

def statistics(word, name):
    return [(word, name, FQ_CODEL_STATS, "fq_codel"), *further_statistics(word, name), (word, name, choice())]

STATS2 = list_of((1, "Basic", BASIC), (3, "Queue", QUEUE), *statistics(4, "App"), (7, "BasicHw", BASIC),
                 *attributes_of("stats", "Basic", "Queue", "App", "BasicHw"))
GENEVE = list_of((1, "Class", BE16), (2, "Type", U8), (3, "Data", HEX))
ERSPAN = list_of((1, "Ver", U8), (2, "Index", BE32), *rows(3, U8, "Dir Hwid"))
VXLAN = list_of((1, "Gbp", U32))
ENC_OPTS = list_of((1 | NESTED, "Geneve", GENEVE), (2 | NESTED, "Vxlan", VXLAN), (3 | NESTED, "Erspan", ERSPAN),
                   (4 | NESTED, "Gtp", list_of(*rows(1, U8, "PduType Qfi"))), (5 | NESTED, "Pfcp", list_of((1, "Type", U8), (2, "Seid", BE64))))
# For this action iproute2 sets the flag of the last two alone.
TUNNEL_OPTS = list_of((1, "Geneve", GENEVE), (2 | NESTED, "Vxlan", VXLAN), (3 | NESTED, "Erspan", ERSPAN))
TYPED_ACTIONS = {
    "mirred": list_of((1, "Tm", TIMES), (2, "Parms", MIRROR), (3, "Pad", FLAG), (4, "Blockid", U32), layer="Mirror"),
    "nat": list_of((1, "Parms", NAT), (2, "Tm", TIMES), (3, "Pad", FLAG), layer="Nat"),
    "tunnel_key": list_of(
        (1, "Tm", TIMES), (2, "Parms", TUNNEL_KEY), *rows(3, IPV4, "EncIpv4Src EncIpv4Dst"), *rows(5, IPV6, "EncIpv6Src EncIpv6Dst"),
        (7, "EncKeyId", BE32), (9, "EncDstPort", BE16), (10, "NoCsum", TRUTH), *rows(12, U8, "EncTos EncTtl"),
        (8, "Pad", FLAG), (11, "EncOpts", TUNNEL_OPTS), (14, "NoFrag", FLAG), layer="TunnelKey"),
}
ACTION = list_with_kinds(
    *[(2 | NESTED, "Options", form, kind) for kind, form in TYPED_ACTIONS.items()], *further_options("action"), (2 | NESTED, "Options", list_of()),
    (3, "Index", U32), (4, "Stats", STATS2), (6, "Cookie", HEX), (10, "InHwCount", U32),
    *attributes_of("action", "Kind", "Options", "Index", "Stats", "Cookie", "InHwCount"), own=True)
ACTIONS = indexed(ACTION)

def ematch(match): return record(("flags", U16), padding(2), *match)
EMATCH = choice(*((name, b"\0\0" + bytes([number, 0]), ematch(match)) for number, name, *match in [
    (0, "Container", ("first", U32)), (1, "Cmp", ("match", fields_of("tcf_em_cmp"))), (2, "Nbyte", ("match", fields_of("tcf_em_nbyte")), ("needle", HEX)),
    (3, "U32", ("match", KEY)), (4, "Meta", ("attributes", table_of("em_meta"))), (5, "Text", ("match", fields_of("tcf_em_text")), ("pattern", HEX)),
    (7, "Canid", ("match", array(fields_of("can_filter")))), (8, "Ipset", ("match", fields_of("xt_set_info"))),
    (9, "Ipt", ("attributes", table_of("em_ipt")))]))

LSE = list_of(*rows(1, U8, "LseDepth LseTtl LseBos LseTc"), (5, "LseLabel", U32))
FLOWER = list_of(
    (1, "ClassId", HANDLE), (2, "InDev", TEXT), (3, "Actions", ACTIONS), *rows(4, MAC, "EthDst EthDstMask EthSrc EthSrcMask"),
    (8, "EthType", BE16), (9, "IpProto", U8), *rows(10, IPV4, "Ipv4Src Ipv4SrcMask Ipv4Dst Ipv4DstMask"),
    *rows(14, IPV6, "Ipv6Src Ipv6SrcMask Ipv6Dst Ipv6DstMask"),
    *rows(18, BE16, "TcpSrc TcpDst UdpSrc UdpDst"), (22, "Flags", U32), (23, "VlanId", U16), (24, "VlanPrio", U8), (25, "VlanEthType", BE16),
    (26, "EncKeyId", BE32), *rows(27, IPV4, "EncKeyIpv4Src EncKeyIpv4SrcMask EncKeyIpv4Dst EncKeyIpv4DstMask"),
    *rows(31, IPV6, "EncKeyIpv6Src EncKeyIpv6SrcMask EncKeyIpv6Dst EncKeyIpv6DstMask"),
    *rows(35, BE16, "TcpSrcMask TcpDstMask UdpSrcMask UdpDstMask SctpSrcMask SctpDstMask SctpSrc SctpDst EncKeyUdpSrcPort EncKeyUdpSrcPortMask"
                    " EncKeyUdpDstPort EncKeyUdpDstPortMask"),
    *rows(47, BE32, "KeyFlags KeyFlagsMask"),
    *rows(49, U8, "Icmpv4Code Icmpv4CodeMask Icmpv4Type Icmpv4TypeMask Icmpv6Code Icmpv6CodeMask Icmpv6Type Icmpv6TypeMask"),
    *rows(57, IPV4, "ArpSip ArpSipMask ArpTip ArpTipMask"), *rows(61, U8, "ArpOp ArpOpMask"), *rows(63, MAC, "ArpSha ArpShaMask ArpTha ArpThaMask"),
    *rows(67, U8, "MplsTtl MplsBos MplsTc"), (70, "MplsLabel", U32), *rows(71, BE16, "TcpFlags TcpFlagsMask"),
    *rows(73, U8, "IpTos IpTosMask IpTtl IpTtlMask"), (77, "CvlanId", U16), (78, "CvlanPrio", U8), (79, "CvlanEthType", BE16),
    *rows(80, U8, "EncKeyIpTos EncKeyIpTosMask EncKeyIpTtl EncKeyIpTtlMask"), (86, "InHwCount", U32),
    *rows(87, BE16, "PortSrcMin PortSrcMax PortDstMin PortDstMax"), *rows(91, U16, "CtState CtStateMask CtZone CtZoneMask"),
    *rows(95, U32, "CtMark CtMarkMask"), *rows(97, octets(16), "CtLabels CtLabelsMask"),
    (99 | NESTED, "MplsOpts", list_of((1 | NESTED, "Lse", LSE))), *rows(100, U32, "KeyHash KeyHashMask"),
    (84 | NESTED, "EncOpts", ENC_OPTS), (85 | NESTED, "EncOptsMask", ENC_OPTS), (102, "NumOfVlans", U8), *rows(103, BE16, "PppoeSid PppProto"),
    (105, "L2tpv3Sid", BE32), (106, "L2Miss", U8), (107 | NESTED, "Cfm", list_of(*rows(1, U8, "MdLevel Opcode"))),
    *rows(108, BE32, "Spi SpiMask EncFlags EncFlagsMask"), layer="Flower")
OPTIONS = {
    "fq_codel": list_of(*rows(1, U32, "Target Limit Interval Ecn Flows Quantum CeThreshold DropBatchSize MemoryLimit"),
                        *rows(10, U8, "CeThresholdSelector CeThresholdMask"), layer="FqCodel"),
    "ingress": list_of(layer="Ingress"),
    "flower": FLOWER,
    "u32": list_of((1, "ClassId", HANDLE), *rows(2, U32, "Hash Link Divisor"), (5, "Selector", SELECTOR), (6, "Police", table_of("police")),
                   (7, "Action", ACTIONS), (8, "Indev", TEXT), (9, "Pnct", record(*each(U64, "rcnt rhit"), ("kcnts", array(U64)))),
                   (10, "Mark", record(*each(U32, "val mask success"))), (11, "Flags", U32), (12, "Pad", FLAG), layer="U32"),
    "matchall": list_of((1, "ClassId", HANDLE), (2, "Action", ACTIONS), (3, "Flags", U32), (4, "Pnct", record(("rhit", U64))), (5, "Pad", FLAG),
                        layer="MatchAll"),
    "bpf": list_of((1, "Act", ACTIONS), (2, "Police", table_of("police")), (3, "ClassId", HANDLE), (4, "OpsLen", U16),
                   (5, "Ops", array(fields_of("sock_filter"))), (6, "ProgFd", U32), (7, "ProgName", TEXT), *rows(8, U32, "Flags FlagsGeneric"),
                   (10, "ProgTag", octets(8)), (11, "ProgId", U32), layer="Bpf"),
}
TC = record(
    ("header", record(("family", FAMILY), padding(3), ("index", I32), *each(HANDLE, "handle parent"), ("info", U32))),
    ("attributes", list_with_kinds(
        *[(2, "Options", form, kind) for kind, form in OPTIONS.items()], *further_options("qdisc"), *further_options("filter"), (2, "OptionsRaw", HEX),
        (3, "Stats", STATS), *statistics(4, "Xstats"), (7, "Stats2", STATS2), (10, "DumpInvisible", FLAG), (11, "Chain", U32), (12, "HwOffload", U8),
        *attributes_of("root", *"Kind Options Stats Xstats Stats2 DumpInvisible Chain HwOffload".split()))))
ACTION_MESSAGE = record(
    ("header", record(("family", FAMILY), padding(3))),
    ("attributes", list_of((1, "Actions", ACTIONS), (2, "Flags", record(*each(U32, "flags selector"))), *rows(3, U32, "RootCount RootTimeDelta"),
                           (5, "RootExtWarnMsg", BARE))))

def shown(mode, data):
    """What is shown of a message; a mode is tc or action."""
    return (TC if mode == "tc" else ACTION_MESSAGE)(data, "", DEEPEST)
