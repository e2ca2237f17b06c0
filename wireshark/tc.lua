-- Linux traffic control in route netlink, for Wireshark and tshark: README.md. Written by `kinds/wireshark` from the tables below `kinds/`,
-- and from text.lua, forms.lua, lines.lua, messages.lua. MIT licence.

local NAMES = {
  attribute_type = {[0] = "invalid", [1] = "flag", [2] = "u8", [3] = "u16", [4] = "u32", [5] = "u64", [6] = "s8", [7] = "s16", [8] = "s32", [9] = "s64", [10] = "binary", [11] = "string", [12] = "nul_string", [13] = "nested", [14] = "nested_array", [15] = "bitfield32", [16] = "sint", [17] = "uint"},
  nat_direction = {[0] = "ingress", [1] = "egress"},
  packet_type = {[0] = "host", [1] = "broadcast", [2] = "multicast", [3] = "otherhost"},
  tunnel_key_act = {[1] = "set", [2] = "release"},
  em_align = {[1] = "u8", [2] = "u16", [4] = "u32", [17] = "u8_trans", [18] = "u16_trans", [20] = "u32_trans"},
  em_layer_opnd = {[0] = "link_eq", [1] = "network_eq", [2] = "transport_eq", [16] = "link_gt", [17] = "network_gt", [18] = "transport_gt", [32] = "link_lt", [33] = "network_lt", [34] = "transport_lt"},
  arp_op = {[1] = "request", [2] = "reply"},
  clockid = {[0] = "REALTIME", [1] = "MONOTONIC", [7] = "BOOTTIME", [11] = "TAI"},
  eth_p = {[1] = "802_3", [3] = "all", [4] = "802_2", [5] = "snap", [12] = "can", [96] = "loop", [2048] = "ip", [2054] = "arp", [25944] = "teb", [32821] = "rarp", [32923] = "atalk", [33024] = "802.1Q", [33079] = "ipx", [34525] = "ipv6", [34887] = "mpls_uc", [34888] = "mpls_mc", [34915] = "ppp_disc", [34916] = "ppp_ses", [34978] = "aoe", [34984] = "802.1ad", [35018] = "tipc"},
  ip_proto = {[1] = "icmp", [2] = "igmp", [4] = "ipencap", [6] = "tcp", [17] = "udp", [33] = "dccp", [41] = "ipv6", [46] = "rsvp", [47] = "gre", [50] = "esp", [51] = "ah", [58] = "icmpv6", [103] = "pim", [115] = "l2tp", [132] = "sctp", [136] = "udplite"},
}
local ENUMS = {
  tc_act = {[-1] = "unspec", [0] = "ok", [1] = "reclassify", [2] = "shot", [3] = "pipe", [4] = "stolen", [5] = "queued", [6] = "repeat", [7] = "redirect", [8] = "trap"},
  pgact = {[0] = "none", [1] = "netrand", [2] = "determ"},
  tca_mirred = {[1] = "egress_redir", [2] = "egress_mirror", [3] = "ingress_redir", [4] = "ingress_mirror"},
  tca_mpls_act = {[1] = "pop", [2] = "push", [3] = "modify", [4] = "dec_ttl", [5] = "mac_push"},
  pedit_header_type = {[0] = "network", [1] = "eth", [2] = "ip4", [3] = "ip6", [4] = "tcp", [5] = "udp"},
  pedit_cmd = {[0] = "set", [1] = "add"},
  tca_vlan_act = {[1] = "pop", [2] = "push", [3] = "modify", [4] = "pop_eth", [5] = "push_eth"},
  tcf_em_opnd = {[0] = "eq", [1] = "gt", [2] = "lt"},
  flow_mode = {[0] = "map", [1] = "hash"},
  address_family = {[0] = "unspec", [1] = "unix", [2] = "inet", [7] = "bridge", [10] = "inet6", [16] = "netlink", [17] = "packet", [28] = "mpls"},
  cake_diffserv = {[0] = "diffserv3", [1] = "diffserv4", [2] = "diffserv8", [3] = "besteffort", [4] = "precedence"},
  cake_atm = {[0] = "none", [1] = "atm", [2] = "ptm"},
  cake_flow = {[0] = "none", [1] = "src_ip", [2] = "dst_ip", [3] = "hosts", [4] = "flows", [5] = "dual_src", [6] = "dual_dst", [7] = "triple"},
  cake_ack = {[0] = "none", [1] = "filter", [2] = "aggressive"},
  dualpi2_drop_overload = {[0] = "overflow", [1] = "drop"},
  dualpi2_drop_early = {[0] = "drop_dequeue", [1] = "drop_enqueue"},
  dualpi2_ecn_mask = {[1] = "l4s_ect", [2] = "cla_ect", [3] = "any_ect"},
  dualpi2_split_gso = {[0] = "no_split_gso", [1] = "split_gso"},
  tc_mqprio_mode = {[0] = "dcb", [1] = "channel"},
  tc_mqprio_shaper = {[0] = "dcb", [1] = "bw_rate"},
  tcq_plug = {[0] = "buffer", [1] = "release_one", [2] = "release_indefinite", [3] = "limit"},
  tc_taprio_cmd = {[0] = "set_gates", [1] = "set_and_hold", [2] = "set_and_release"},
  tc_linklayer = {[0] = "unaware", [1] = "ethernet", [2] = "atm"},
  tc_fp = {[1] = "express", [2] = "preemptible"},
}
local BITS = {
  tca_act_flags = {{1, "no_percpu_stats"}, {2, "skip_hw"}, {4, "skip_sw"}},
  tca_act_hw_stats = {{1, "immediate"}, {2, "delayed"}},
  tca_csum_update_flag = {{1, "ipv4hdr"}, {2, "icmp"}, {4, "igmp"}, {8, "tcp"}, {16, "udp"}, {32, "udplite"}, {64, "sctp"}},
  tca_ct_act = {{1, "commit"}, {2, "force"}, {4, "clear"}, {8, "nat"}, {16, "nat_src"}, {32, "nat_dst"}},
  ife = {{1, "encode"}},
  tca_nat_flag = {{1, "egress"}},
  skbedit_f = {{1, "priority"}, {2, "queue_mapping"}, {4, "mark"}, {8, "ptype"}, {16, "mask"}, {32, "inheritdsfield"}, {64, "txq_skbhash"}},
  skbmod_f = {{1, "dmac"}, {2, "smac"}, {4, "etype"}, {8, "swapmac"}, {16, "ecn"}},
  tcf_em = {{1, "and"}, {2, "or"}, {4, "invert"}, {8, "simple"}},
  tca_bpf_flag = {{1, "act_direct"}},
  flow_key = {{1, "src"}, {2, "dst"}, {4, "proto"}, {8, "proto_src"}, {16, "proto_dst"}, {32, "iif"}, {64, "priority"}, {128, "mark"}, {256, "nfct"}, {512, "nfct_src"}, {1024, "nfct_dst"}, {2048, "nfct_proto_src"}, {4096, "nfct_proto_dst"}, {8192, "rtclassid"}, {16384, "skuid"}, {32768, "skgid"}, {65536, "vlan_tag"}, {131072, "rxhash"}},
  flower_key_flags = {{1, "is_fragment"}, {2, "frag_is_first"}, {4, "tunnel_csum"}, {8, "tunnel_dont_fragment"}, {16, "tunnel_oam"}, {32, "tunnel_crit_opt"}},
  flower_ct_flags = {{1, "new"}, {2, "established"}, {4, "related"}, {8, "tracked"}, {16, "invalid"}, {32, "reply"}},
  tcp_flags = {{1, "fin"}, {2, "syn"}, {4, "rst"}, {8, "psh"}, {16, "ack"}, {32, "urg"}, {64, "ece"}, {128, "cwr"}},
  tc_u32 = {{1, "terminal"}, {2, "offset"}, {4, "var_offset"}, {8, "eat"}},
  tca_cls_flags = {{1, "skip_hw"}, {2, "skip_sw"}, {4, "in_hw"}, {8, "not_in_hw"}, {16, "verbose"}},
  tca_dump_flags = {{1, "terse"}},
  tca_act_flag = {{1, "large_dump_on"}, {2, "terse_dump"}},
  tcf_cbq_lss_change = {{1, "flags"}, {2, "ewma"}, {4, "maxidle"}, {8, "minidle"}, {16, "offtime"}, {32, "avpkt"}},
  tcf_cbq_lss_flags = {{1, "bounded"}, {2, "isolated"}},
  tc_etf = {{1, "deadline_mode_on"}, {2, "offload_on"}, {4, "skip_sock_check"}},
  tc_red = {{1, "ecn"}, {2, "harddrop"}, {4, "adaptative"}, {8, "nodrop"}},
  taprio_flag = {{1, "txtime_assist"}, {2, "full_offload"}},
}
NAMES.errno = {[1] = "EPERM", [2] = "ENOENT", [3] = "ESRCH", [4] = "EINTR", [5] = "EIO", [6] = "ENXIO", [7] = "E2BIG", [8] = "ENOEXEC", [9] = "EBADF", [10] = "ECHILD", [11] = "EAGAIN", [12] = "ENOMEM", [13] = "EACCES", [14] = "EFAULT", [15] = "ENOTBLK", [16] = "EBUSY", [17] = "EEXIST", [18] = "EXDEV", [19] = "ENODEV", [20] = "ENOTDIR", [21] = "EISDIR", [22] = "EINVAL", [23] = "ENFILE", [24] = "EMFILE", [25] = "ENOTTY", [26] = "ETXTBSY", [27] = "EFBIG", [28] = "ENOSPC", [29] = "ESPIPE", [30] = "EROFS", [31] = "EMLINK", [32] = "EPIPE", [33] = "EDOM", [34] = "ERANGE", [35] = "EDEADLK", [36] = "ENAMETOOLONG", [37] = "ENOLCK", [38] = "ENOSYS", [39] = "ENOTEMPTY", [40] = "ELOOP", [42] = "ENOMSG", [43] = "EIDRM", [44] = "ECHRNG", [45] = "EL2NSYNC", [46] = "EL3HLT", [47] = "EL3RST", [48] = "ELNRNG", [49] = "EUNATCH", [50] = "ENOCSI", [51] = "EL2HLT", [52] = "EBADE", [53] = "EBADR", [54] = "EXFULL", [55] = "ENOANO", [56] = "EBADRQC", [57] = "EBADSLT", [59] = "EBFONT", [60] = "ENOSTR", [61] = "ENODATA", [62] = "ETIME", [63] = "ENOSR", [64] = "ENONET", [65] = "ENOPKG", [66] = "EREMOTE", [67] = "ENOLINK", [68] = "EADV", [69] = "ESRMNT", [70] = "ECOMM", [71] = "EPROTO", [72] = "EMULTIHOP", [73] = "EDOTDOT", [74] = "EBADMSG", [75] = "EOVERFLOW", [76] = "ENOTUNIQ", [77] = "EBADFD", [78] = "EREMCHG", [79] = "ELIBACC", [80] = "ELIBBAD", [81] = "ELIBSCN", [82] = "ELIBMAX", [83] = "ELIBEXEC", [84] = "EILSEQ", [85] = "ERESTART", [86] = "ESTRPIPE", [87] = "EUSERS", [88] = "ENOTSOCK", [89] = "EDESTADDRREQ", [90] = "EMSGSIZE", [91] = "EPROTOTYPE", [92] = "ENOPROTOOPT", [93] = "EPROTONOSUPPORT", [94] = "ESOCKTNOSUPPORT", [95] = "EOPNOTSUPP", [96] = "EPFNOSUPPORT", [97] = "EAFNOSUPPORT", [98] = "EADDRINUSE", [99] = "EADDRNOTAVAIL", [100] = "ENETDOWN", [101] = "ENETUNREACH", [102] = "ENETRESET", [103] = "ECONNABORTED", [104] = "ECONNRESET", [105] = "ENOBUFS", [106] = "EISCONN", [107] = "ENOTCONN", [108] = "ESHUTDOWN", [109] = "ETOOMANYREFS", [110] = "ETIMEDOUT", [111] = "ECONNREFUSED", [112] = "EHOSTDOWN", [113] = "EHOSTUNREACH", [114] = "EALREADY", [115] = "EINPROGRESS", [116] = "ESTALE", [117] = "EUCLEAN", [118] = "ENOTNAM", [119] = "ENAVAIL", [120] = "EISNAM", [121] = "EREMOTEIO", [122] = "EDQUOT", [123] = "ENOMEDIUM", [124] = "EMEDIUMTYPE", [125] = "ECANCELED", [126] = "ENOKEY", [127] = "EKEYEXPIRED", [128] = "EKEYREVOKED", [129] = "EKEYREJECTED", [130] = "EOWNERDEAD", [131] = "ENOTRECOVERABLE", [132] = "ERFKILL", [133] = "EHWPOISON", [524] = "ENOTSUPP"}
NAMES.message_type = {[36] = "RTM_NEWQDISC", [37] = "RTM_DELQDISC", [38] = "RTM_GETQDISC", [40] = "RTM_NEWTCLASS", [41] = "RTM_DELTCLASS", [42] = "RTM_GETTCLASS", [44] = "RTM_NEWTFILTER", [45] = "RTM_DELTFILTER", [46] = "RTM_GETTFILTER", [48] = "RTM_NEWACTION", [49] = "RTM_DELACTION", [50] = "RTM_GETACTION", [100] = "RTM_NEWCHAIN", [101] = "RTM_DELCHAIN", [102] = "RTM_GETCHAIN", [2] = "NLMSG_ERROR"}
local TYPES = {[36] = "RTM_NEWQDISC", [37] = "RTM_DELQDISC", [38] = "RTM_GETQDISC", [40] = "RTM_NEWTCLASS", [41] = "RTM_DELTCLASS", [42] = "RTM_GETTCLASS", [44] = "RTM_NEWTFILTER", [45] = "RTM_DELTFILTER", [46] = "RTM_GETTFILTER", [48] = "RTM_NEWACTION", [49] = "RTM_DELACTION", [50] = "RTM_GETACTION", [100] = "RTM_NEWCHAIN", [101] = "RTM_DELCHAIN", [102] = "RTM_GETCHAIN"}
local LISTS = {
  extack = {
    [1] = {"NLMSGERR_ATTR_MSG", {"text", "tc.extack.message", "Message", key="Message"}},
    [2] = {"NLMSGERR_ATTR_OFFS", {"u32", "tc.extack.offset", "Offset", key="Offset"}},
    [3] = {"NLMSGERR_ATTR_COOKIE", {"hex", "tc.extack.cookie", "Cookie", key="Cookie", s="Bytes"}},
    [4] = {"NLMSGERR_ATTR_POLICY", {"list", "tc.extack.policy", "Policy", key="Policy", list="extack_policy", nested=true}},
    [5] = {"NLMSGERR_ATTR_MISS_TYPE", {"u32", "tc.extack.miss_type", "Miss type", key="MissType"}},
    [6] = {"NLMSGERR_ATTR_MISS_NEST", {"u32", "tc.extack.miss_nest", "Miss nest", key="MissNest"}},
  },
  extack_policy = {
    [1] = {"NL_POLICY_TYPE_ATTR_TYPE", {"u32", "tc.extack_policy.type", "Type", names="attribute_type", key="Type"}},
    [2] = {"NL_POLICY_TYPE_ATTR_MIN_VALUE_S", {"s64", "tc.extack_policy.min_value_s", "Min value s", key="MinValueS"}},
    [3] = {"NL_POLICY_TYPE_ATTR_MAX_VALUE_S", {"s64", "tc.extack_policy.max_value_s", "Max value s", key="MaxValueS"}},
    [4] = {"NL_POLICY_TYPE_ATTR_MIN_VALUE_U", {"u64", "tc.extack_policy.min_value_u", "Min value u", key="MinValueU"}},
    [5] = {"NL_POLICY_TYPE_ATTR_MAX_VALUE_U", {"u64", "tc.extack_policy.max_value_u", "Max value u", key="MaxValueU"}},
    [6] = {"NL_POLICY_TYPE_ATTR_MIN_LENGTH", {"u32", "tc.extack_policy.min_length", "Min length", unit="bytes", key="MinLength"}},
    [7] = {"NL_POLICY_TYPE_ATTR_MAX_LENGTH", {"u32", "tc.extack_policy.max_length", "Max length", unit="bytes", key="MaxLength"}},
    [8] = {"NL_POLICY_TYPE_ATTR_POLICY_IDX", {"u32", "tc.extack_policy.policy_idx", "Policy idx", key="PolicyIdx"}},
    [9] = {"NL_POLICY_TYPE_ATTR_POLICY_MAXTYPE", {"u32", "tc.extack_policy.policy_maxtype", "Policy maxtype", key="PolicyMaxtype"}},
    [10] = {"NL_POLICY_TYPE_ATTR_BITFIELD32_MASK", {"u32", "tc.extack_policy.bitfield32_mask", "Bitfield32 mask", unit="hex", key="Bitfield32Mask"}},
    [11] = {"NL_POLICY_TYPE_ATTR_PAD", {"flag", "tc.extack_policy.pad", "Pad", key="Pad"}},
    [12] = {"NL_POLICY_TYPE_ATTR_MASK", {"u64", "tc.extack_policy.mask", "Mask", unit="hex", key="Mask"}},
  },
  action = {
    [1] = {"TCA_ACT_KIND", {"kind", "tc.action.kind", "Kind", key="Kind", s="Alone"}},
    [2] = {"TCA_ACT_OPTIONS", {"by", "tc.action.options", "Options", which="options", kinds="action", other={"list", "tc.action.options", "Options", key="Options", s="Flat", list="unknown", nested=true}, key="Options", s="Flat"}},
    [3] = {"TCA_ACT_INDEX", {"u32", "tc.action.index", "Index", key="Index", w="index"}},
    [4] = {"TCA_ACT_STATS", {"list", "tc.action.stats", "Stats", key="Stats", s="Statistics", list="stats"}},
    [5] = {"TCA_ACT_PAD", {"flag", "tc.action.pad", "Pad", key="Pad", left=-1}},
    [6] = {"TCA_ACT_COOKIE", {"hex", "tc.action.cookie", "Cookie", key="Cookie", w="cookie", s="Control"}},
    [7] = {"TCA_ACT_FLAGS", {"struct", "tc.action.flags", "Flags", key="Flags", s="Flat", width=8, least=8, parts={{"u32", "tc.action.flags.value", "Value", key="value", s="Bits", left=0, bits="tca_act_flags"}, {"u32", "tc.action.flags.selector", "Selector", key="selector", bits="tca_act_flags"}}}},
    [8] = {"TCA_ACT_HW_STATS", {"struct", "tc.action.hw_stats", "HW stats", key="HwStats", w="hw_stats", width=8, least=8, parts={{"u32", "tc.action.hw_stats.value", "Value", key="value", w="used_hw_stats", bits="tca_act_hw_stats"}, {"u32", "tc.action.hw_stats.selector", "Selector", key="selector", left=3, bits="tca_act_hw_stats"}}}},
    [9] = {"TCA_ACT_USED_HW_STATS", {"struct", "tc.action.used_hw_stats", "Used HW stats", key="UsedHwStats", s="Statistics", width=8, least=8, parts={{"u32", "tc.action.used_hw_stats.value", "Value", key="value", w="used_hw_stats", bits="tca_act_hw_stats"}, {"u32", "tc.action.used_hw_stats.selector", "Selector", key="selector", left=3, bits="tca_act_hw_stats"}}}},
    [10] = {"TCA_ACT_IN_HW_COUNT", {"u32", "tc.action.in_hw_count", "In HW count", key="InHwCount", w="in_hw_count", s="Statistics", left=0}},
  },
  unknown = {
  },
  act_bpf = {
    [1] = {"TCA_ACT_BPF_TM", {"struct", "tc.act_bpf.tm", "Tm", key="Tm", s="Statistics", width=32, least=32, parts={{"u64", "tc.act_bpf.tm.install", "Install", unit="clock_t", key="install", w="installed", left=0}, {"u64", "tc.act_bpf.tm.lastuse", "Lastuse", unit="clock_t", key="lastuse", w="used", left=0}, {"u64", "tc.act_bpf.tm.expires", "Expires", unit="clock_t", key="expires", w="expires", left=0}, {"u64", "tc.act_bpf.tm.firstuse", "Firstuse", unit="clock_t", key="firstuse", w="firstused", left=0}}}},
    [2] = {"TCA_ACT_BPF_PARMS", {"struct", "tc.act_bpf.parms", "Parms", key="Parms", s="Flat", width=20, least=20, parts={{"struct", false, "Generic", key="generic", s="Flat", width=20, least=20, parts={{"u32", "tc.act_bpf.parms.index", "Index", key="index", w="index", s="Control"}, {"u32", "tc.act_bpf.parms.capab", "Capab", key="capab", left=0}, {"s32", "tc.act_bpf.parms.action", "Action", key="action", s="Control", enum="tc_act"}, {"s32", "tc.act_bpf.parms.refcnt", "Refcnt", key="refcnt", w="ref", s="Statistics", left=0}, {"s32", "tc.act_bpf.parms.bindcnt", "Bindcnt", key="bindcnt", w="bind", s="Statistics", left=0}}}}}},
    [3] = {"TCA_ACT_BPF_OPS_LEN", {"u16", "tc.act_bpf.ops_len", "Ops len", key="OpsLen"}},
    [4] = {"TCA_ACT_BPF_OPS", {"array", false, "Ops", key="Ops", w="bytecode", inner={"struct", "tc.act_bpf.ops", "Op", width=8, least=8, parts={{"u16", "tc.act_bpf.ops.code", "Code", unit="hex", key="code"}, {"u8", "tc.act_bpf.ops.jt", "Jt", key="jt"}, {"u8", "tc.act_bpf.ops.jf", "Jf", key="jf"}, {"u32", "tc.act_bpf.ops.k", "K", unit="hex", key="k"}}}}},
    [5] = {"TCA_ACT_BPF_FD", {"u32", "tc.act_bpf.fd", "FD", key="Fd"}},
    [6] = {"TCA_ACT_BPF_NAME", {"text", "tc.act_bpf.name", "Name", key="Name"}},
    [7] = {"TCA_ACT_BPF_PAD", {"flag", "tc.act_bpf.pad", "Pad", key="Pad", left=-1}},
    [8] = {"TCA_ACT_BPF_TAG", {"bytes", "tc.act_bpf.tag", "Tag", key="Tag", w="tag", width=8}},
    [9] = {"TCA_ACT_BPF_ID", {"u32", "tc.act_bpf.id", "ID", key="Id", w="id"}},
  },
  connmark = {
    [1] = {"TCA_CONNMARK_PARMS", {"struct", "tc.connmark.parms", "Parms", key="Parms", s="Flat", width=24, least=24, parts={{"struct", false, "Generic", key="generic", s="Flat", width=20, least=20, parts={{"u32", "tc.connmark.parms.index", "Index", key="index", w="index", s="Control"}, {"u32", "tc.connmark.parms.capab", "Capab", key="capab", left=0}, {"s32", "tc.connmark.parms.action", "Action", key="action", s="Control", enum="tc_act"}, {"s32", "tc.connmark.parms.refcnt", "Refcnt", key="refcnt", w="ref", s="Statistics", left=0}, {"s32", "tc.connmark.parms.bindcnt", "Bindcnt", key="bindcnt", w="bind", s="Statistics", left=0}}}, {"u16", "tc.connmark.parms.zone", "Zone", key="zone", w="zone"}, {"pad", "tc.connmark.parms.padding", "Padding", key="padding", width=2}}}},
    [2] = {"TCA_CONNMARK_TM", {"struct", "tc.connmark.tm", "Tm", key="Tm", s="Statistics", width=32, least=32, parts={{"u64", "tc.connmark.tm.install", "Install", unit="clock_t", key="install", w="installed", left=0}, {"u64", "tc.connmark.tm.lastuse", "Lastuse", unit="clock_t", key="lastuse", w="used", left=0}, {"u64", "tc.connmark.tm.expires", "Expires", unit="clock_t", key="expires", w="expires", left=0}, {"u64", "tc.connmark.tm.firstuse", "Firstuse", unit="clock_t", key="firstuse", w="firstused", left=0}}}},
    [3] = {"TCA_CONNMARK_PAD", {"flag", "tc.connmark.pad", "Pad", key="Pad", left=-1}},
  },
  csum = {
    [1] = {"TCA_CSUM_PARMS", {"struct", "tc.csum.parms", "Parms", key="Parms", s="Flat", width=24, least=24, parts={{"struct", false, "Generic", key="generic", s="Flat", width=20, least=20, parts={{"u32", "tc.csum.parms.index", "Index", key="index", w="index", s="Control"}, {"u32", "tc.csum.parms.capab", "Capab", key="capab", left=0}, {"s32", "tc.csum.parms.action", "Action", key="action", s="Control", enum="tc_act"}, {"s32", "tc.csum.parms.refcnt", "Refcnt", key="refcnt", w="ref", s="Statistics", left=0}, {"s32", "tc.csum.parms.bindcnt", "Bindcnt", key="bindcnt", w="bind", s="Statistics", left=0}}}, {"u32", "tc.csum.parms.update_flags", "Update flags", key="update_flags", s="Bits", left=0, bits="tca_csum_update_flag"}}}},
    [2] = {"TCA_CSUM_TM", {"struct", "tc.csum.tm", "Tm", key="Tm", s="Statistics", width=32, least=32, parts={{"u64", "tc.csum.tm.install", "Install", unit="clock_t", key="install", w="installed", left=0}, {"u64", "tc.csum.tm.lastuse", "Lastuse", unit="clock_t", key="lastuse", w="used", left=0}, {"u64", "tc.csum.tm.expires", "Expires", unit="clock_t", key="expires", w="expires", left=0}, {"u64", "tc.csum.tm.firstuse", "Firstuse", unit="clock_t", key="firstuse", w="firstused", left=0}}}},
    [3] = {"TCA_CSUM_PAD", {"flag", "tc.csum.pad", "Pad", key="Pad", left=-1}},
  },
  ct = {
    [1] = {"TCA_CT_PARMS", {"struct", "tc.ct.parms", "Parms", key="Parms", s="Flat", width=20, least=20, parts={{"struct", false, "Generic", key="generic", s="Flat", width=20, least=20, parts={{"u32", "tc.ct.parms.index", "Index", key="index", w="index", s="Control"}, {"u32", "tc.ct.parms.capab", "Capab", key="capab", left=0}, {"s32", "tc.ct.parms.action", "Action", key="action", s="Control", enum="tc_act"}, {"s32", "tc.ct.parms.refcnt", "Refcnt", key="refcnt", w="ref", s="Statistics", left=0}, {"s32", "tc.ct.parms.bindcnt", "Bindcnt", key="bindcnt", w="bind", s="Statistics", left=0}}}}}},
    [2] = {"TCA_CT_TM", {"struct", "tc.ct.tm", "Tm", key="Tm", s="Statistics", width=32, least=32, parts={{"u64", "tc.ct.tm.install", "Install", unit="clock_t", key="install", w="installed", left=0}, {"u64", "tc.ct.tm.lastuse", "Lastuse", unit="clock_t", key="lastuse", w="used", left=0}, {"u64", "tc.ct.tm.expires", "Expires", unit="clock_t", key="expires", w="expires", left=0}, {"u64", "tc.ct.tm.firstuse", "Firstuse", unit="clock_t", key="firstuse", w="firstused", left=0}}}},
    [3] = {"TCA_CT_ACTION", {"u16", "tc.ct.action", "Action", key="Action", s="Bits", left=0, bits="tca_ct_act"}},
    [4] = {"TCA_CT_ZONE", {"u16", "tc.ct.zone", "Zone", key="Zone", w="zone"}},
    [5] = {"TCA_CT_MARK", {"u32", "tc.ct.mark", "Mark", unit="hex", key="Mark", w="mark", s="Mask", a="MarkMask"}},
    [6] = {"TCA_CT_MARK_MASK", {"u32", "tc.ct.mark_mask", "Mark mask", unit="hex", key="MarkMask", left=4294967295}},
    [7] = {"TCA_CT_LABELS", {"hex", "tc.ct.labels", "Labels", key="Labels", w="label", s="Mask", a="LabelsMask"}},
    [8] = {"TCA_CT_LABELS_MASK", {"hex", "tc.ct.labels_mask", "Labels mask", key="LabelsMask"}},
    [9] = {"TCA_CT_NAT_IPV4_MIN", {"ipv4", "tc.ct.nat_ipv4_min", "NAT IPv4", key="NatIpv4Min", w="addr", s="Range", a="NatIpv4Max"}},
    [10] = {"TCA_CT_NAT_IPV4_MAX", {"ipv4", "tc.ct.nat_ipv4_max", "NAT IPv4 max", upto="tc.ct.nat_ipv4_min", key="NatIpv4Max"}},
    [11] = {"TCA_CT_NAT_IPV6_MIN", {"ipv6", "tc.ct.nat_ipv6_min", "NAT IPv6", key="NatIpv6Min", w="addr", s="Range", a="NatIpv6Max"}},
    [12] = {"TCA_CT_NAT_IPV6_MAX", {"ipv6", "tc.ct.nat_ipv6_max", "NAT IPv6 max", upto="tc.ct.nat_ipv6_min", key="NatIpv6Max"}},
    [13] = {"TCA_CT_NAT_PORT_MIN", {"be16", "tc.ct.nat_port_min", "NAT ports", key="NatPortMin", w="port", s="Range", a="NatPortMax"}},
    [14] = {"TCA_CT_NAT_PORT_MAX", {"be16", "tc.ct.nat_port_max", "NAT port max", upto="tc.ct.nat_port_min", key="NatPortMax"}},
    [15] = {"TCA_CT_PAD", {"flag", "tc.ct.pad", "Pad", key="Pad", left=-1}},
    [16] = {"TCA_CT_HELPER_NAME", {"text", "tc.ct.helper_name", "Helper name", key="HelperName", w="helper"}},
    [17] = {"TCA_CT_HELPER_FAMILY", {"u8", "tc.ct.helper_family", "Helper family", key="HelperFamily"}},
    [18] = {"TCA_CT_HELPER_PROTO", {"u8", "tc.ct.helper_proto", "Helper proto", names="ip_proto", key="HelperProto"}},
  },
  ctinfo = {
    [1] = {"TCA_CTINFO_PAD", {"flag", "tc.ctinfo.pad", "Pad", key="Pad", left=-1}},
    [2] = {"TCA_CTINFO_TM", {"struct", "tc.ctinfo.tm", "Tm", key="Tm", s="Statistics", width=32, least=32, parts={{"u64", "tc.ctinfo.tm.install", "Install", unit="clock_t", key="install", w="installed", left=0}, {"u64", "tc.ctinfo.tm.lastuse", "Lastuse", unit="clock_t", key="lastuse", w="used", left=0}, {"u64", "tc.ctinfo.tm.expires", "Expires", unit="clock_t", key="expires", w="expires", left=0}, {"u64", "tc.ctinfo.tm.firstuse", "Firstuse", unit="clock_t", key="firstuse", w="firstused", left=0}}}},
    [3] = {"TCA_CTINFO_ACT", {"struct", "tc.ctinfo.action", "Action", key="Action", s="Flat", width=20, least=20, parts={{"struct", false, "Generic", key="generic", s="Flat", width=20, least=20, parts={{"u32", "tc.ctinfo.action.index", "Index", key="index", w="index", s="Control"}, {"u32", "tc.ctinfo.action.capab", "Capab", key="capab", left=0}, {"s32", "tc.ctinfo.action.action", "Action", key="action", s="Control", enum="tc_act"}, {"s32", "tc.ctinfo.action.refcnt", "Refcnt", key="refcnt", w="ref", s="Statistics", left=0}, {"s32", "tc.ctinfo.action.bindcnt", "Bindcnt", key="bindcnt", w="bind", s="Statistics", left=0}}}}}},
    [4] = {"TCA_CTINFO_ZONE", {"u16", "tc.ctinfo.zone", "Zone", key="Zone", w="zone"}},
    [5] = {"TCA_CTINFO_PARMS_DSCP_MASK", {"u32", "tc.ctinfo.parms_dscp_mask", "Parms dscp mask", unit="hex", key="ParmsDscpMask", w="dscp"}},
    [6] = {"TCA_CTINFO_PARMS_DSCP_STATEMASK", {"u32", "tc.ctinfo.parms_dscp_statemask", "Parms dscp statemask", unit="hex", key="ParmsDscpStatemask"}},
    [7] = {"TCA_CTINFO_PARMS_CPMARK_MASK", {"u32", "tc.ctinfo.parms_cpmark_mask", "Parms cpmark mask", unit="hex", key="ParmsCpmarkMask", w="cpmark"}},
    [8] = {"TCA_CTINFO_STATS_DSCP_SET", {"u64", "tc.ctinfo.stats_dscp_set", "Stats dscp set", key="StatsDscpSet", w="dscp_set", s="Statistics", left=0}},
    [9] = {"TCA_CTINFO_STATS_DSCP_ERROR", {"u64", "tc.ctinfo.stats_dscp_error", "Stats dscp error", key="StatsDscpError", w="dscp_error", s="Statistics", left=0}},
    [10] = {"TCA_CTINFO_STATS_CPMARK_SET", {"u64", "tc.ctinfo.stats_cpmark_set", "Stats cpmark set", key="StatsCpmarkSet", w="cpmark_set", s="Statistics", left=0}},
  },
  gact = {
    [1] = {"TCA_GACT_TM", {"struct", "tc.gact.tm", "Tm", key="Tm", s="Statistics", width=32, least=32, parts={{"u64", "tc.gact.tm.install", "Install", unit="clock_t", key="install", w="installed", left=0}, {"u64", "tc.gact.tm.lastuse", "Lastuse", unit="clock_t", key="lastuse", w="used", left=0}, {"u64", "tc.gact.tm.expires", "Expires", unit="clock_t", key="expires", w="expires", left=0}, {"u64", "tc.gact.tm.firstuse", "Firstuse", unit="clock_t", key="firstuse", w="firstused", left=0}}}},
    [2] = {"TCA_GACT_PARMS", {"struct", "tc.gact.parms", "Parms", key="Parms", s="Flat", width=20, least=20, parts={{"struct", false, "Generic", key="generic", s="Flat", width=20, least=20, parts={{"u32", "tc.gact.parms.index", "Index", key="index", w="index", s="Control"}, {"u32", "tc.gact.parms.capab", "Capab", key="capab", left=0}, {"s32", "tc.gact.parms.action", "Action", key="action", s="Control", enum="tc_act"}, {"s32", "tc.gact.parms.refcnt", "Refcnt", key="refcnt", w="ref", s="Statistics", left=0}, {"s32", "tc.gact.parms.bindcnt", "Bindcnt", key="bindcnt", w="bind", s="Statistics", left=0}}}}}},
    [3] = {"TCA_GACT_PROB", {"struct", "tc.gact.prob", "Prob", key="Prob", w="random", width=8, least=8, parts={{"u16", "tc.gact.prob.ptype", "Ptype", key="ptype", w="type", enum="pgact"}, {"u16", "tc.gact.prob.pval", "Pval", key="pval", w="val"}, {"s32", "tc.gact.prob.paction", "Paction", key="paction", s="Alone", enum="tc_act"}}}},
    [4] = {"TCA_GACT_PAD", {"flag", "tc.gact.pad", "Pad", key="Pad", left=-1}},
  },
  gate = {
    [1] = {"TCA_GATE_TM", {"struct", "tc.gate.tm", "Tm", key="Tm", s="Statistics", width=32, least=32, parts={{"u64", "tc.gate.tm.install", "Install", unit="clock_t", key="install", w="installed", left=0}, {"u64", "tc.gate.tm.lastuse", "Lastuse", unit="clock_t", key="lastuse", w="used", left=0}, {"u64", "tc.gate.tm.expires", "Expires", unit="clock_t", key="expires", w="expires", left=0}, {"u64", "tc.gate.tm.firstuse", "Firstuse", unit="clock_t", key="firstuse", w="firstused", left=0}}}},
    [2] = {"TCA_GATE_PARMS", {"struct", "tc.gate.parms", "Parms", key="Parms", s="Flat", width=20, least=20, parts={{"struct", false, "Generic", key="generic", s="Flat", width=20, least=20, parts={{"u32", "tc.gate.parms.index", "Index", key="index", w="index", s="Control"}, {"u32", "tc.gate.parms.capab", "Capab", key="capab", left=0}, {"s32", "tc.gate.parms.action", "Action", key="action", s="Control", enum="tc_act"}, {"s32", "tc.gate.parms.refcnt", "Refcnt", key="refcnt", w="ref", s="Statistics", left=0}, {"s32", "tc.gate.parms.bindcnt", "Bindcnt", key="bindcnt", w="bind", s="Statistics", left=0}}}}}},
    [3] = {"TCA_GATE_PAD", {"flag", "tc.gate.pad", "Pad", key="Pad", left=-1}},
    [4] = {"TCA_GATE_PRIORITY", {"s32", "tc.gate.priority", "Priority", key="Priority", w="priority"}},
    [5] = {"TCA_GATE_ENTRY_LIST", {"list", "tc.gate.entry_list", "Entry list", key="EntryList", s="Flat", list="gate_list", nested=true}},
    [6] = {"TCA_GATE_BASE_TIME", {"u64", "tc.gate.base_time", "Base time", unit="ns", key="BaseTime", w="base-time"}},
    [7] = {"TCA_GATE_CYCLE_TIME", {"u64", "tc.gate.cycle_time", "Cycle time", unit="ns", key="CycleTime", w="cycle-time"}},
    [8] = {"TCA_GATE_CYCLE_TIME_EXT", {"u64", "tc.gate.cycle_time_ext", "Cycle time ext", unit="ns", key="CycleTimeExt", w="cycle-time-ext"}},
    [9] = {"TCA_GATE_FLAGS", {"u32", "tc.gate.flags", "Flags", key="Flags", w="flags"}},
    [10] = {"TCA_GATE_CLOCKID", {"s32", "tc.gate.clockid", "Clockid", names="clockid", key="Clockid", w="clockid"}},
  },
  gate_list = {
    [1] = {"TCA_GATE_ONE_ENTRY", {"list", "tc.gate_list.one_entry", "One entry", key="OneEntry", w="sched-entry", list="gate_entry", nested=true}},
  },
  gate_entry = {
    [1] = {"TCA_GATE_ENTRY_INDEX", {"u32", "tc.gate_entry.index", "Index", key="Index", w="number"}},
    [2] = {"TCA_GATE_ENTRY_GATE", {"flag", "tc.gate_entry.gate", "Gate", key="Gate", w="open"}},
    [3] = {"TCA_GATE_ENTRY_INTERVAL", {"u32", "tc.gate_entry.interval", "Interval", unit="ns", key="Interval", w="interval"}},
    [4] = {"TCA_GATE_ENTRY_IPV", {"s32", "tc.gate_entry.ipv", "Ipv", key="Ipv", w="ipv"}},
    [5] = {"TCA_GATE_ENTRY_MAX_OCTETS", {"s32", "tc.gate_entry.max_octets", "Max octets", unit="bytes", key="MaxOctets", w="max-octets"}},
  },
  ife = {
    [1] = {"TCA_IFE_PARMS", {"struct", "tc.ife.parms", "Parms", key="Parms", s="Flat", width=24, least=24, parts={{"struct", false, "Generic", key="generic", s="Flat", width=20, least=20, parts={{"u32", "tc.ife.parms.index", "Index", key="index", w="index", s="Control"}, {"u32", "tc.ife.parms.capab", "Capab", key="capab", left=0}, {"s32", "tc.ife.parms.action", "Action", key="action", s="Control", enum="tc_act"}, {"s32", "tc.ife.parms.refcnt", "Refcnt", key="refcnt", w="ref", s="Statistics", left=0}, {"s32", "tc.ife.parms.bindcnt", "Bindcnt", key="bindcnt", w="bind", s="Statistics", left=0}}}, {"u16", "tc.ife.parms.flags", "Flags", key="flags", w="decode|encode", s="Choice", bits="ife"}, {"pad", "tc.ife.parms.padding", "Padding", key="padding", width=2}}}},
    [2] = {"TCA_IFE_TM", {"struct", "tc.ife.tm", "Tm", key="Tm", s="Statistics", width=32, least=32, parts={{"u64", "tc.ife.tm.install", "Install", unit="clock_t", key="install", w="installed", left=0}, {"u64", "tc.ife.tm.lastuse", "Lastuse", unit="clock_t", key="lastuse", w="used", left=0}, {"u64", "tc.ife.tm.expires", "Expires", unit="clock_t", key="expires", w="expires", left=0}, {"u64", "tc.ife.tm.firstuse", "Firstuse", unit="clock_t", key="firstuse", w="firstused", left=0}}}},
    [3] = {"TCA_IFE_DMAC", {"mac", "tc.ife.dmac", "Dmac", key="Dmac", w="dst"}},
    [4] = {"TCA_IFE_SMAC", {"mac", "tc.ife.smac", "Smac", key="Smac", w="src"}},
    [5] = {"TCA_IFE_TYPE", {"u16", "tc.ife.type", "Type", unit="hex", names="eth_p", key="Type", w="type"}},
    [6] = {"TCA_IFE_METALST", {"list", "tc.ife.metalst", "Metalst", key="Metalst", s="Flat", list="ife_meta"}},
    [7] = {"TCA_IFE_PAD", {"flag", "tc.ife.pad", "Pad", key="Pad", left=-1}},
  },
  ife_meta = {
    [1] = {"IFE_META_SKBMARK", {"array", false, "Skbmark", key="Skbmark", w="mark", inner={"u32", "tc.ife_meta.skbmark", "Skbmark", unit="hex"}}},
    [2] = {"IFE_META_HASHID", {"array", false, "Hashid", key="Hashid", w="hash", inner={"u32", "tc.ife_meta.hashid", "Hashid"}}},
    [3] = {"IFE_META_PRIO", {"array", false, "Prio", key="Prio", w="prio", inner={"u32", "tc.ife_meta.prio", "Prio"}}},
    [4] = {"IFE_META_QMAP", {"array", false, "Qmap", key="Qmap", s="Bytes", inner={"u16", "tc.ife_meta.qmap", "Qmap"}}},
    [5] = {"IFE_META_TCINDEX", {"array", false, "Tcindex", key="Tcindex", w="tcindex", inner={"u16", "tc.ife_meta.tcindex", "Tcindex"}}},
  },
  ipt = {
    [1] = {"TCA_IPT_TABLE", {"text", "tc.ipt.table", "Table", key="Table"}},
    [2] = {"TCA_IPT_HOOK", {"u32", "tc.ipt.hook", "Hook", key="Hook"}},
    [3] = {"TCA_IPT_INDEX", {"u32", "tc.ipt.index", "Index", key="Index", w="index", s="Control"}},
    [4] = {"TCA_IPT_CNT", {"struct", "tc.ipt.cnt", "Cnt", key="Cnt", s="Statistics", width=8, least=8, parts={{"s32", "tc.ipt.cnt.refcnt", "Refcnt", key="refcnt", w="ref", left=0}, {"s32", "tc.ipt.cnt.bindcnt", "Bindcnt", key="bindcnt", w="bind", left=0}}}},
    [5] = {"TCA_IPT_TM", {"struct", "tc.ipt.tm", "Tm", key="Tm", s="Statistics", width=32, least=32, parts={{"u64", "tc.ipt.tm.install", "Install", unit="clock_t", key="install", w="installed", left=0}, {"u64", "tc.ipt.tm.lastuse", "Lastuse", unit="clock_t", key="lastuse", w="used", left=0}, {"u64", "tc.ipt.tm.expires", "Expires", unit="clock_t", key="expires", w="expires", left=0}, {"u64", "tc.ipt.tm.firstuse", "Firstuse", unit="clock_t", key="firstuse", w="firstused", left=0}}}},
    [6] = {"TCA_IPT_TARG", {"hex", "tc.ipt.targ", "Targ", key="Targ", s="Bytes"}},
    [7] = {"TCA_IPT_PAD", {"flag", "tc.ipt.pad", "Pad", key="Pad", left=-1}},
  },
  mirred = {
    [1] = {"TCA_MIRRED_TM", {"struct", "tc.mirred.tm", "Tm", key="Tm", s="Statistics", width=32, least=32, parts={{"u64", "tc.mirred.tm.install", "Install", unit="clock_t", key="install", w="installed", left=0}, {"u64", "tc.mirred.tm.lastuse", "Lastuse", unit="clock_t", key="lastuse", w="used", left=0}, {"u64", "tc.mirred.tm.expires", "Expires", unit="clock_t", key="expires", w="expires", left=0}, {"u64", "tc.mirred.tm.firstuse", "Firstuse", unit="clock_t", key="firstuse", w="firstused", left=0}}}},
    [2] = {"TCA_MIRRED_PARMS", {"struct", "tc.mirred.parms", "Parms", key="Parms", s="Flat", width=28, least=28, parts={{"struct", false, "Generic", key="generic", s="Flat", width=20, least=20, parts={{"u32", "tc.mirred.parms.index", "Index", key="index", w="index", s="Control"}, {"u32", "tc.mirred.parms.capab", "Capab", key="capab", left=0}, {"s32", "tc.mirred.parms.action", "Action", key="action", s="Control", enum="tc_act"}, {"s32", "tc.mirred.parms.refcnt", "Refcnt", key="refcnt", w="ref", s="Statistics", left=0}, {"s32", "tc.mirred.parms.bindcnt", "Bindcnt", key="bindcnt", w="bind", s="Statistics", left=0}}}, {"s32", "tc.mirred.parms.eaction", "Eaction", key="eaction", w="|egress redirect|egress mirror|ingress redirect|ingress mirror", s="Choice", enum="tca_mirred"}, {"u32", "tc.mirred.parms.ifindex", "Ifindex", unit="ifindex", key="ifindex", w="dev"}}}},
    [3] = {"TCA_MIRRED_PAD", {"flag", "tc.mirred.pad", "Pad", key="Pad", left=-1}},
    [4] = {"TCA_MIRRED_BLOCKID", {"u32", "tc.mirred.blockid", "Blockid", key="Blockid", w="blockid"}},
  },
  mpls = {
    [1] = {"TCA_MPLS_TM", {"struct", "tc.mpls.tm", "Tm", key="Tm", s="Statistics", width=32, least=32, parts={{"u64", "tc.mpls.tm.install", "Install", unit="clock_t", key="install", w="installed", left=0}, {"u64", "tc.mpls.tm.lastuse", "Lastuse", unit="clock_t", key="lastuse", w="used", left=0}, {"u64", "tc.mpls.tm.expires", "Expires", unit="clock_t", key="expires", w="expires", left=0}, {"u64", "tc.mpls.tm.firstuse", "Firstuse", unit="clock_t", key="firstuse", w="firstused", left=0}}}},
    [2] = {"TCA_MPLS_PARMS", {"struct", "tc.mpls.parms", "Parms", key="Parms", s="Flat", width=24, least=24, parts={{"struct", false, "Generic", key="generic", s="Flat", width=20, least=20, parts={{"u32", "tc.mpls.parms.index", "Index", key="index", w="index", s="Control"}, {"u32", "tc.mpls.parms.capab", "Capab", key="capab", left=0}, {"s32", "tc.mpls.parms.action", "Action", key="action", s="Control", enum="tc_act"}, {"s32", "tc.mpls.parms.refcnt", "Refcnt", key="refcnt", w="ref", s="Statistics", left=0}, {"s32", "tc.mpls.parms.bindcnt", "Bindcnt", key="bindcnt", w="bind", s="Statistics", left=0}}}, {"s32", "tc.mpls.parms.m_action", "M action", key="m_action", s="Alone", enum="tca_mpls_act"}}}},
    [3] = {"TCA_MPLS_PAD", {"flag", "tc.mpls.pad", "Pad", key="Pad", left=-1}},
    [4] = {"TCA_MPLS_PROTO", {"be16", "tc.mpls.proto", "Proto", unit="hex", names="eth_p", key="Proto", w="protocol"}},
    [5] = {"TCA_MPLS_LABEL", {"u32", "tc.mpls.label", "Label", key="Label", w="label"}},
    [6] = {"TCA_MPLS_TC", {"u8", "tc.mpls.tc", "TC", key="Tc", w="tc"}},
    [7] = {"TCA_MPLS_TTL", {"u8", "tc.mpls.ttl", "TTL", key="Ttl", w="ttl"}},
    [8] = {"TCA_MPLS_BOS", {"u8", "tc.mpls.bos", "Bos", key="Bos", w="bos"}},
  },
  nat = {
    [1] = {"TCA_NAT_PARMS", {"struct", "tc.nat.parms", "Parms", key="Parms", s="Flat", width=36, least=36, parts={{"struct", false, "Generic", key="generic", s="Flat", width=20, least=20, parts={{"u32", "tc.nat.parms.index", "Index", key="index", w="index", s="Control"}, {"u32", "tc.nat.parms.capab", "Capab", key="capab", left=0}, {"s32", "tc.nat.parms.action", "Action", key="action", s="Control", enum="tc_act"}, {"s32", "tc.nat.parms.refcnt", "Refcnt", key="refcnt", w="ref", s="Statistics", left=0}, {"s32", "tc.nat.parms.bindcnt", "Bindcnt", key="bindcnt", w="bind", s="Statistics", left=0}}}, {"ipv4", "tc.nat.parms.old_addr", "Old addr", key="old_addr", w="old"}, {"ipv4", "tc.nat.parms.new_addr", "New addr", key="new_addr", w="new"}, {"ipv4", "tc.nat.parms.mask", "Mask", key="mask", w="mask"}, {"u32", "tc.nat.parms.flags", "Flags", unit="hex", names="nat_direction", key="flags", s="Alone", no_bits=true, bits="tca_nat_flag"}}}},
    [2] = {"TCA_NAT_TM", {"struct", "tc.nat.tm", "Tm", key="Tm", s="Statistics", width=32, least=32, parts={{"u64", "tc.nat.tm.install", "Install", unit="clock_t", key="install", w="installed", left=0}, {"u64", "tc.nat.tm.lastuse", "Lastuse", unit="clock_t", key="lastuse", w="used", left=0}, {"u64", "tc.nat.tm.expires", "Expires", unit="clock_t", key="expires", w="expires", left=0}, {"u64", "tc.nat.tm.firstuse", "Firstuse", unit="clock_t", key="firstuse", w="firstused", left=0}}}},
    [3] = {"TCA_NAT_PAD", {"flag", "tc.nat.pad", "Pad", key="Pad", left=-1}},
  },
  pedit = {
    [1] = {"TCA_PEDIT_TM", {"struct", "tc.pedit.tm", "Tm", key="Tm", s="Statistics", width=32, least=32, parts={{"u64", "tc.pedit.tm.install", "Install", unit="clock_t", key="install", w="installed", left=0}, {"u64", "tc.pedit.tm.lastuse", "Lastuse", unit="clock_t", key="lastuse", w="used", left=0}, {"u64", "tc.pedit.tm.expires", "Expires", unit="clock_t", key="expires", w="expires", left=0}, {"u64", "tc.pedit.tm.firstuse", "Firstuse", unit="clock_t", key="firstuse", w="firstused", left=0}}}},
    [2] = {"TCA_PEDIT_PARMS", {"struct", "tc.pedit.parms", "Parms", key="Parms", s="Flat", least=24, parts={{"struct", false, "Generic", key="generic", s="Flat", width=20, least=20, parts={{"u32", "tc.pedit.parms.index", "Index", key="index", w="index", s="Control"}, {"u32", "tc.pedit.parms.capab", "Capab", key="capab", left=0}, {"s32", "tc.pedit.parms.action", "Action", key="action", s="Control", enum="tc_act"}, {"s32", "tc.pedit.parms.refcnt", "Refcnt", key="refcnt", w="ref", s="Statistics", left=0}, {"s32", "tc.pedit.parms.bindcnt", "Bindcnt", key="bindcnt", w="bind", s="Statistics", left=0}}}, {"u8", "tc.pedit.parms.nkeys", "Nkeys", key="nkeys", w="keys"}, {"u8", "tc.pedit.parms.flags", "Flags", key="flags", left=0}, {"pad", "tc.pedit.parms.padding", "Padding", key="padding", width=2}, {"array", false, "Keys", key="keys", inner={"struct", "tc.pedit.parms.keys", "Key", width=24, least=24, parts={{"u32", "tc.pedit.parms.keys.mask", "Mask", unit="net_hex", key="mask"}, {"u32", "tc.pedit.parms.keys.val", "Val", unit="net_hex", key="val"}, {"u32", "tc.pedit.parms.keys.off", "Off", key="off"}, {"u32", "tc.pedit.parms.keys.at", "At", key="at", left=0}, {"u32", "tc.pedit.parms.keys.offmask", "Offmask", unit="hex", key="offmask", left=0}, {"u32", "tc.pedit.parms.keys.shift", "Shift", key="shift", left=0}}}}}}},
    [3] = {"TCA_PEDIT_PAD", {"flag", "tc.pedit.pad", "Pad", key="Pad", left=-1}},
    [4] = {"TCA_PEDIT_PARMS_EX", {"struct", "tc.pedit.parms_ex", "Parms ex", key="ParmsEx", s="Flat", least=24, parts={{"struct", false, "Generic", key="generic", s="Flat", width=20, least=20, parts={{"u32", "tc.pedit.parms_ex.index", "Index", key="index", w="index", s="Control"}, {"u32", "tc.pedit.parms_ex.capab", "Capab", key="capab", left=0}, {"s32", "tc.pedit.parms_ex.action", "Action", key="action", s="Control", enum="tc_act"}, {"s32", "tc.pedit.parms_ex.refcnt", "Refcnt", key="refcnt", w="ref", s="Statistics", left=0}, {"s32", "tc.pedit.parms_ex.bindcnt", "Bindcnt", key="bindcnt", w="bind", s="Statistics", left=0}}}, {"u8", "tc.pedit.parms_ex.nkeys", "Nkeys", key="nkeys", w="keys"}, {"u8", "tc.pedit.parms_ex.flags", "Flags", key="flags", left=0}, {"pad", "tc.pedit.parms_ex.padding", "Padding", key="padding", width=2}, {"array", false, "Keys", key="keys", inner={"struct", "tc.pedit.parms_ex.keys", "Key", width=24, least=24, parts={{"u32", "tc.pedit.parms_ex.keys.mask", "Mask", unit="net_hex", key="mask"}, {"u32", "tc.pedit.parms_ex.keys.val", "Val", unit="net_hex", key="val"}, {"u32", "tc.pedit.parms_ex.keys.off", "Off", key="off"}, {"u32", "tc.pedit.parms_ex.keys.at", "At", key="at", left=0}, {"u32", "tc.pedit.parms_ex.keys.offmask", "Offmask", unit="hex", key="offmask", left=0}, {"u32", "tc.pedit.parms_ex.keys.shift", "Shift", key="shift", left=0}}}}}}},
    [5] = {"TCA_PEDIT_KEYS_EX", {"list", "tc.pedit.keys_ex", "Keys ex", key="KeysEx", list="pedit_keys_ex", nested=true}},
  },
  pedit_keys_ex = {
    [6] = {"TCA_PEDIT_KEY_EX", {"list", "tc.pedit_keys_ex.key_ex", "Key ex", key="KeyEx", list="pedit_key_ex", nested=true}},
  },
  pedit_key_ex = {
    [1] = {"TCA_PEDIT_KEY_EX_HTYPE", {"u16", "tc.pedit_key_ex.htype", "Htype", key="Htype", enum="pedit_header_type"}},
    [2] = {"TCA_PEDIT_KEY_EX_CMD", {"u16", "tc.pedit_key_ex.cmd", "Cmd", key="Cmd", enum="pedit_cmd"}},
  },
  police = {
    [1] = {"TCA_POLICE_TBF", {"struct", "tc.police.tbf", "Tbf", key="Tbf", s="Flat", width=56, least=56, parts={{"u32", "tc.police.tbf.index", "Index", key="index", w="index", s="Control"}, {"s32", "tc.police.tbf.action", "Action", key="action", s="Control", enum="tc_act"}, {"u32", "tc.police.tbf.limit", "Limit", key="limit", left=0}, {"u32", "tc.police.tbf.burst", "Burst", unit="ticks", key="burst", w="burst", s="Burst", a="rate"}, {"u32", "tc.police.tbf.mtu", "MTU", unit="bytes", key="mtu", w="mtu"}, {"struct", "tc.police.tbf.rate", "Rate", key="rate", w="rate", s="Rate", a="Rate64", width=12, least=12, parts={{"u8", "tc.police.tbf.rate.cell_log", "Cell log", unit="log2", key="cell_log", left=0}, {"u8", "tc.police.tbf.rate.linklayer", "Linklayer", key="linklayer", w="linklayer", below=2, enum="tc_linklayer"}, {"u16", "tc.police.tbf.rate.overhead", "Overhead", unit="bytes", key="overhead", w="overhead", left=0}, {"s16", "tc.police.tbf.rate.cell_align", "Cell align", key="cell_align", left=-1}, {"u16", "tc.police.tbf.rate.mpu", "MPU", unit="bytes", key="mpu", w="mpu", left=0}, {"u32", "tc.police.tbf.rate.rate", "Rate", unit="bytes/s", key="rate", w="rate", s="OfRate"}}}, {"struct", "tc.police.tbf.peakrate", "Peakrate", key="peakrate", w="peakrate", s="Rate", a="Peakrate64", left=0, width=12, least=12, parts={{"u8", "tc.police.tbf.peakrate.cell_log", "Cell log", unit="log2", key="cell_log", left=0}, {"u8", "tc.police.tbf.peakrate.linklayer", "Linklayer", key="linklayer", w="linklayer", below=2, enum="tc_linklayer"}, {"u16", "tc.police.tbf.peakrate.overhead", "Overhead", unit="bytes", key="overhead", w="overhead", left=0}, {"s16", "tc.police.tbf.peakrate.cell_align", "Cell align", key="cell_align", left=-1}, {"u16", "tc.police.tbf.peakrate.mpu", "MPU", unit="bytes", key="mpu", w="mpu", left=0}, {"u32", "tc.police.tbf.peakrate.rate", "Rate", unit="bytes/s", key="rate", w="rate", s="OfRate"}}}, {"s32", "tc.police.tbf.refcnt", "Refcnt", key="refcnt", w="ref", s="Statistics", left=0}, {"s32", "tc.police.tbf.bindcnt", "Bindcnt", key="bindcnt", w="bind", s="Statistics", left=0}, {"u32", "tc.police.tbf.capab", "Capab", key="capab", left=0}}}},
    [2] = {"TCA_POLICE_RATE", {"hex", "tc.police.rate", "Rate", key="Rate", s="Bytes"}},
    [3] = {"TCA_POLICE_PEAKRATE", {"hex", "tc.police.peakrate", "Peakrate", key="Peakrate", s="Bytes"}},
    [4] = {"TCA_POLICE_AVRATE", {"u32", "tc.police.avrate", "Avrate", unit="bytes/s", key="Avrate", w="avrate"}},
    [5] = {"TCA_POLICE_RESULT", {"u32", "tc.police.result", "Result", key="Result", w="conform", enum="tc_act"}},
    [6] = {"TCA_POLICE_TM", {"struct", "tc.police.tm", "Tm", key="Tm", s="Statistics", width=32, least=32, parts={{"u64", "tc.police.tm.install", "Install", unit="clock_t", key="install", w="installed", left=0}, {"u64", "tc.police.tm.lastuse", "Lastuse", unit="clock_t", key="lastuse", w="used", left=0}, {"u64", "tc.police.tm.expires", "Expires", unit="clock_t", key="expires", w="expires", left=0}, {"u64", "tc.police.tm.firstuse", "Firstuse", unit="clock_t", key="firstuse", w="firstused", left=0}}}},
    [7] = {"TCA_POLICE_PAD", {"flag", "tc.police.pad", "Pad", key="Pad", left=-1}},
    [8] = {"TCA_POLICE_RATE64", {"u64", "tc.police.rate64", "Rate64", unit="bytes/s", key="Rate64", left=-1}},
    [9] = {"TCA_POLICE_PEAKRATE64", {"u64", "tc.police.peakrate64", "Peakrate64", unit="bytes/s", key="Peakrate64", left=-1}},
    [10] = {"TCA_POLICE_PKTRATE64", {"u64", "tc.police.pktrate64", "Pktrate64", unit="packets/s", key="Pktrate64", w="pkts_rate"}},
    [11] = {"TCA_POLICE_PKTBURST64", {"u64", "tc.police.pktburst64", "Pktburst64", unit="ticks", key="Pktburst64", w="pkts_burst"}},
  },
  sample = {
    [1] = {"TCA_SAMPLE_TM", {"struct", "tc.sample.tm", "Tm", key="Tm", s="Statistics", width=32, least=32, parts={{"u64", "tc.sample.tm.install", "Install", unit="clock_t", key="install", w="installed", left=0}, {"u64", "tc.sample.tm.lastuse", "Lastuse", unit="clock_t", key="lastuse", w="used", left=0}, {"u64", "tc.sample.tm.expires", "Expires", unit="clock_t", key="expires", w="expires", left=0}, {"u64", "tc.sample.tm.firstuse", "Firstuse", unit="clock_t", key="firstuse", w="firstused", left=0}}}},
    [2] = {"TCA_SAMPLE_PARMS", {"struct", "tc.sample.parms", "Parms", key="Parms", s="Flat", width=20, least=20, parts={{"struct", false, "Generic", key="generic", s="Flat", width=20, least=20, parts={{"u32", "tc.sample.parms.index", "Index", key="index", w="index", s="Control"}, {"u32", "tc.sample.parms.capab", "Capab", key="capab", left=0}, {"s32", "tc.sample.parms.action", "Action", key="action", s="Control", enum="tc_act"}, {"s32", "tc.sample.parms.refcnt", "Refcnt", key="refcnt", w="ref", s="Statistics", left=0}, {"s32", "tc.sample.parms.bindcnt", "Bindcnt", key="bindcnt", w="bind", s="Statistics", left=0}}}}}},
    [3] = {"TCA_SAMPLE_RATE", {"u32", "tc.sample.rate", "Rate", key="Rate", w="rate"}},
    [4] = {"TCA_SAMPLE_TRUNC_SIZE", {"u32", "tc.sample.trunc_size", "Trunc size", unit="bytes", key="TruncSize", w="trunc_size"}},
    [5] = {"TCA_SAMPLE_PSAMPLE_GROUP", {"u32", "tc.sample.psample_group", "Psample group", key="PsampleGroup", w="group"}},
    [6] = {"TCA_SAMPLE_PAD", {"flag", "tc.sample.pad", "Pad", key="Pad", left=-1}},
  },
  simple = {
    [1] = {"TCA_DEF_TM", {"struct", "tc.simple.tm", "Tm", key="Tm", s="Statistics", width=32, least=32, parts={{"u64", "tc.simple.tm.install", "Install", unit="clock_t", key="install", w="installed", left=0}, {"u64", "tc.simple.tm.lastuse", "Lastuse", unit="clock_t", key="lastuse", w="used", left=0}, {"u64", "tc.simple.tm.expires", "Expires", unit="clock_t", key="expires", w="expires", left=0}, {"u64", "tc.simple.tm.firstuse", "Firstuse", unit="clock_t", key="firstuse", w="firstused", left=0}}}},
    [2] = {"TCA_DEF_PARMS", {"struct", "tc.simple.parms", "Parms", key="Parms", s="Flat", width=20, least=20, parts={{"struct", false, "Generic", key="generic", s="Flat", width=20, least=20, parts={{"u32", "tc.simple.parms.index", "Index", key="index", w="index", s="Control"}, {"u32", "tc.simple.parms.capab", "Capab", key="capab", left=0}, {"s32", "tc.simple.parms.action", "Action", key="action", s="Control", enum="tc_act"}, {"s32", "tc.simple.parms.refcnt", "Refcnt", key="refcnt", w="ref", s="Statistics", left=0}, {"s32", "tc.simple.parms.bindcnt", "Bindcnt", key="bindcnt", w="bind", s="Statistics", left=0}}}}}},
    [3] = {"TCA_DEF_DATA", {"hex", "tc.simple.data", "Data", key="Data", w="sdata"}},
    [4] = {"TCA_DEF_PAD", {"flag", "tc.simple.pad", "Pad", key="Pad", left=-1}},
  },
  skbedit = {
    [1] = {"TCA_SKBEDIT_TM", {"struct", "tc.skbedit.tm", "Tm", key="Tm", s="Statistics", width=32, least=32, parts={{"u64", "tc.skbedit.tm.install", "Install", unit="clock_t", key="install", w="installed", left=0}, {"u64", "tc.skbedit.tm.lastuse", "Lastuse", unit="clock_t", key="lastuse", w="used", left=0}, {"u64", "tc.skbedit.tm.expires", "Expires", unit="clock_t", key="expires", w="expires", left=0}, {"u64", "tc.skbedit.tm.firstuse", "Firstuse", unit="clock_t", key="firstuse", w="firstused", left=0}}}},
    [2] = {"TCA_SKBEDIT_PARMS", {"struct", "tc.skbedit.parms", "Parms", key="Parms", s="Flat", width=20, least=20, parts={{"struct", false, "Generic", key="generic", s="Flat", width=20, least=20, parts={{"u32", "tc.skbedit.parms.index", "Index", key="index", w="index", s="Control"}, {"u32", "tc.skbedit.parms.capab", "Capab", key="capab", left=0}, {"s32", "tc.skbedit.parms.action", "Action", key="action", s="Control", enum="tc_act"}, {"s32", "tc.skbedit.parms.refcnt", "Refcnt", key="refcnt", w="ref", s="Statistics", left=0}, {"s32", "tc.skbedit.parms.bindcnt", "Bindcnt", key="bindcnt", w="bind", s="Statistics", left=0}}}}}},
    [3] = {"TCA_SKBEDIT_PRIORITY", {"u32", "tc.skbedit.priority", "Priority", unit="hex", key="Priority", w="priority"}},
    [4] = {"TCA_SKBEDIT_QUEUE_MAPPING", {"u16", "tc.skbedit.queue_mapping", "Queue mapping", key="QueueMapping", w="queue_mapping"}},
    [5] = {"TCA_SKBEDIT_MARK", {"u32", "tc.skbedit.mark", "Mark", unit="hex", key="Mark", w="mark", s="Mask", a="Mask"}},
    [6] = {"TCA_SKBEDIT_PAD", {"flag", "tc.skbedit.pad", "Pad", key="Pad", left=-1}},
    [7] = {"TCA_SKBEDIT_PTYPE", {"u16", "tc.skbedit.ptype", "Ptype", names="packet_type", key="Ptype", w="ptype"}},
    [8] = {"TCA_SKBEDIT_MASK", {"u32", "tc.skbedit.mask", "Mask", unit="hex", key="Mask"}},
    [9] = {"TCA_SKBEDIT_FLAGS", {"u64", "tc.skbedit.flags", "Flags", key="Flags", s="Bits", bits="skbedit_f"}},
    [10] = {"TCA_SKBEDIT_QUEUE_MAPPING_MAX", {"u16", "tc.skbedit.queue_mapping_max", "Queue mapping max", key="QueueMappingMax"}},
  },
  skbmod = {
    [1] = {"TCA_SKBMOD_TM", {"struct", "tc.skbmod.tm", "Tm", key="Tm", s="Statistics", width=32, least=32, parts={{"u64", "tc.skbmod.tm.install", "Install", unit="clock_t", key="install", w="installed", left=0}, {"u64", "tc.skbmod.tm.lastuse", "Lastuse", unit="clock_t", key="lastuse", w="used", left=0}, {"u64", "tc.skbmod.tm.expires", "Expires", unit="clock_t", key="expires", w="expires", left=0}, {"u64", "tc.skbmod.tm.firstuse", "Firstuse", unit="clock_t", key="firstuse", w="firstused", left=0}}}},
    [2] = {"TCA_SKBMOD_PARMS", {"struct", "tc.skbmod.parms", "Parms", key="Parms", s="Flat", width=32, least=32, parts={{"struct", false, "Generic", key="generic", s="Flat", width=20, least=20, parts={{"u32", "tc.skbmod.parms.index", "Index", key="index", w="index", s="Control"}, {"u32", "tc.skbmod.parms.capab", "Capab", key="capab", left=0}, {"s32", "tc.skbmod.parms.action", "Action", key="action", s="Control", enum="tc_act"}, {"s32", "tc.skbmod.parms.refcnt", "Refcnt", key="refcnt", w="ref", s="Statistics", left=0}, {"s32", "tc.skbmod.parms.bindcnt", "Bindcnt", key="bindcnt", w="bind", s="Statistics", left=0}}}, {"pad", "tc.skbmod.parms.padding", "Padding", key="padding", width=4}, {"u64", "tc.skbmod.parms.flags", "Flags", key="flags", w="flags", bits="skbmod_f"}}}},
    [3] = {"TCA_SKBMOD_DMAC", {"mac", "tc.skbmod.dmac", "Dmac", key="Dmac", w="dmac"}},
    [4] = {"TCA_SKBMOD_SMAC", {"mac", "tc.skbmod.smac", "Smac", key="Smac", w="smac"}},
    [5] = {"TCA_SKBMOD_ETYPE", {"u16", "tc.skbmod.etype", "Etype", unit="hex", names="eth_p", key="Etype", w="etype"}},
    [6] = {"TCA_SKBMOD_PAD", {"flag", "tc.skbmod.pad", "Pad", key="Pad", left=-1}},
  },
  tunnel_key = {
    [1] = {"TCA_TUNNEL_KEY_TM", {"struct", "tc.tunnel_key.tm", "Tm", key="Tm", s="Statistics", width=32, least=32, parts={{"u64", "tc.tunnel_key.tm.install", "Install", unit="clock_t", key="install", w="installed", left=0}, {"u64", "tc.tunnel_key.tm.lastuse", "Lastuse", unit="clock_t", key="lastuse", w="used", left=0}, {"u64", "tc.tunnel_key.tm.expires", "Expires", unit="clock_t", key="expires", w="expires", left=0}, {"u64", "tc.tunnel_key.tm.firstuse", "Firstuse", unit="clock_t", key="firstuse", w="firstused", left=0}}}},
    [2] = {"TCA_TUNNEL_KEY_PARMS", {"struct", "tc.tunnel_key.parms", "Parms", key="Parms", s="Flat", width=24, least=24, parts={{"struct", false, "Generic", key="generic", s="Flat", width=20, least=20, parts={{"u32", "tc.tunnel_key.parms.index", "Index", key="index", w="index", s="Control"}, {"u32", "tc.tunnel_key.parms.capab", "Capab", key="capab", left=0}, {"s32", "tc.tunnel_key.parms.action", "Action", key="action", s="Control", enum="tc_act"}, {"s32", "tc.tunnel_key.parms.refcnt", "Refcnt", key="refcnt", w="ref", s="Statistics", left=0}, {"s32", "tc.tunnel_key.parms.bindcnt", "Bindcnt", key="bindcnt", w="bind", s="Statistics", left=0}}}, {"s32", "tc.tunnel_key.parms.t_action", "T action", names="tunnel_key_act", key="t_action", w="|set|unset", s="Choice"}}}},
    [3] = {"TCA_TUNNEL_KEY_ENC_IPV4_SRC", {"ipv4", "tc.tunnel_key.enc_ipv4_src", "Enc IPv4 src", key="EncIpv4Src", w="src_ip"}},
    [4] = {"TCA_TUNNEL_KEY_ENC_IPV4_DST", {"ipv4", "tc.tunnel_key.enc_ipv4_dst", "Enc IPv4 dst", key="EncIpv4Dst", w="dst_ip"}},
    [5] = {"TCA_TUNNEL_KEY_ENC_IPV6_SRC", {"ipv6", "tc.tunnel_key.enc_ipv6_src", "Enc IPv6 src", key="EncIpv6Src", w="src_ip"}},
    [6] = {"TCA_TUNNEL_KEY_ENC_IPV6_DST", {"ipv6", "tc.tunnel_key.enc_ipv6_dst", "Enc IPv6 dst", key="EncIpv6Dst", w="dst_ip"}},
    [7] = {"TCA_TUNNEL_KEY_ENC_KEY_ID", {"be32", "tc.tunnel_key.enc_key_id", "Enc key ID", key="EncKeyId", w="key_id"}},
    [8] = {"TCA_TUNNEL_KEY_PAD", {"flag", "tc.tunnel_key.pad", "Pad", key="Pad", left=-1}},
    [9] = {"TCA_TUNNEL_KEY_ENC_DST_PORT", {"be16", "tc.tunnel_key.enc_dst_port", "Enc dst port", key="EncDstPort", w="dst_port"}},
    [10] = {"TCA_TUNNEL_KEY_NO_CSUM", {"bool", "tc.tunnel_key.no_csum", "No csum", key="NoCsum", w="csum|nocsum", s="Choice"}},
    [11] = {"TCA_TUNNEL_KEY_ENC_OPTS", {"list", "tc.tunnel_key.enc_opts", "Enc opts", key="EncOpts", list="tunnel_key_opts"}},
    [12] = {"TCA_TUNNEL_KEY_ENC_TOS", {"u8", "tc.tunnel_key.enc_tos", "Enc TOS", unit="hex", key="EncTos", w="tos"}},
    [13] = {"TCA_TUNNEL_KEY_ENC_TTL", {"u8", "tc.tunnel_key.enc_ttl", "Enc TTL", key="EncTtl", w="ttl"}},
    [14] = {"TCA_TUNNEL_KEY_NO_FRAG", {"flag", "tc.tunnel_key.no_frag", "No frag", key="NoFrag", w="nofrag"}},
  },
  tunnel_key_opts = {
    [1] = {"TCA_TUNNEL_KEY_ENC_OPTS_GENEVE", {"list", "tc.tunnel_key_opts.geneve", "Geneve", key="Geneve", list="tunnel_key_geneve"}},
    [2] = {"TCA_TUNNEL_KEY_ENC_OPTS_VXLAN", {"list", "tc.tunnel_key_opts.vxlan", "VXLAN", key="Vxlan", list="tunnel_key_vxlan", nested=true}},
    [3] = {"TCA_TUNNEL_KEY_ENC_OPTS_ERSPAN", {"list", "tc.tunnel_key_opts.erspan", "Erspan", key="Erspan", list="tunnel_key_erspan", nested=true}},
  },
  tunnel_key_geneve = {
    [1] = {"TCA_TUNNEL_KEY_ENC_OPT_GENEVE_CLASS", {"be16", "tc.tunnel_key_geneve.class", "Class", key="Class"}},
    [2] = {"TCA_TUNNEL_KEY_ENC_OPT_GENEVE_TYPE", {"u8", "tc.tunnel_key_geneve.type", "Type", key="Type"}},
    [3] = {"TCA_TUNNEL_KEY_ENC_OPT_GENEVE_DATA", {"hex", "tc.tunnel_key_geneve.data", "Data", key="Data", s="Bytes"}},
  },
  tunnel_key_vxlan = {
    [1] = {"TCA_TUNNEL_KEY_ENC_OPT_VXLAN_GBP", {"u32", "tc.tunnel_key_vxlan.gbp", "Gbp", key="Gbp"}},
  },
  tunnel_key_erspan = {
    [1] = {"TCA_TUNNEL_KEY_ENC_OPT_ERSPAN_VER", {"u8", "tc.tunnel_key_erspan.ver", "Ver", key="Ver"}},
    [2] = {"TCA_TUNNEL_KEY_ENC_OPT_ERSPAN_INDEX", {"be32", "tc.tunnel_key_erspan.index", "Index", key="Index"}},
    [3] = {"TCA_TUNNEL_KEY_ENC_OPT_ERSPAN_DIR", {"u8", "tc.tunnel_key_erspan.dir", "Dir", key="Dir"}},
    [4] = {"TCA_TUNNEL_KEY_ENC_OPT_ERSPAN_HWID", {"u8", "tc.tunnel_key_erspan.hwid", "Hwid", key="Hwid"}},
  },
  vlan = {
    [1] = {"TCA_VLAN_TM", {"struct", "tc.vlan.tm", "Tm", key="Tm", s="Statistics", width=32, least=32, parts={{"u64", "tc.vlan.tm.install", "Install", unit="clock_t", key="install", w="installed", left=0}, {"u64", "tc.vlan.tm.lastuse", "Lastuse", unit="clock_t", key="lastuse", w="used", left=0}, {"u64", "tc.vlan.tm.expires", "Expires", unit="clock_t", key="expires", w="expires", left=0}, {"u64", "tc.vlan.tm.firstuse", "Firstuse", unit="clock_t", key="firstuse", w="firstused", left=0}}}},
    [2] = {"TCA_VLAN_PARMS", {"struct", "tc.vlan.parms", "Parms", key="Parms", s="Flat", width=24, least=24, parts={{"struct", false, "Generic", key="generic", s="Flat", width=20, least=20, parts={{"u32", "tc.vlan.parms.index", "Index", key="index", w="index", s="Control"}, {"u32", "tc.vlan.parms.capab", "Capab", key="capab", left=0}, {"s32", "tc.vlan.parms.action", "Action", key="action", s="Control", enum="tc_act"}, {"s32", "tc.vlan.parms.refcnt", "Refcnt", key="refcnt", w="ref", s="Statistics", left=0}, {"s32", "tc.vlan.parms.bindcnt", "Bindcnt", key="bindcnt", w="bind", s="Statistics", left=0}}}, {"s32", "tc.vlan.parms.v_action", "V action", key="v_action", s="Alone", enum="tca_vlan_act"}}}},
    [3] = {"TCA_VLAN_PUSH_VLAN_ID", {"u16", "tc.vlan.push_vlan_id", "Push VLAN ID", key="PushVlanId", w="id"}},
    [4] = {"TCA_VLAN_PUSH_VLAN_PROTOCOL", {"be16", "tc.vlan.push_vlan_protocol", "Push VLAN protocol", unit="hex", names="eth_p", key="PushVlanProtocol", w="protocol"}},
    [5] = {"TCA_VLAN_PAD", {"flag", "tc.vlan.pad", "Pad", key="Pad", left=-1}},
    [6] = {"TCA_VLAN_PUSH_VLAN_PRIORITY", {"u8", "tc.vlan.push_vlan_priority", "Push VLAN priority", key="PushVlanPriority", w="priority"}},
    [7] = {"TCA_VLAN_PUSH_ETH_DST", {"mac", "tc.vlan.push_eth_dst", "Push ETH dst", key="PushEthDst", w="dst_mac"}},
    [8] = {"TCA_VLAN_PUSH_ETH_SRC", {"mac", "tc.vlan.push_eth_src", "Push ETH src", key="PushEthSrc", w="src_mac"}},
  },
  ematch_tree = {
    [1] = {"TCA_EMATCH_TREE_HDR", {"struct", "tc.ematch_tree.hdr", "Hdr", key="Hdr", s="Flat", width=4, least=4, parts={{"u16", "tc.ematch_tree.hdr.nmatches", "Nmatches", key="nmatches", left=-1}, {"u16", "tc.ematch_tree.hdr.progid", "Progid", key="progid", left=0}}}},
    [2] = {"TCA_EMATCH_TREE_LIST", {"indexed", "tc.ematch_tree.list", "List", key="List", w="ematch", element="tc.ematch", inner={"choice", false, "Match", parts={{"struct", "tc.ematch.container", "Container", prefix="\000\000\000\000", key="Container", width=8, least=8, parts={{"u16", "tc.ematch.container.flags", "Flags", key="flags", bits="tcf_em"}, {"pad", "tc.ematch.container.padding", "Padding", key="padding", width=2}, {"u32", "tc.ematch.container.first", "First", key="first"}}}, {"struct", "tc.ematch.cmp", "Cmp", prefix="\000\000\001\000", key="Cmp", width=16, least=16, parts={{"u16", "tc.ematch.cmp.flags", "Flags", key="flags", bits="tcf_em"}, {"pad", "tc.ematch.cmp.padding", "Padding", key="padding", width=2}, {"struct", "tc.ematch.cmp.match", "Match", key="match", width=12, least=12, parts={{"u32", "tc.ematch.cmp.match.val", "Val", unit="hex", key="val"}, {"u32", "tc.ematch.cmp.match.mask", "Mask", unit="hex", key="mask"}, {"u16", "tc.ematch.cmp.match.off", "Off", unit="bytes", key="off"}, {"u8", "tc.ematch.cmp.match.align_flags", "Align flags", unit="hex", names="em_align", key="align_flags"}, {"u8", "tc.ematch.cmp.match.layer_opnd", "Layer opnd", unit="hex", names="em_layer_opnd", key="layer_opnd"}}}}}, {"struct", "tc.ematch.nbyte", "Nbyte", prefix="\000\000\002\000", key="Nbyte", least=8, parts={{"u16", "tc.ematch.nbyte.flags", "Flags", key="flags", bits="tcf_em"}, {"pad", "tc.ematch.nbyte.padding", "Padding", key="padding", width=2}, {"struct", "tc.ematch.nbyte.match", "Match", key="match", width=4, least=4, parts={{"u16", "tc.ematch.nbyte.match.off", "Off", unit="bytes", key="off"}, {"u16", "tc.ematch.nbyte.match.len_layer", "Len layer", key="len_layer"}}}, {"hex", "tc.ematch.nbyte.needle", "Needle", key="needle", s="Bytes"}}}, {"struct", "tc.ematch.u32", "U32", prefix="\000\000\003\000", key="U32", width=20, least=20, parts={{"u16", "tc.ematch.u32.flags", "Flags", key="flags", bits="tcf_em"}, {"pad", "tc.ematch.u32.padding", "Padding", key="padding", width=2}, {"struct", "tc.ematch.u32.match", "Match", key="match", width=16, least=16, parts={{"be32", "tc.ematch.u32.match.mask", "Mask", unit="hex", key="mask"}, {"be32", "tc.ematch.u32.match.val", "Val", unit="hex", key="val"}, {"s32", "tc.ematch.u32.match.off", "Off", unit="bytes", key="off"}, {"s32", "tc.ematch.u32.match.offmask", "Offmask", key="offmask", left=0}}}}}, {"struct", "tc.ematch.meta", "Meta", prefix="\000\000\004\000", key="Meta", least=4, parts={{"u16", "tc.ematch.meta.flags", "Flags", key="flags", bits="tcf_em"}, {"pad", "tc.ematch.meta.padding", "Padding", key="padding", width=2}, {"list", false, "Attributes", key="attributes", list="em_meta"}}}, {"struct", "tc.ematch.text", "Text", prefix="\000\000\005\000", key="Text", least=28, parts={{"u16", "tc.ematch.text.flags", "Flags", key="flags", bits="tcf_em"}, {"pad", "tc.ematch.text.padding", "Padding", key="padding", width=2}, {"struct", "tc.ematch.text.match", "Match", key="match", width=24, least=24, parts={{"bytes", "tc.ematch.text.match.algo", "Algo", key="algo", width=16}, {"u16", "tc.ematch.text.match.from_offset", "From offset", unit="bytes", key="from_offset"}, {"u16", "tc.ematch.text.match.to_offset", "To offset", unit="bytes", key="to_offset"}, {"u16", "tc.ematch.text.match.pattern_len", "Pattern len", unit="bytes", key="pattern_len"}, {"u8", "tc.ematch.text.match.layers", "Layers", key="layers"}, {"pad", "tc.ematch.text.match.pad", "Pad", key="pad", width=1}}}, {"hex", "tc.ematch.text.pattern", "Pattern", key="pattern", s="Bytes"}}}, {"struct", "tc.ematch.canid", "Canid", prefix="\000\000\007\000", key="Canid", least=4, parts={{"u16", "tc.ematch.canid.flags", "Flags", key="flags", bits="tcf_em"}, {"pad", "tc.ematch.canid.padding", "Padding", key="padding", width=2}, {"array", false, "Match", key="match", inner={"struct", "tc.ematch.canid.match", "ID", width=8, least=8, parts={{"u32", "tc.ematch.canid.match.can_id", "Can ID", unit="hex", key="can_id"}, {"u32", "tc.ematch.canid.match.can_mask", "Can mask", unit="hex", key="can_mask"}}}}}}, {"struct", "tc.ematch.ipset", "Ipset", prefix="\000\000\008\000", key="Ipset", width=8, least=8, parts={{"u16", "tc.ematch.ipset.flags", "Flags", key="flags", bits="tcf_em"}, {"pad", "tc.ematch.ipset.padding", "Padding", key="padding", width=2}, {"struct", "tc.ematch.ipset.match", "Match", key="match", width=4, least=4, parts={{"u16", "tc.ematch.ipset.match.index", "Index", key="index"}, {"u8", "tc.ematch.ipset.match.dim", "Dim", key="dim"}, {"u8", "tc.ematch.ipset.match.flags", "Flags", key="flags"}}}}}, {"struct", "tc.ematch.ipt", "Ipt", prefix="\000\000\009\000", key="Ipt", least=4, parts={{"u16", "tc.ematch.ipt.flags", "Flags", key="flags", bits="tcf_em"}, {"pad", "tc.ematch.ipt.padding", "Padding", key="padding", width=2}, {"list", false, "Attributes", key="attributes", list="em_ipt"}}}}}}},
  },
  em_meta = {
    [1] = {"TCA_EM_META_HDR", {"struct", "tc.em_meta.hdr", "Hdr", key="Hdr", width=8, least=8, parts={{"struct", "tc.em_meta.hdr.left", "Left", key="left", width=4, least=4, parts={{"u16", "tc.em_meta.hdr.left.kind", "Kind", unit="hex", key="kind"}, {"u8", "tc.em_meta.hdr.left.shift", "Shift", key="shift"}, {"u8", "tc.em_meta.hdr.left.op", "Op", key="op", enum="tcf_em_opnd"}}}, {"struct", "tc.em_meta.hdr.right", "Right", key="right", width=4, least=4, parts={{"u16", "tc.em_meta.hdr.right.kind", "Kind", unit="hex", key="kind"}, {"u8", "tc.em_meta.hdr.right.shift", "Shift", key="shift"}, {"u8", "tc.em_meta.hdr.right.op", "Op", key="op", enum="tcf_em_opnd"}}}}}},
    [2] = {"TCA_EM_META_LVALUE", {"hex", "tc.em_meta.lvalue", "Lvalue", key="Lvalue", s="Bytes"}},
    [3] = {"TCA_EM_META_RVALUE", {"hex", "tc.em_meta.rvalue", "Rvalue", key="Rvalue", s="Bytes"}},
  },
  em_ipt = {
    [1] = {"TCA_EM_IPT_HOOK", {"u32", "tc.em_ipt.hook", "Hook", key="Hook"}},
    [2] = {"TCA_EM_IPT_MATCH_NAME", {"text", "tc.em_ipt.match_name", "Match name", key="MatchName"}},
    [3] = {"TCA_EM_IPT_MATCH_REVISION", {"u8", "tc.em_ipt.match_revision", "Match revision", key="MatchRevision"}},
    [4] = {"TCA_EM_IPT_NFPROTO", {"u8", "tc.em_ipt.nfproto", "Nfproto", key="Nfproto"}},
    [5] = {"TCA_EM_IPT_MATCH_DATA", {"hex", "tc.em_ipt.match_data", "Match data", key="MatchData", s="Bytes"}},
  },
  basic = {
    [1] = {"TCA_BASIC_CLASSID", {"handle", "tc.basic.class_id", "Class ID", key="ClassId", w="classid", twin="tc.basic.class_id.number"}},
    [2] = {"TCA_BASIC_EMATCHES", {"list", "tc.basic.ematches", "Ematches", key="Ematches", s="Flat", list="ematch_tree"}},
    [3] = {"TCA_BASIC_ACT", {"indexed", "tc.basic.action", "Action", key="Action", s="Actions", element="tc.action", inner={"own", false, "Action", list="action"}}},
    [4] = {"TCA_BASIC_POLICE", {"list", "tc.basic.police", "Police", key="Police", w="police", s="Actions", list="police"}},
    [5] = {"TCA_BASIC_PCNT", {"struct", "tc.basic.pcnt", "Pcnt", key="Pcnt", s="Statistics", width=16, least=16, parts={{"u64", "tc.basic.pcnt.rcnt", "Rcnt", key="rcnt", w="hit", left=0}, {"u64", "tc.basic.pcnt.rhit", "Rhit", key="rhit", w="success", left=0}}}},
    [6] = {"TCA_BASIC_PAD", {"flag", "tc.basic.pad", "Pad", key="Pad", left=-1}},
  },
  bpf = {
    [1] = {"TCA_BPF_ACT", {"indexed", "tc.bpf.act", "ACT", key="Act", s="Actions", element="tc.action", inner={"own", false, "Action", list="action"}}},
    [2] = {"TCA_BPF_POLICE", {"list", "tc.bpf.police", "Police", key="Police", w="police", s="Actions", list="police"}},
    [3] = {"TCA_BPF_CLASSID", {"handle", "tc.bpf.class_id", "Class ID", key="ClassId", w="classid", twin="tc.bpf.class_id.number"}},
    [4] = {"TCA_BPF_OPS_LEN", {"u16", "tc.bpf.ops_len", "Ops len", key="OpsLen"}},
    [5] = {"TCA_BPF_OPS", {"array", false, "Ops", key="Ops", w="bytecode", inner={"struct", "tc.bpf.ops", "Op", width=8, least=8, parts={{"u16", "tc.bpf.ops.code", "Code", unit="hex", key="code"}, {"u8", "tc.bpf.ops.jt", "Jt", key="jt"}, {"u8", "tc.bpf.ops.jf", "Jf", key="jf"}, {"u32", "tc.bpf.ops.k", "K", unit="hex", key="k"}}}}},
    [6] = {"TCA_BPF_FD", {"u32", "tc.bpf.prog_fd", "Prog FD", key="ProgFd"}},
    [7] = {"TCA_BPF_NAME", {"text", "tc.bpf.prog_name", "Prog name", key="ProgName"}},
    [8] = {"TCA_BPF_FLAGS", {"u32", "tc.bpf.flags", "Flags", key="Flags", s="Bits", left=0, bits="tca_bpf_flag"}},
    [9] = {"TCA_BPF_FLAGS_GEN", {"u32", "tc.bpf.flags_generic", "Flags generic", key="FlagsGeneric", s="Hardware", left=0, bits="tca_cls_flags"}},
    [10] = {"TCA_BPF_TAG", {"bytes", "tc.bpf.prog_tag", "Prog tag", key="ProgTag", w="tag", width=8}},
    [11] = {"TCA_BPF_ID", {"u32", "tc.bpf.prog_id", "Prog ID", key="ProgId", w="id"}},
  },
  cgroup = {
    [1] = {"TCA_CGROUP_ACT", {"indexed", "tc.cgroup.action", "Action", key="Action", s="Actions", element="tc.action", inner={"own", false, "Action", list="action"}}},
    [2] = {"TCA_CGROUP_POLICE", {"list", "tc.cgroup.police", "Police", key="Police", w="police", s="Actions", list="police"}},
    [3] = {"TCA_CGROUP_EMATCHES", {"list", "tc.cgroup.ematches", "Ematches", key="Ematches", s="Flat", list="ematch_tree"}},
  },
  flow = {
    [1] = {"TCA_FLOW_KEYS", {"u32", "tc.flow.keys", "Keys", key="Keys", w="keys", bits="flow_key"}},
    [2] = {"TCA_FLOW_MODE", {"u32", "tc.flow.mode", "Mode", key="Mode", s="Alone", enum="flow_mode"}},
    [3] = {"TCA_FLOW_BASECLASS", {"handle", "tc.flow.baseclass", "Baseclass", key="Baseclass", w="baseclass", twin="tc.flow.baseclass.number"}},
    [4] = {"TCA_FLOW_RSHIFT", {"u32", "tc.flow.rshift", "Rshift", key="Rshift", w="rshift"}},
    [5] = {"TCA_FLOW_ADDEND", {"u32", "tc.flow.addend", "Addend", key="Addend", w="addend"}},
    [6] = {"TCA_FLOW_MASK", {"u32", "tc.flow.mask", "Mask", unit="hex", key="Mask", w="and"}},
    [7] = {"TCA_FLOW_XOR", {"u32", "tc.flow.xor", "Xor", unit="hex", key="Xor", w="xor"}},
    [8] = {"TCA_FLOW_DIVISOR", {"u32", "tc.flow.divisor", "Divisor", key="Divisor", w="divisor"}},
    [9] = {"TCA_FLOW_ACT", {"indexed", "tc.flow.action", "Action", key="Action", s="Actions", element="tc.action", inner={"own", false, "Action", list="action"}}},
    [10] = {"TCA_FLOW_POLICE", {"list", "tc.flow.police", "Police", key="Police", w="police", s="Actions", list="police"}},
    [11] = {"TCA_FLOW_EMATCHES", {"list", "tc.flow.ematches", "Ematches", key="Ematches", s="Flat", list="ematch_tree"}},
    [12] = {"TCA_FLOW_PERTURB", {"u32", "tc.flow.perturb", "Perturb", unit="s", key="Perturb", w="perturb"}},
  },
  flower = {
    [1] = {"TCA_FLOWER_CLASSID", {"handle", "tc.flower.class_id", "Class ID", key="ClassId", w="classid", twin="tc.flower.class_id.number"}},
    [2] = {"TCA_FLOWER_INDEV", {"text", "tc.flower.in_dev", "In dev", key="InDev", w="indev"}},
    [3] = {"TCA_FLOWER_ACT", {"indexed", "tc.flower.actions", "Actions", key="Actions", s="Actions", element="tc.action", inner={"own", false, "Action", list="action"}}},
    [4] = {"TCA_FLOWER_KEY_ETH_DST", {"mac", "tc.flower.eth_dst", "ETH dst", key="EthDst", w="dst_mac", s="Mask", a="EthDstMask"}},
    [5] = {"TCA_FLOWER_KEY_ETH_DST_MASK", {"mac", "tc.flower.eth_dst_mask", "ETH dst mask", mask="tc.flower.eth_dst", key="EthDstMask", left=48}},
    [6] = {"TCA_FLOWER_KEY_ETH_SRC", {"mac", "tc.flower.eth_src", "ETH src", key="EthSrc", w="src_mac", s="Mask", a="EthSrcMask"}},
    [7] = {"TCA_FLOWER_KEY_ETH_SRC_MASK", {"mac", "tc.flower.eth_src_mask", "ETH src mask", mask="tc.flower.eth_src", key="EthSrcMask", left=48}},
    [8] = {"TCA_FLOWER_KEY_ETH_TYPE", {"be16", "tc.flower.eth_type", "ETH type", unit="hex", names="eth_p", key="EthType", w="eth_type", s="Protocol"}},
    [9] = {"TCA_FLOWER_KEY_IP_PROTO", {"u8", "tc.flower.ip_proto", "IP proto", names="ip_proto", key="IpProto", w="ip_proto"}},
    [10] = {"TCA_FLOWER_KEY_IPV4_SRC", {"ipv4", "tc.flower.ipv4_src", "IPv4 src", key="Ipv4Src", w="src_ip", s="Mask", a="Ipv4SrcMask"}},
    [11] = {"TCA_FLOWER_KEY_IPV4_SRC_MASK", {"ipv4", "tc.flower.ipv4_src_mask", "IPv4 src mask", mask="tc.flower.ipv4_src", key="Ipv4SrcMask", left=32}},
    [12] = {"TCA_FLOWER_KEY_IPV4_DST", {"ipv4", "tc.flower.ipv4_dst", "IPv4 dst", key="Ipv4Dst", w="dst_ip", s="Mask", a="Ipv4DstMask"}},
    [13] = {"TCA_FLOWER_KEY_IPV4_DST_MASK", {"ipv4", "tc.flower.ipv4_dst_mask", "IPv4 dst mask", mask="tc.flower.ipv4_dst", key="Ipv4DstMask", left=32}},
    [14] = {"TCA_FLOWER_KEY_IPV6_SRC", {"ipv6", "tc.flower.ipv6_src", "IPv6 src", key="Ipv6Src", w="src_ip", s="Mask", a="Ipv6SrcMask"}},
    [15] = {"TCA_FLOWER_KEY_IPV6_SRC_MASK", {"ipv6", "tc.flower.ipv6_src_mask", "IPv6 src mask", mask="tc.flower.ipv6_src", key="Ipv6SrcMask", left=128}},
    [16] = {"TCA_FLOWER_KEY_IPV6_DST", {"ipv6", "tc.flower.ipv6_dst", "IPv6 dst", key="Ipv6Dst", w="dst_ip", s="Mask", a="Ipv6DstMask"}},
    [17] = {"TCA_FLOWER_KEY_IPV6_DST_MASK", {"ipv6", "tc.flower.ipv6_dst_mask", "IPv6 dst mask", mask="tc.flower.ipv6_dst", key="Ipv6DstMask", left=128}},
    [18] = {"TCA_FLOWER_KEY_TCP_SRC", {"be16", "tc.flower.tcp_src", "TCP src", key="TcpSrc", w="src_port", s="Mask", a="TcpSrcMask", twin="tc.flower.src_port"}},
    [19] = {"TCA_FLOWER_KEY_TCP_DST", {"be16", "tc.flower.tcp_dst", "TCP dst", key="TcpDst", w="dst_port", s="Mask", a="TcpDstMask", twin="tc.flower.dst_port"}},
    [20] = {"TCA_FLOWER_KEY_UDP_SRC", {"be16", "tc.flower.udp_src", "UDP src", key="UdpSrc", w="src_port", s="Mask", a="UdpSrcMask", twin="tc.flower.src_port"}},
    [21] = {"TCA_FLOWER_KEY_UDP_DST", {"be16", "tc.flower.udp_dst", "UDP dst", key="UdpDst", w="dst_port", s="Mask", a="UdpDstMask", twin="tc.flower.dst_port"}},
    [22] = {"TCA_FLOWER_FLAGS", {"u32", "tc.flower.flags", "Flags", key="Flags", s="Hardware", left=0, bits="tca_cls_flags"}},
    [23] = {"TCA_FLOWER_KEY_VLAN_ID", {"u16", "tc.flower.vlan_id", "VLAN ID", key="VlanId", w="vlan_id"}},
    [24] = {"TCA_FLOWER_KEY_VLAN_PRIO", {"u8", "tc.flower.vlan_prio", "VLAN prio", key="VlanPrio", w="vlan_prio"}},
    [25] = {"TCA_FLOWER_KEY_VLAN_ETH_TYPE", {"be16", "tc.flower.vlan_eth_type", "VLAN ETH type", unit="hex", names="eth_p", key="VlanEthType", w="vlan_ethtype"}},
    [26] = {"TCA_FLOWER_KEY_ENC_KEY_ID", {"be32", "tc.flower.enc_key_id", "Enc key ID", key="EncKeyId", w="enc_key_id"}},
    [27] = {"TCA_FLOWER_KEY_ENC_IPV4_SRC", {"ipv4", "tc.flower.enc_key_ipv4_src", "Enc key IPv4 src", key="EncKeyIpv4Src", w="enc_src_ip", s="Mask", a="EncKeyIpv4SrcMask"}},
    [28] = {"TCA_FLOWER_KEY_ENC_IPV4_SRC_MASK", {"ipv4", "tc.flower.enc_key_ipv4_src_mask", "Enc key IPv4 src mask", mask="tc.flower.enc_key_ipv4_src", key="EncKeyIpv4SrcMask", left=32}},
    [29] = {"TCA_FLOWER_KEY_ENC_IPV4_DST", {"ipv4", "tc.flower.enc_key_ipv4_dst", "Enc key IPv4 dst", key="EncKeyIpv4Dst", w="enc_dst_ip", s="Mask", a="EncKeyIpv4DstMask"}},
    [30] = {"TCA_FLOWER_KEY_ENC_IPV4_DST_MASK", {"ipv4", "tc.flower.enc_key_ipv4_dst_mask", "Enc key IPv4 dst mask", mask="tc.flower.enc_key_ipv4_dst", key="EncKeyIpv4DstMask", left=32}},
    [31] = {"TCA_FLOWER_KEY_ENC_IPV6_SRC", {"ipv6", "tc.flower.enc_key_ipv6_src", "Enc key IPv6 src", key="EncKeyIpv6Src", w="enc_src_ip", s="Mask", a="EncKeyIpv6SrcMask"}},
    [32] = {"TCA_FLOWER_KEY_ENC_IPV6_SRC_MASK", {"ipv6", "tc.flower.enc_key_ipv6_src_mask", "Enc key IPv6 src mask", mask="tc.flower.enc_key_ipv6_src", key="EncKeyIpv6SrcMask", left=128}},
    [33] = {"TCA_FLOWER_KEY_ENC_IPV6_DST", {"ipv6", "tc.flower.enc_key_ipv6_dst", "Enc key IPv6 dst", key="EncKeyIpv6Dst", w="enc_dst_ip", s="Mask", a="EncKeyIpv6DstMask"}},
    [34] = {"TCA_FLOWER_KEY_ENC_IPV6_DST_MASK", {"ipv6", "tc.flower.enc_key_ipv6_dst_mask", "Enc key IPv6 dst mask", mask="tc.flower.enc_key_ipv6_dst", key="EncKeyIpv6DstMask", left=128}},
    [35] = {"TCA_FLOWER_KEY_TCP_SRC_MASK", {"be16", "tc.flower.tcp_src_mask", "TCP src mask", unit="hex", key="TcpSrcMask", left=65535}},
    [36] = {"TCA_FLOWER_KEY_TCP_DST_MASK", {"be16", "tc.flower.tcp_dst_mask", "TCP dst mask", unit="hex", key="TcpDstMask", left=65535}},
    [37] = {"TCA_FLOWER_KEY_UDP_SRC_MASK", {"be16", "tc.flower.udp_src_mask", "UDP src mask", unit="hex", key="UdpSrcMask", left=65535}},
    [38] = {"TCA_FLOWER_KEY_UDP_DST_MASK", {"be16", "tc.flower.udp_dst_mask", "UDP dst mask", unit="hex", key="UdpDstMask", left=65535}},
    [39] = {"TCA_FLOWER_KEY_SCTP_SRC_MASK", {"be16", "tc.flower.sctp_src_mask", "SCTP src mask", unit="hex", key="SctpSrcMask", left=65535}},
    [40] = {"TCA_FLOWER_KEY_SCTP_DST_MASK", {"be16", "tc.flower.sctp_dst_mask", "SCTP dst mask", unit="hex", key="SctpDstMask", left=65535}},
    [41] = {"TCA_FLOWER_KEY_SCTP_SRC", {"be16", "tc.flower.sctp_src", "SCTP src", key="SctpSrc", w="src_port", s="Mask", a="SctpSrcMask", twin="tc.flower.src_port"}},
    [42] = {"TCA_FLOWER_KEY_SCTP_DST", {"be16", "tc.flower.sctp_dst", "SCTP dst", key="SctpDst", w="dst_port", s="Mask", a="SctpDstMask", twin="tc.flower.dst_port"}},
    [43] = {"TCA_FLOWER_KEY_ENC_UDP_SRC_PORT", {"be16", "tc.flower.enc_key_udp_src_port", "Enc key UDP src port", key="EncKeyUdpSrcPort", w="enc_src_port", s="Mask", a="EncKeyUdpSrcPortMask"}},
    [44] = {"TCA_FLOWER_KEY_ENC_UDP_SRC_PORT_MASK", {"be16", "tc.flower.enc_key_udp_src_port_mask", "Enc key UDP src port mask", unit="hex", key="EncKeyUdpSrcPortMask", left=65535}},
    [45] = {"TCA_FLOWER_KEY_ENC_UDP_DST_PORT", {"be16", "tc.flower.enc_key_udp_dst_port", "Enc key UDP dst port", key="EncKeyUdpDstPort", w="enc_dst_port", s="Mask", a="EncKeyUdpDstPortMask"}},
    [46] = {"TCA_FLOWER_KEY_ENC_UDP_DST_PORT_MASK", {"be16", "tc.flower.enc_key_udp_dst_port_mask", "Enc key UDP dst port mask", unit="hex", key="EncKeyUdpDstPortMask", left=65535}},
    [47] = {"TCA_FLOWER_KEY_FLAGS", {"be32", "tc.flower.key_flags", "Key flags", key="KeyFlags", w="ip_flags", s="Mask", a="KeyFlagsMask", bits="flower_key_flags"}},
    [48] = {"TCA_FLOWER_KEY_FLAGS_MASK", {"be32", "tc.flower.key_flags_mask", "Key flags mask", key="KeyFlagsMask", bits="flower_key_flags"}},
    [49] = {"TCA_FLOWER_KEY_ICMPV4_CODE", {"u8", "tc.flower.icmpv4_code", "ICMPv4 code", key="Icmpv4Code", w="icmp_code", s="Mask", a="Icmpv4CodeMask", twin="tc.flower.icmp_code"}},
    [50] = {"TCA_FLOWER_KEY_ICMPV4_CODE_MASK", {"u8", "tc.flower.icmpv4_code_mask", "ICMPv4 code mask", unit="hex", key="Icmpv4CodeMask", left=255}},
    [51] = {"TCA_FLOWER_KEY_ICMPV4_TYPE", {"u8", "tc.flower.icmpv4_type", "ICMPv4 type", key="Icmpv4Type", w="icmp_type", s="Mask", a="Icmpv4TypeMask", twin="tc.flower.icmp_type"}},
    [52] = {"TCA_FLOWER_KEY_ICMPV4_TYPE_MASK", {"u8", "tc.flower.icmpv4_type_mask", "ICMPv4 type mask", unit="hex", key="Icmpv4TypeMask", left=255}},
    [53] = {"TCA_FLOWER_KEY_ICMPV6_CODE", {"u8", "tc.flower.icmpv6_code", "ICMPv6 code", key="Icmpv6Code", w="icmp_code", s="Mask", a="Icmpv6CodeMask", twin="tc.flower.icmp_code"}},
    [54] = {"TCA_FLOWER_KEY_ICMPV6_CODE_MASK", {"u8", "tc.flower.icmpv6_code_mask", "ICMPv6 code mask", unit="hex", key="Icmpv6CodeMask", left=255}},
    [55] = {"TCA_FLOWER_KEY_ICMPV6_TYPE", {"u8", "tc.flower.icmpv6_type", "ICMPv6 type", key="Icmpv6Type", w="icmp_type", s="Mask", a="Icmpv6TypeMask", twin="tc.flower.icmp_type"}},
    [56] = {"TCA_FLOWER_KEY_ICMPV6_TYPE_MASK", {"u8", "tc.flower.icmpv6_type_mask", "ICMPv6 type mask", unit="hex", key="Icmpv6TypeMask", left=255}},
    [57] = {"TCA_FLOWER_KEY_ARP_SIP", {"ipv4", "tc.flower.arp_sip", "ARP sip", key="ArpSip", w="arp_sip", s="Mask", a="ArpSipMask"}},
    [58] = {"TCA_FLOWER_KEY_ARP_SIP_MASK", {"ipv4", "tc.flower.arp_sip_mask", "ARP sip mask", mask="tc.flower.arp_sip", key="ArpSipMask", left=32}},
    [59] = {"TCA_FLOWER_KEY_ARP_TIP", {"ipv4", "tc.flower.arp_tip", "ARP tip", key="ArpTip", w="arp_tip", s="Mask", a="ArpTipMask"}},
    [60] = {"TCA_FLOWER_KEY_ARP_TIP_MASK", {"ipv4", "tc.flower.arp_tip_mask", "ARP tip mask", mask="tc.flower.arp_tip", key="ArpTipMask", left=32}},
    [61] = {"TCA_FLOWER_KEY_ARP_OP", {"u8", "tc.flower.arp_op", "ARP op", names="arp_op", key="ArpOp", w="arp_op", s="Mask", a="ArpOpMask"}},
    [62] = {"TCA_FLOWER_KEY_ARP_OP_MASK", {"u8", "tc.flower.arp_op_mask", "ARP op mask", unit="hex", key="ArpOpMask", left=255}},
    [63] = {"TCA_FLOWER_KEY_ARP_SHA", {"mac", "tc.flower.arp_sha", "ARP sha", key="ArpSha", w="arp_sha", s="Mask", a="ArpShaMask"}},
    [64] = {"TCA_FLOWER_KEY_ARP_SHA_MASK", {"mac", "tc.flower.arp_sha_mask", "ARP sha mask", mask="tc.flower.arp_sha", key="ArpShaMask", left=48}},
    [65] = {"TCA_FLOWER_KEY_ARP_THA", {"mac", "tc.flower.arp_tha", "ARP tha", key="ArpTha", w="arp_tha", s="Mask", a="ArpThaMask"}},
    [66] = {"TCA_FLOWER_KEY_ARP_THA_MASK", {"mac", "tc.flower.arp_tha_mask", "ARP tha mask", mask="tc.flower.arp_tha", key="ArpThaMask", left=48}},
    [67] = {"TCA_FLOWER_KEY_MPLS_TTL", {"u8", "tc.flower.mpls_ttl", "MPLS TTL", key="MplsTtl", w="mpls_ttl"}},
    [68] = {"TCA_FLOWER_KEY_MPLS_BOS", {"u8", "tc.flower.mpls_bos", "MPLS bos", key="MplsBos", w="mpls_bos"}},
    [69] = {"TCA_FLOWER_KEY_MPLS_TC", {"u8", "tc.flower.mpls_tc", "MPLS TC", key="MplsTc", w="mpls_tc"}},
    [70] = {"TCA_FLOWER_KEY_MPLS_LABEL", {"u32", "tc.flower.mpls_label", "MPLS label", key="MplsLabel", w="mpls_label"}},
    [71] = {"TCA_FLOWER_KEY_TCP_FLAGS", {"be16", "tc.flower.tcp_flags", "TCP flags", key="TcpFlags", w="tcp_flags", s="Mask", a="TcpFlagsMask", bits="tcp_flags"}},
    [72] = {"TCA_FLOWER_KEY_TCP_FLAGS_MASK", {"be16", "tc.flower.tcp_flags_mask", "TCP flags mask", key="TcpFlagsMask", bits="tcp_flags"}},
    [73] = {"TCA_FLOWER_KEY_IP_TOS", {"u8", "tc.flower.ip_tos", "IP TOS", unit="hex", key="IpTos", w="ip_tos", s="Mask", a="IpTosMask"}},
    [74] = {"TCA_FLOWER_KEY_IP_TOS_MASK", {"u8", "tc.flower.ip_tos_mask", "IP TOS mask", unit="hex", key="IpTosMask"}},
    [75] = {"TCA_FLOWER_KEY_IP_TTL", {"u8", "tc.flower.ip_ttl", "IP TTL", key="IpTtl", w="ip_ttl", s="Mask", a="IpTtlMask"}},
    [76] = {"TCA_FLOWER_KEY_IP_TTL_MASK", {"u8", "tc.flower.ip_ttl_mask", "IP TTL mask", unit="hex", key="IpTtlMask"}},
    [77] = {"TCA_FLOWER_KEY_CVLAN_ID", {"u16", "tc.flower.cvlan_id", "CVLAN ID", key="CvlanId", w="cvlan_id"}},
    [78] = {"TCA_FLOWER_KEY_CVLAN_PRIO", {"u8", "tc.flower.cvlan_prio", "CVLAN prio", key="CvlanPrio", w="cvlan_prio"}},
    [79] = {"TCA_FLOWER_KEY_CVLAN_ETH_TYPE", {"be16", "tc.flower.cvlan_eth_type", "CVLAN ETH type", unit="hex", names="eth_p", key="CvlanEthType", w="cvlan_ethtype"}},
    [80] = {"TCA_FLOWER_KEY_ENC_IP_TOS", {"u8", "tc.flower.enc_key_ip_tos", "Enc key IP TOS", unit="hex", key="EncKeyIpTos", w="enc_tos", s="Mask", a="EncKeyIpTosMask"}},
    [81] = {"TCA_FLOWER_KEY_ENC_IP_TOS_MASK", {"u8", "tc.flower.enc_key_ip_tos_mask", "Enc key IP TOS mask", unit="hex", key="EncKeyIpTosMask"}},
    [82] = {"TCA_FLOWER_KEY_ENC_IP_TTL", {"u8", "tc.flower.enc_key_ip_ttl", "Enc key IP TTL", key="EncKeyIpTtl", w="enc_ttl", s="Mask", a="EncKeyIpTtlMask"}},
    [83] = {"TCA_FLOWER_KEY_ENC_IP_TTL_MASK", {"u8", "tc.flower.enc_key_ip_ttl_mask", "Enc key IP TTL mask", unit="hex", key="EncKeyIpTtlMask"}},
    [84] = {"TCA_FLOWER_KEY_ENC_OPTS", {"list", "tc.flower.enc_opts", "Enc opts", key="EncOpts", list="enc_opts", nested=true}},
    [85] = {"TCA_FLOWER_KEY_ENC_OPTS_MASK", {"list", "tc.flower.enc_opts_mask", "Enc opts mask", key="EncOptsMask", list="enc_opts", nested=true}},
    [86] = {"TCA_FLOWER_IN_HW_COUNT", {"u32", "tc.flower.in_hw_count", "In HW count", key="InHwCount", w="in_hw_count", left=0}},
    [87] = {"TCA_FLOWER_KEY_PORT_SRC_MIN", {"be16", "tc.flower.port_src_min", "Ports src", key="PortSrcMin", w="src_port", s="Range", a="PortSrcMax", twin="tc.flower.src_port"}},
    [88] = {"TCA_FLOWER_KEY_PORT_SRC_MAX", {"be16", "tc.flower.port_src_max", "Port src max", upto="tc.flower.port_src_min", key="PortSrcMax"}},
    [89] = {"TCA_FLOWER_KEY_PORT_DST_MIN", {"be16", "tc.flower.port_dst_min", "Ports dst", key="PortDstMin", w="dst_port", s="Range", a="PortDstMax", twin="tc.flower.dst_port"}},
    [90] = {"TCA_FLOWER_KEY_PORT_DST_MAX", {"be16", "tc.flower.port_dst_max", "Port dst max", upto="tc.flower.port_dst_min", key="PortDstMax"}},
    [91] = {"TCA_FLOWER_KEY_CT_STATE", {"u16", "tc.flower.ct_state", "CT state", key="CtState", w="ct_state", s="Mask", a="CtStateMask", bits="flower_ct_flags"}},
    [92] = {"TCA_FLOWER_KEY_CT_STATE_MASK", {"u16", "tc.flower.ct_state_mask", "CT state mask", key="CtStateMask", bits="flower_ct_flags"}},
    [93] = {"TCA_FLOWER_KEY_CT_ZONE", {"u16", "tc.flower.ct_zone", "CT zone", key="CtZone", w="ct_zone", s="Mask", a="CtZoneMask"}},
    [94] = {"TCA_FLOWER_KEY_CT_ZONE_MASK", {"u16", "tc.flower.ct_zone_mask", "CT zone mask", unit="hex", key="CtZoneMask", left=65535}},
    [95] = {"TCA_FLOWER_KEY_CT_MARK", {"u32", "tc.flower.ct_mark", "CT mark", unit="hex", key="CtMark", w="ct_mark", s="Mask", a="CtMarkMask"}},
    [96] = {"TCA_FLOWER_KEY_CT_MARK_MASK", {"u32", "tc.flower.ct_mark_mask", "CT mark mask", unit="hex", key="CtMarkMask", left=4294967295}},
    [97] = {"TCA_FLOWER_KEY_CT_LABELS", {"bytes", "tc.flower.ct_labels", "CT labels", key="CtLabels", w="ct_label", s="Mask", a="CtLabelsMask", width=16}},
    [98] = {"TCA_FLOWER_KEY_CT_LABELS_MASK", {"bytes", "tc.flower.ct_labels_mask", "CT labels mask", key="CtLabelsMask", width=16}},
    [99] = {"TCA_FLOWER_KEY_MPLS_OPTS", {"list", "tc.flower.mpls_opts", "MPLS opts", key="MplsOpts", w="mpls", list="mpls_opts", nested=true}},
    [100] = {"TCA_FLOWER_KEY_HASH", {"u32", "tc.flower.key_hash", "Key hash", unit="hex", key="KeyHash", w="hash", s="Mask", a="KeyHashMask"}},
    [101] = {"TCA_FLOWER_KEY_HASH_MASK", {"u32", "tc.flower.key_hash_mask", "Key hash mask", unit="hex", key="KeyHashMask", left=4294967295}},
    [102] = {"TCA_FLOWER_KEY_NUM_OF_VLANS", {"u8", "tc.flower.num_of_vlans", "Num of vlans", key="NumOfVlans", w="num_of_vlans"}},
    [103] = {"TCA_FLOWER_KEY_PPPOE_SID", {"be16", "tc.flower.pppoe_sid", "PPPOE sid", key="PppoeSid", w="pppoe_sid"}},
    [104] = {"TCA_FLOWER_KEY_PPP_PROTO", {"be16", "tc.flower.ppp_proto", "PPP proto", unit="hex", key="PppProto", w="ppp_proto"}},
    [105] = {"TCA_FLOWER_KEY_L2TPV3_SID", {"be32", "tc.flower.l2tpv3_sid", "L2TPv3 sid", key="L2tpv3Sid", w="l2tpv3_sid"}},
    [106] = {"TCA_FLOWER_L2_MISS", {"u8", "tc.flower.l2_miss", "L2 miss", key="L2Miss", w="l2_miss"}},
    [107] = {"TCA_FLOWER_KEY_CFM", {"list", "tc.flower.cfm", "CFM", key="Cfm", w="cfm", list="cfm", nested=true}},
    [108] = {"TCA_FLOWER_KEY_SPI", {"be32", "tc.flower.spi", "SPI", unit="hex", key="Spi", w="spi", s="Mask", a="SpiMask"}},
    [109] = {"TCA_FLOWER_KEY_SPI_MASK", {"be32", "tc.flower.spi_mask", "SPI mask", unit="hex", key="SpiMask", left=4294967295}},
    [110] = {"TCA_FLOWER_KEY_ENC_FLAGS", {"be32", "tc.flower.enc_flags", "Enc flags", key="EncFlags", w="enc_flags", s="Mask", a="EncFlagsMask", bits="flower_key_flags"}},
    [111] = {"TCA_FLOWER_KEY_ENC_FLAGS_MASK", {"be32", "tc.flower.enc_flags_mask", "Enc flags mask", key="EncFlagsMask", bits="flower_key_flags"}},
  },
  enc_opts = {
    [1] = {"TCA_FLOWER_KEY_ENC_OPTS_GENEVE", {"list", "tc.enc_opts.geneve", "Geneve", key="Geneve", list="enc_opt_geneve", nested=true}},
    [2] = {"TCA_FLOWER_KEY_ENC_OPTS_VXLAN", {"list", "tc.enc_opts.vxlan", "VXLAN", key="Vxlan", list="enc_opt_vxlan", nested=true}},
    [3] = {"TCA_FLOWER_KEY_ENC_OPTS_ERSPAN", {"list", "tc.enc_opts.erspan", "Erspan", key="Erspan", list="enc_opt_erspan", nested=true}},
    [4] = {"TCA_FLOWER_KEY_ENC_OPTS_GTP", {"list", "tc.enc_opts.gtp", "GTP", key="Gtp", list="enc_opt_gtp", nested=true}},
    [5] = {"TCA_FLOWER_KEY_ENC_OPTS_PFCP", {"list", "tc.enc_opts.pfcp", "PFCP", key="Pfcp", list="enc_opt_pfcp", nested=true}},
  },
  enc_opt_geneve = {
    [1] = {"TCA_FLOWER_KEY_ENC_OPT_GENEVE_CLASS", {"be16", "tc.enc_opt_geneve.class", "Class", key="Class"}},
    [2] = {"TCA_FLOWER_KEY_ENC_OPT_GENEVE_TYPE", {"u8", "tc.enc_opt_geneve.type", "Type", key="Type"}},
    [3] = {"TCA_FLOWER_KEY_ENC_OPT_GENEVE_DATA", {"hex", "tc.enc_opt_geneve.data", "Data", key="Data", s="Bytes"}},
  },
  enc_opt_vxlan = {
    [1] = {"TCA_FLOWER_KEY_ENC_OPT_VXLAN_GBP", {"u32", "tc.enc_opt_vxlan.gbp", "Gbp", key="Gbp"}},
  },
  enc_opt_erspan = {
    [1] = {"TCA_FLOWER_KEY_ENC_OPT_ERSPAN_VER", {"u8", "tc.enc_opt_erspan.ver", "Ver", key="Ver"}},
    [2] = {"TCA_FLOWER_KEY_ENC_OPT_ERSPAN_INDEX", {"be32", "tc.enc_opt_erspan.index", "Index", key="Index"}},
    [3] = {"TCA_FLOWER_KEY_ENC_OPT_ERSPAN_DIR", {"u8", "tc.enc_opt_erspan.dir", "Dir", key="Dir"}},
    [4] = {"TCA_FLOWER_KEY_ENC_OPT_ERSPAN_HWID", {"u8", "tc.enc_opt_erspan.hwid", "Hwid", key="Hwid"}},
  },
  enc_opt_gtp = {
    [1] = {"TCA_FLOWER_KEY_ENC_OPT_GTP_PDU_TYPE", {"u8", "tc.enc_opt_gtp.pdu_type", "Pdu type", key="PduType"}},
    [2] = {"TCA_FLOWER_KEY_ENC_OPT_GTP_QFI", {"u8", "tc.enc_opt_gtp.qfi", "Qfi", key="Qfi"}},
  },
  enc_opt_pfcp = {
    [1] = {"TCA_FLOWER_KEY_ENC_OPT_PFCP_TYPE", {"u8", "tc.enc_opt_pfcp.type", "Type", key="Type"}},
    [2] = {"TCA_FLOWER_KEY_ENC_OPT_PFCP_SEID", {"be64", "tc.enc_opt_pfcp.seid", "Seid", key="Seid"}},
  },
  cfm = {
    [1] = {"TCA_FLOWER_KEY_CFM_MD_LEVEL", {"u8", "tc.cfm.md_level", "Md level", key="MdLevel", w="mdl"}},
    [2] = {"TCA_FLOWER_KEY_CFM_OPCODE", {"u8", "tc.cfm.opcode", "Opcode", key="Opcode", w="op"}},
  },
  mpls_opts = {
    [1] = {"TCA_FLOWER_KEY_MPLS_OPTS_LSE", {"list", "tc.mpls_opts.lse", "LSE", key="Lse", w="lse", list="mpls_lse", nested=true}},
  },
  mpls_lse = {
    [1] = {"TCA_FLOWER_KEY_MPLS_OPT_LSE_DEPTH", {"u8", "tc.mpls_lse.lse_depth", "LSE depth", key="LseDepth", w="depth"}},
    [2] = {"TCA_FLOWER_KEY_MPLS_OPT_LSE_TTL", {"u8", "tc.mpls_lse.lse_ttl", "LSE TTL", key="LseTtl", w="ttl"}},
    [3] = {"TCA_FLOWER_KEY_MPLS_OPT_LSE_BOS", {"u8", "tc.mpls_lse.lse_bos", "LSE bos", key="LseBos", w="bos"}},
    [4] = {"TCA_FLOWER_KEY_MPLS_OPT_LSE_TC", {"u8", "tc.mpls_lse.lse_tc", "LSE TC", key="LseTc", w="tc"}},
    [5] = {"TCA_FLOWER_KEY_MPLS_OPT_LSE_LABEL", {"u32", "tc.mpls_lse.lse_label", "LSE label", key="LseLabel", w="label"}},
  },
  fw = {
    [1] = {"TCA_FW_CLASSID", {"handle", "tc.fw.class_id", "Class ID", key="ClassId", w="classid", twin="tc.fw.class_id.number"}},
    [2] = {"TCA_FW_POLICE", {"list", "tc.fw.police", "Police", key="Police", w="police", s="Actions", list="police"}},
    [3] = {"TCA_FW_INDEV", {"text", "tc.fw.in_dev", "In dev", key="InDev", w="indev"}},
    [4] = {"TCA_FW_ACT", {"indexed", "tc.fw.action", "Action", key="Action", s="Actions", element="tc.action", inner={"own", false, "Action", list="action"}}},
    [5] = {"TCA_FW_MASK", {"u32", "tc.fw.mask", "Mask", unit="hex", key="Mask"}},
  },
  matchall = {
    [1] = {"TCA_MATCHALL_CLASSID", {"handle", "tc.matchall.class_id", "Class ID", key="ClassId", w="classid", twin="tc.matchall.class_id.number"}},
    [2] = {"TCA_MATCHALL_ACT", {"indexed", "tc.matchall.action", "Action", key="Action", s="Actions", element="tc.action", inner={"own", false, "Action", list="action"}}},
    [3] = {"TCA_MATCHALL_FLAGS", {"u32", "tc.matchall.flags", "Flags", key="Flags", s="Hardware", left=0, bits="tca_cls_flags"}},
    [4] = {"TCA_MATCHALL_PCNT", {"struct", "tc.matchall.pnct", "Pnct", key="Pnct", s="Statistics", width=8, least=8, parts={{"u64", "tc.matchall.pnct.rhit", "Rhit", unit="packets", key="rhit", w="hit", left=0}}}},
    [5] = {"TCA_MATCHALL_PAD", {"flag", "tc.matchall.pad", "Pad", key="Pad", left=-1}},
  },
  route = {
    [1] = {"TCA_ROUTE4_CLASSID", {"handle", "tc.route.class_id", "Class ID", key="ClassId", w="classid", twin="tc.route.class_id.number"}},
    [2] = {"TCA_ROUTE4_TO", {"u32", "tc.route.to", "To", key="To", w="to"}},
    [3] = {"TCA_ROUTE4_FROM", {"u32", "tc.route.from", "From", key="From", w="from"}},
    [4] = {"TCA_ROUTE4_IIF", {"u32", "tc.route.iif", "Iif", unit="ifindex", key="Iif", w="fromif"}},
    [5] = {"TCA_ROUTE4_POLICE", {"list", "tc.route.police", "Police", key="Police", w="police", s="Actions", list="police"}},
    [6] = {"TCA_ROUTE4_ACT", {"indexed", "tc.route.action", "Action", key="Action", s="Actions", element="tc.action", inner={"own", false, "Action", list="action"}}},
  },
  rsvp = {
    [1] = {"TCA_RSVP_CLASSID", {"handle", "tc.rsvp.class_id", "Class ID", key="ClassId", w="classid", twin="tc.rsvp.class_id.number"}},
    [2] = {"TCA_RSVP_DST", {"ipv4", "tc.rsvp.dst", "Dst", key="Dst"}},
    [3] = {"TCA_RSVP_SRC", {"ipv4", "tc.rsvp.src", "Src", key="Src"}},
    [4] = {"TCA_RSVP_PINFO", {"struct", "tc.rsvp.pinfo", "Pinfo", key="Pinfo", width=28, least=28, parts={{"struct", "tc.rsvp.pinfo.dpi", "Dpi", key="dpi", width=12, least=12, parts={{"u32", "tc.rsvp.pinfo.dpi.key", "Key", unit="hex", key="key"}, {"u32", "tc.rsvp.pinfo.dpi.mask", "Mask", unit="hex", key="mask"}, {"s32", "tc.rsvp.pinfo.dpi.offset", "Offset", key="offset"}}}, {"struct", "tc.rsvp.pinfo.spi", "SPI", key="spi", width=12, least=12, parts={{"u32", "tc.rsvp.pinfo.spi.key", "Key", unit="hex", key="key"}, {"u32", "tc.rsvp.pinfo.spi.mask", "Mask", unit="hex", key="mask"}, {"s32", "tc.rsvp.pinfo.spi.offset", "Offset", key="offset"}}}, {"u8", "tc.rsvp.pinfo.protocol", "Protocol", names="ip_proto", key="protocol"}, {"u8", "tc.rsvp.pinfo.tunnelid", "Tunnelid", key="tunnelid"}, {"u8", "tc.rsvp.pinfo.tunnelhdr", "Tunnelhdr", key="tunnelhdr"}, {"pad", "tc.rsvp.pinfo.pad", "Pad", key="pad", width=1}}}},
    [5] = {"TCA_RSVP_POLICE", {"list", "tc.rsvp.police", "Police", key="Police", w="police", s="Actions", list="police"}},
    [6] = {"TCA_RSVP_ACT", {"indexed", "tc.rsvp.action", "Action", key="Action", s="Actions", element="tc.action", inner={"own", false, "Action", list="action"}}},
  },
  rsvp6 = {
    [1] = {"TCA_RSVP_CLASSID", {"handle", "tc.rsvp6.class_id", "Class ID", key="ClassId", w="classid", twin="tc.rsvp6.class_id.number"}},
    [2] = {"TCA_RSVP_DST", {"ipv6", "tc.rsvp6.dst", "Dst", key="Dst"}},
    [3] = {"TCA_RSVP_SRC", {"ipv6", "tc.rsvp6.src", "Src", key="Src"}},
    [4] = {"TCA_RSVP_PINFO", {"struct", "tc.rsvp6.pinfo", "Pinfo", key="Pinfo", width=28, least=28, parts={{"struct", "tc.rsvp6.pinfo.dpi", "Dpi", key="dpi", width=12, least=12, parts={{"u32", "tc.rsvp6.pinfo.dpi.key", "Key", unit="hex", key="key"}, {"u32", "tc.rsvp6.pinfo.dpi.mask", "Mask", unit="hex", key="mask"}, {"s32", "tc.rsvp6.pinfo.dpi.offset", "Offset", key="offset"}}}, {"struct", "tc.rsvp6.pinfo.spi", "SPI", key="spi", width=12, least=12, parts={{"u32", "tc.rsvp6.pinfo.spi.key", "Key", unit="hex", key="key"}, {"u32", "tc.rsvp6.pinfo.spi.mask", "Mask", unit="hex", key="mask"}, {"s32", "tc.rsvp6.pinfo.spi.offset", "Offset", key="offset"}}}, {"u8", "tc.rsvp6.pinfo.protocol", "Protocol", names="ip_proto", key="protocol"}, {"u8", "tc.rsvp6.pinfo.tunnelid", "Tunnelid", key="tunnelid"}, {"u8", "tc.rsvp6.pinfo.tunnelhdr", "Tunnelhdr", key="tunnelhdr"}, {"pad", "tc.rsvp6.pinfo.pad", "Pad", key="pad", width=1}}}},
    [5] = {"TCA_RSVP_POLICE", {"list", "tc.rsvp6.police", "Police", key="Police", w="police", s="Actions", list="police"}},
    [6] = {"TCA_RSVP_ACT", {"indexed", "tc.rsvp6.action", "Action", key="Action", s="Actions", element="tc.action", inner={"own", false, "Action", list="action"}}},
  },
  tcindex = {
    [1] = {"TCA_TCINDEX_HASH", {"u32", "tc.tcindex.hash", "Hash", key="Hash", w="hash"}},
    [2] = {"TCA_TCINDEX_MASK", {"u16", "tc.tcindex.mask", "Mask", unit="hex", key="Mask", w="mask"}},
    [3] = {"TCA_TCINDEX_SHIFT", {"u32", "tc.tcindex.shift", "Shift", key="Shift", w="shift"}},
    [4] = {"TCA_TCINDEX_FALL_THROUGH", {"u32", "tc.tcindex.fall_through", "Fall through", key="FallThrough", w="pass_on|fall_through", s="Choice"}},
    [5] = {"TCA_TCINDEX_CLASSID", {"handle", "tc.tcindex.class_id", "Class ID", key="ClassId", w="classid", twin="tc.tcindex.class_id.number"}},
    [6] = {"TCA_TCINDEX_POLICE", {"list", "tc.tcindex.police", "Police", key="Police", w="police", s="Actions", list="police"}},
    [7] = {"TCA_TCINDEX_ACT", {"indexed", "tc.tcindex.action", "Action", key="Action", s="Actions", element="tc.action", inner={"own", false, "Action", list="action"}}},
  },
  u32 = {
    [1] = {"TCA_U32_CLASSID", {"handle", "tc.u32.class_id", "Class ID", key="ClassId", w="classid", twin="tc.u32.class_id.number"}},
    [2] = {"TCA_U32_HASH", {"u32", "tc.u32.hash", "Hash", unit="u32_handle", key="Hash", w="ht"}},
    [3] = {"TCA_U32_LINK", {"u32", "tc.u32.link", "Link", unit="u32_handle", key="Link", w="link"}},
    [4] = {"TCA_U32_DIVISOR", {"u32", "tc.u32.divisor", "Divisor", key="Divisor", w="divisor"}},
    [5] = {"TCA_U32_SEL", {"struct", "tc.u32.selector", "Selector", key="Selector", s="Flat", least=16, parts={{"u8", "tc.u32.selector.flags", "Flags", key="flags", left=1, bits="tc_u32"}, {"u8", "tc.u32.selector.offshift", "Offshift", key="offshift", left=0}, {"u8", "tc.u32.selector.nkeys", "Nkeys", key="nkeys", left=-1}, {"pad", "tc.u32.selector.padding", "Padding", key="padding", width=1}, {"be16", "tc.u32.selector.offmask", "Offmask", unit="hex", key="offmask", left=0}, {"u16", "tc.u32.selector.off", "Off", unit="bytes", key="off", left=0}, {"s16", "tc.u32.selector.offoff", "Offoff", unit="bytes", key="offoff", left=0}, {"s16", "tc.u32.selector.hoff", "Hoff", unit="bytes", key="hoff", left=0}, {"be32", "tc.u32.selector.hmask", "Hmask", unit="hex", key="hmask", left=0}, {"array", false, "Keys", key="keys", s="Keys", inner={"struct", "tc.u32.selector.keys", "Key", width=16, least=16, parts={{"be32", "tc.u32.selector.keys.mask", "Mask", unit="hex", key="mask"}, {"be32", "tc.u32.selector.keys.val", "Val", unit="hex", key="val"}, {"s32", "tc.u32.selector.keys.off", "Off", unit="bytes", key="off"}, {"s32", "tc.u32.selector.keys.offmask", "Offmask", key="offmask", left=0}}}}}}},
    [6] = {"TCA_U32_POLICE", {"list", "tc.u32.police", "Police", key="Police", w="police", s="Actions", list="police"}},
    [7] = {"TCA_U32_ACT", {"indexed", "tc.u32.action", "Action", key="Action", s="Actions", element="tc.action", inner={"own", false, "Action", list="action"}}},
    [8] = {"TCA_U32_INDEV", {"text", "tc.u32.indev", "Indev", key="Indev", w="indev"}},
    [9] = {"TCA_U32_PCNT", {"struct", "tc.u32.pnct", "Pnct", key="Pnct", s="Statistics", least=16, parts={{"u64", "tc.u32.pnct.rcnt", "Rcnt", unit="packets", key="rcnt", w="hit", left=0}, {"u64", "tc.u32.pnct.rhit", "Rhit", unit="packets", key="rhit", w="success", left=0}, {"array", false, "Kcnts", key="kcnts", inner={"u64", "tc.u32.pnct.kcnts", "Kcnts", unit="packets"}}}}},
    [10] = {"TCA_U32_MARK", {"struct", "tc.u32.mark", "Mark", key="Mark", w="mark", width=12, least=12, parts={{"u32", "tc.u32.mark.val", "Val", unit="hex", key="val", s="Alone"}, {"u32", "tc.u32.mark.mask", "Mask", unit="hex", key="mask", s="Alone"}, {"u32", "tc.u32.mark.success", "Success", key="success", s="Statistics", left=0}}}},
    [11] = {"TCA_U32_FLAGS", {"u32", "tc.u32.flags", "Flags", key="Flags", s="Hardware", left=0, bits="tca_cls_flags"}},
    [12] = {"TCA_U32_PAD", {"flag", "tc.u32.pad", "Pad", key="Pad", left=-1}},
  },
  tc = {
    [1] = {"TCA_KIND", {"kind", "tc.kind", "Kind", key="Kind"}},
    [2] = {"TCA_OPTIONS", {"by", "tc.options", "Options", which="options", kinds="tc", other={"hex", "tc.options_raw", "Options raw", key="OptionsRaw", s="Bytes"}, key="Options", s="Flat"}},
    [3] = {"TCA_STATS", {"struct", "tc.stats", "Stats", key="Stats", s="Statistics", width=40, least=40, parts={{"u64", "tc.stats.bytes", "Bytes", unit="bytes", key="bytes", w="sent", s="Count"}, {"u32", "tc.stats.packets", "Packets", unit="packets", key="packets", s="Count"}, {"u32", "tc.stats.drops", "Drops", unit="packets", key="drops", w="dropped", s="Count"}, {"u32", "tc.stats.overlimits", "Overlimits", key="overlimits", w="overlimits", s="Count"}, {"u32", "tc.stats.bps", "Bps", unit="bytes/s", key="bps", w="rate", s="Count", left=0}, {"u32", "tc.stats.pps", "Pps", unit="packets/s", key="pps", s="Count", left=0}, {"u32", "tc.stats.qlen", "Qlen", unit="packets", key="qlen", s="Count"}, {"u32", "tc.stats.backlog", "Backlog", unit="bytes", key="backlog", w="backlog", s="Count"}, {"pad", "tc.stats.padding", "Padding", key="padding", width=4}}}},
    [4] = {"TCA_XSTATS", {"by", "tc.xstats", "Xstats", which="statistics", kinds="tc", other={"choice", "tc.xstats", "Xstats", key="Xstats", s="Statistics", parts={}}, key="Xstats", s="Statistics"}},
    [5] = {"TCA_RATE", {"struct", "tc.rate", "Rate", key="Rate", w="estimator", width=2, least=2, parts={{"s8", "tc.rate.interval", "Interval", unit="log2", key="interval"}, {"u8", "tc.rate.ewma_log", "Ewma log", unit="log2", key="ewma_log"}}}},
    [6] = {"TCA_FCNT", {"u32", "tc.fcnt", "Fcnt", key="Fcnt"}},
    [7] = {"TCA_STATS2", {"list", "tc.stats2", "Stats2", key="Stats2", s="Statistics", list="stats"}},
    [8] = {"TCA_STAB", {"list", "tc.stab", "Stab", key="Stab", w="stab", list="stab"}},
    [9] = {"TCA_PAD", {"flag", "tc.pad", "Pad", key="Pad", left=-1}},
    [10] = {"TCA_DUMP_INVISIBLE", {"flag", "tc.dump_invisible", "Dump invisible", key="DumpInvisible", w="invisible"}},
    [11] = {"TCA_CHAIN", {"u32", "tc.chain", "Chain", key="Chain", w="chain", s="Head", left=0}},
    [12] = {"TCA_HW_OFFLOAD", {"u8", "tc.hw_offload", "HW offload", key="HwOffload", w="|offloaded", s="Choice", left=0}},
    [13] = {"TCA_INGRESS_BLOCK", {"u32", "tc.ingress_block", "Ingress block", key="IngressBlock", w="ingress_block"}},
    [14] = {"TCA_EGRESS_BLOCK", {"u32", "tc.egress_block", "Egress block", key="EgressBlock", w="egress_block"}},
    [15] = {"TCA_DUMP_FLAGS", {"struct", "tc.dump_flags", "Dump flags", key="DumpFlags", width=8, least=8, parts={{"u32", "tc.dump_flags.value", "Value", key="value", bits="tca_dump_flags"}, {"u32", "tc.dump_flags.selector", "Selector", key="selector", bits="tca_dump_flags"}}}},
    [16] = {"TCA_EXT_WARN_MSG", {"text", "tc.ext_warn_msg", "Ext warn msg", key="ExtWarnMsg"}},
  },
  action_message = {
    [1] = {"TCA_ROOT_TAB", {"indexed", "tc.actions", "Actions", key="Actions", s="Actions", element="tc.action", inner={"own", false, "Action", list="action"}}},
    [2] = {"TCA_ROOT_FLAGS", {"struct", "tc.flags", "Flags", key="Flags", width=8, least=8, parts={{"u32", "tc.flags.flags", "Flags", key="flags", bits="tca_act_flag"}, {"u32", "tc.flags.selector", "Selector", key="selector", bits="tca_act_flag"}}}},
    [3] = {"TCA_ROOT_COUNT", {"u32", "tc.root_count", "Root count", key="RootCount", w="acts"}},
    [4] = {"TCA_ROOT_TIME_DELTA", {"u32", "tc.root_time_delta", "Root time delta", unit="ms", key="RootTimeDelta", w="since"}},
    [5] = {"TCA_ROOT_EXT_WARN_MSG", {"bare", "tc.root_ext_warn_msg", "Root ext warn msg", key="RootExtWarnMsg"}},
  },
  atm = {
    [1] = {"TCA_ATM_FD", {"u32", "tc.atm.fd", "FD", key="Fd"}},
    [2] = {"TCA_ATM_PTR", {"hex", "tc.atm.ptr", "Ptr", key="Ptr", s="Bytes"}},
    [3] = {"TCA_ATM_HDR", {"array", false, "Hdr", key="Hdr", s="Bytes", inner={"u8", "tc.atm.hdr", "Hdr"}}},
    [4] = {"TCA_ATM_EXCESS", {"u32", "tc.atm.excess", "Excess", key="Excess"}},
    [5] = {"TCA_ATM_ADDR", {"hex", "tc.atm.addr", "Addr", key="Addr", s="Bytes"}},
    [6] = {"TCA_ATM_STATE", {"u32", "tc.atm.state", "State", key="State"}},
  },
  cake = {
    [1] = {"TCA_CAKE_PAD", {"flag", "tc.cake.pad", "Pad", key="Pad", left=-1}},
    [2] = {"TCA_CAKE_BASE_RATE64", {"u64", "tc.cake.base_rate64", "Base rate64", unit="bytes/s", key="BaseRate64", w="bandwidth"}},
    [3] = {"TCA_CAKE_DIFFSERV_MODE", {"u32", "tc.cake.diffserv_mode", "Diffserv mode", key="DiffservMode", s="Alone", enum="cake_diffserv"}},
    [4] = {"TCA_CAKE_ATM", {"u32", "tc.cake.atm", "ATM", key="Atm", w="noatm|atm|ptm", s="Choice", enum="cake_atm"}},
    [5] = {"TCA_CAKE_FLOW_MODE", {"u32", "tc.cake.flow_mode", "Flow mode", key="FlowMode", w="flowblind|srchost|dsthost|hosts|flows|dual-srchost|dual-dsthost|triple-isolate", s="Choice", enum="cake_flow"}},
    [6] = {"TCA_CAKE_OVERHEAD", {"s32", "tc.cake.overhead", "Overhead", unit="bytes", key="Overhead", w="overhead"}},
    [7] = {"TCA_CAKE_RTT", {"u32", "tc.cake.rtt", "RTT", unit="us", key="Rtt", w="rtt"}},
    [8] = {"TCA_CAKE_TARGET", {"u32", "tc.cake.target", "Target", unit="us", key="Target"}},
    [9] = {"TCA_CAKE_AUTORATE", {"u32", "tc.cake.autorate", "Autorate", key="Autorate", w="|autorate-ingress", s="Choice", left=0}},
    [10] = {"TCA_CAKE_MEMORY", {"u32", "tc.cake.memory", "Memory", unit="bytes", key="Memory", w="memlimit", left=0}},
    [11] = {"TCA_CAKE_NAT", {"u32", "tc.cake.nat", "NAT", key="Nat", w="nonat|nat", s="Choice"}},
    [12] = {"TCA_CAKE_RAW", {"u32", "tc.cake.raw", "Raw", key="Raw", w="raw|", s="Choice"}},
    [13] = {"TCA_CAKE_WASH", {"u32", "tc.cake.wash", "Wash", key="Wash", w="nowash|wash", s="Choice"}},
    [14] = {"TCA_CAKE_MPU", {"u32", "tc.cake.mpu", "MPU", unit="bytes", key="Mpu", w="mpu", left=0}},
    [15] = {"TCA_CAKE_INGRESS", {"u32", "tc.cake.ingress", "Ingress", key="Ingress", w="egress|ingress", s="Choice", left=0}},
    [16] = {"TCA_CAKE_ACK_FILTER", {"u32", "tc.cake.ack_filter", "ACK filter", key="AckFilter", w="no-ack-filter|ack-filter|ack-filter-aggressive", s="Choice", enum="cake_ack"}},
    [17] = {"TCA_CAKE_SPLIT_GSO", {"u32", "tc.cake.split_gso", "Split GSO", key="SplitGso", w="no-split-gso|split-gso", s="Choice"}},
    [18] = {"TCA_CAKE_FWMARK", {"u32", "tc.cake.fwmark", "Fwmark", unit="hex", key="Fwmark", w="fwmark", left=0}},
  },
  cake_stats = {
    [1] = {"TCA_CAKE_STATS_PAD", {"flag", "tc.cake_stats.pad", "Pad", key="Pad", left=-1}},
    [2] = {"TCA_CAKE_STATS_CAPACITY_ESTIMATE64", {"u64", "tc.cake_stats.capacity_estimate64", "Capacity estimate64", unit="bytes/s", key="CapacityEstimate64", w="capacity", left=0}},
    [3] = {"TCA_CAKE_STATS_MEMORY_LIMIT", {"u32", "tc.cake_stats.memory_limit", "Memory limit", unit="bytes", key="MemoryLimit", left=0}},
    [4] = {"TCA_CAKE_STATS_MEMORY_USED", {"u32", "tc.cake_stats.memory_used", "Memory used", unit="bytes", key="MemoryUsed", left=0}},
    [5] = {"TCA_CAKE_STATS_AVG_NETOFF", {"u32", "tc.cake_stats.avg_netoff", "Avg netoff", unit="bytes", key="AvgNetoff", left=0}},
    [6] = {"TCA_CAKE_STATS_MIN_NETLEN", {"u32", "tc.cake_stats.min_netlen", "Min netlen", unit="bytes", key="MinNetlen", left=0}},
    [7] = {"TCA_CAKE_STATS_MAX_NETLEN", {"u32", "tc.cake_stats.max_netlen", "Max netlen", unit="bytes", key="MaxNetlen", left=0}},
    [8] = {"TCA_CAKE_STATS_MIN_ADJLEN", {"u32", "tc.cake_stats.min_adjlen", "Min adjlen", unit="bytes", key="MinAdjlen", left=0}},
    [9] = {"TCA_CAKE_STATS_MAX_ADJLEN", {"u32", "tc.cake_stats.max_adjlen", "Max adjlen", unit="bytes", key="MaxAdjlen", left=0}},
    [10] = {"TCA_CAKE_STATS_TIN_STATS", {"indexed", "tc.cake_stats.tin_stats", "Tin stats", key="TinStats", element="tc.cake_tin_stats", inner={"list", false, "Tin", list="cake_tin_stats"}}},
    [11] = {"TCA_CAKE_STATS_DEFICIT", {"s32", "tc.cake_stats.deficit", "Deficit", key="Deficit", left=0}},
    [12] = {"TCA_CAKE_STATS_COBALT_COUNT", {"u32", "tc.cake_stats.cobalt_count", "Cobalt count", key="CobaltCount", left=0}},
    [13] = {"TCA_CAKE_STATS_DROPPING", {"u32", "tc.cake_stats.dropping", "Dropping", key="Dropping", left=0}},
    [14] = {"TCA_CAKE_STATS_DROP_NEXT_US", {"s32", "tc.cake_stats.drop_next_us", "Drop next us", unit="us", key="DropNextUs", left=0}},
    [15] = {"TCA_CAKE_STATS_P_DROP", {"u32", "tc.cake_stats.pdrop", "Pdrop", key="PDrop", left=0}},
    [16] = {"TCA_CAKE_STATS_BLUE_TIMER_US", {"s32", "tc.cake_stats.blue_timer_us", "Blue timer us", unit="us", key="BlueTimerUs", left=0}},
    [17] = {"TCA_CAKE_STATS_ACTIVE_QUEUES", {"u32", "tc.cake_stats.active_queues", "Active queues", key="ActiveQueues", left=0}},
  },
  cake_tin_stats = {
    [1] = {"TCA_CAKE_TIN_STATS_PAD", {"flag", "tc.cake_tin_stats.pad", "Pad", key="Pad", left=-1}},
    [2] = {"TCA_CAKE_TIN_STATS_SENT_PACKETS", {"u32", "tc.cake_tin_stats.sent_packets", "Sent packets", unit="packets", key="SentPackets", left=0}},
    [3] = {"TCA_CAKE_TIN_STATS_SENT_BYTES64", {"u64", "tc.cake_tin_stats.sent_bytes64", "Sent bytes64", unit="bytes", key="SentBytes64", left=0}},
    [4] = {"TCA_CAKE_TIN_STATS_DROPPED_PACKETS", {"u32", "tc.cake_tin_stats.dropped_packets", "Dropped packets", unit="packets", key="DroppedPackets", left=0}},
    [5] = {"TCA_CAKE_TIN_STATS_DROPPED_BYTES64", {"u64", "tc.cake_tin_stats.dropped_bytes64", "Dropped bytes64", unit="bytes", key="DroppedBytes64", left=0}},
    [6] = {"TCA_CAKE_TIN_STATS_ACKS_DROPPED_PACKETS", {"u32", "tc.cake_tin_stats.acks_dropped_packets", "Acks dropped packets", unit="packets", key="AcksDroppedPackets", left=0}},
    [7] = {"TCA_CAKE_TIN_STATS_ACKS_DROPPED_BYTES64", {"u64", "tc.cake_tin_stats.acks_dropped_bytes64", "Acks dropped bytes64", unit="bytes", key="AcksDroppedBytes64", left=0}},
    [8] = {"TCA_CAKE_TIN_STATS_ECN_MARKED_PACKETS", {"u32", "tc.cake_tin_stats.ecn_marked_packets", "ECN marked packets", unit="packets", key="EcnMarkedPackets", left=0}},
    [9] = {"TCA_CAKE_TIN_STATS_ECN_MARKED_BYTES64", {"u64", "tc.cake_tin_stats.ecn_marked_bytes64", "ECN marked bytes64", unit="bytes", key="EcnMarkedBytes64", left=0}},
    [10] = {"TCA_CAKE_TIN_STATS_BACKLOG_PACKETS", {"u32", "tc.cake_tin_stats.backlog_packets", "Backlog packets", unit="packets", key="BacklogPackets", left=0}},
    [11] = {"TCA_CAKE_TIN_STATS_BACKLOG_BYTES", {"u32", "tc.cake_tin_stats.backlog_bytes", "Backlog bytes", unit="bytes", key="BacklogBytes", left=0}},
    [12] = {"TCA_CAKE_TIN_STATS_THRESHOLD_RATE64", {"u64", "tc.cake_tin_stats.threshold_rate64", "Threshold rate64", unit="bytes/s", key="ThresholdRate64", left=0}},
    [13] = {"TCA_CAKE_TIN_STATS_TARGET_US", {"u32", "tc.cake_tin_stats.target_us", "Target us", unit="us", key="TargetUs", left=0}},
    [14] = {"TCA_CAKE_TIN_STATS_INTERVAL_US", {"u32", "tc.cake_tin_stats.interval_us", "Interval us", unit="us", key="IntervalUs", left=0}},
    [15] = {"TCA_CAKE_TIN_STATS_WAY_INDIRECT_HITS", {"u32", "tc.cake_tin_stats.way_indirect_hits", "Way indirect hits", key="WayIndirectHits", left=0}},
    [16] = {"TCA_CAKE_TIN_STATS_WAY_MISSES", {"u32", "tc.cake_tin_stats.way_misses", "Way misses", key="WayMisses", left=0}},
    [17] = {"TCA_CAKE_TIN_STATS_WAY_COLLISIONS", {"u32", "tc.cake_tin_stats.way_collisions", "Way collisions", key="WayCollisions", left=0}},
    [18] = {"TCA_CAKE_TIN_STATS_PEAK_DELAY_US", {"u32", "tc.cake_tin_stats.peak_delay_us", "Peak delay us", unit="us", key="PeakDelayUs", left=0}},
    [19] = {"TCA_CAKE_TIN_STATS_AVG_DELAY_US", {"u32", "tc.cake_tin_stats.avg_delay_us", "Avg delay us", unit="us", key="AvgDelayUs", left=0}},
    [20] = {"TCA_CAKE_TIN_STATS_BASE_DELAY_US", {"u32", "tc.cake_tin_stats.base_delay_us", "Base delay us", unit="us", key="BaseDelayUs", left=0}},
    [21] = {"TCA_CAKE_TIN_STATS_SPARSE_FLOWS", {"u32", "tc.cake_tin_stats.sparse_flows", "Sparse flows", key="SparseFlows", left=0}},
    [22] = {"TCA_CAKE_TIN_STATS_BULK_FLOWS", {"u32", "tc.cake_tin_stats.bulk_flows", "Bulk flows", key="BulkFlows", left=0}},
    [23] = {"TCA_CAKE_TIN_STATS_UNRESPONSIVE_FLOWS", {"u32", "tc.cake_tin_stats.unresponsive_flows", "Unresponsive flows", key="UnresponsiveFlows", left=0}},
    [24] = {"TCA_CAKE_TIN_STATS_MAX_SKBLEN", {"u32", "tc.cake_tin_stats.max_skblen", "Max skblen", unit="bytes", key="MaxSkblen", left=0}},
    [25] = {"TCA_CAKE_TIN_STATS_FLOW_QUANTUM", {"u32", "tc.cake_tin_stats.flow_quantum", "Flow quantum", unit="bytes", key="FlowQuantum", left=0}},
  },
  cbq = {
    [1] = {"TCA_CBQ_LSSOPT", {"struct", "tc.cbq.lssopt", "Lssopt", key="Lssopt", width=20, least=20, parts={{"u8", "tc.cbq.lssopt.change", "Change", key="change", bits="tcf_cbq_lss_change"}, {"u8", "tc.cbq.lssopt.flags", "Flags", key="flags", bits="tcf_cbq_lss_flags"}, {"u8", "tc.cbq.lssopt.ewma_log", "Ewma log", key="ewma_log"}, {"u8", "tc.cbq.lssopt.level", "Level", key="level"}, {"u32", "tc.cbq.lssopt.maxidle", "Maxidle", key="maxidle"}, {"u32", "tc.cbq.lssopt.minidle", "Minidle", key="minidle"}, {"u32", "tc.cbq.lssopt.offtime", "Offtime", key="offtime"}, {"u32", "tc.cbq.lssopt.avpkt", "Avpkt", key="avpkt"}}}},
    [2] = {"TCA_CBQ_WRROPT", {"struct", "tc.cbq.wrropt", "Wrropt", key="Wrropt", width=12, least=12, parts={{"u8", "tc.cbq.wrropt.flags", "Flags", key="flags"}, {"u8", "tc.cbq.wrropt.priority", "Priority", key="priority"}, {"u8", "tc.cbq.wrropt.cpriority", "Cpriority", key="cpriority"}, {"pad", "tc.cbq.wrropt.__reserved", "  reserved", key="__reserved", width=1}, {"u32", "tc.cbq.wrropt.allot", "Allot", key="allot"}, {"u32", "tc.cbq.wrropt.weight", "Weight", key="weight"}}}},
    [3] = {"TCA_CBQ_FOPT", {"struct", "tc.cbq.fopt", "Fopt", key="Fopt", width=12, least=12, parts={{"u32", "tc.cbq.fopt.split", "Split", unit="hex", key="split"}, {"u32", "tc.cbq.fopt.defmap", "Defmap", unit="hex", key="defmap"}, {"u32", "tc.cbq.fopt.defchange", "Defchange", unit="hex", key="defchange"}}}},
    [4] = {"TCA_CBQ_OVL_STRATEGY", {"struct", "tc.cbq.ovl_strategy", "Ovl strategy", key="OvlStrategy", width=8, least=8, parts={{"u8", "tc.cbq.ovl_strategy.strategy", "Strategy", key="strategy"}, {"u8", "tc.cbq.ovl_strategy.priority2", "Priority2", key="priority2"}, {"pad", "tc.cbq.ovl_strategy.pad", "Pad", key="pad", width=2}, {"u32", "tc.cbq.ovl_strategy.penalty", "Penalty", key="penalty"}}}},
    [5] = {"TCA_CBQ_RATE", {"struct", "tc.cbq.rate", "Rate", key="Rate", width=12, least=12, parts={{"u8", "tc.cbq.rate.cell_log", "Cell log", unit="log2", key="cell_log", left=0}, {"u8", "tc.cbq.rate.linklayer", "Linklayer", key="linklayer", w="linklayer", below=2, enum="tc_linklayer"}, {"u16", "tc.cbq.rate.overhead", "Overhead", unit="bytes", key="overhead", w="overhead", left=0}, {"s16", "tc.cbq.rate.cell_align", "Cell align", key="cell_align", left=-1}, {"u16", "tc.cbq.rate.mpu", "MPU", unit="bytes", key="mpu", w="mpu", left=0}, {"u32", "tc.cbq.rate.rate", "Rate", unit="bytes/s", key="rate", w="rate", s="OfRate"}}}},
    [6] = {"TCA_CBQ_RTAB", {"hex", "tc.cbq.rtab", "RTAB", key="Rtab", s="Bytes"}},
    [7] = {"TCA_CBQ_POLICE", {"struct", "tc.cbq.police", "Police", key="Police", width=4, least=4, parts={{"u8", "tc.cbq.police.police", "Police", key="police"}, {"pad", "tc.cbq.police.__res1", "  res1", key="__res1", width=1}, {"pad", "tc.cbq.police.__res2", "  res2", key="__res2", width=2}}}},
  },
  cbs = {
    [1] = {"TCA_CBS_PARMS", {"struct", "tc.cbs.parms", "Parms", key="Parms", s="Flat", width=20, least=20, parts={{"u8", "tc.cbs.parms.offload", "Offload", key="offload", w="offload"}, {"pad", "tc.cbs.parms._pad", " pad", key="_pad", width=3}, {"s32", "tc.cbs.parms.hicredit", "Hicredit", unit="bytes", key="hicredit", w="hicredit"}, {"s32", "tc.cbs.parms.locredit", "Locredit", unit="bytes", key="locredit", w="locredit"}, {"s32", "tc.cbs.parms.idleslope", "Idleslope", unit="kbit/s", key="idleslope", w="idleslope"}, {"s32", "tc.cbs.parms.sendslope", "Sendslope", unit="kbit/s", key="sendslope", w="sendslope"}}}},
  },
  choke = {
    [1] = {"TCA_CHOKE_PARMS", {"struct", "tc.choke.parms", "Parms", key="Parms", s="Flat", width=16, least=16, parts={{"u32", "tc.choke.parms.limit", "Limit", unit="packets", key="limit", w="limit"}, {"u32", "tc.choke.parms.qth_min", "Qth min", unit="packets", key="qth_min", w="min"}, {"u32", "tc.choke.parms.qth_max", "Qth max", unit="packets", key="qth_max", w="max"}, {"u8", "tc.choke.parms.wlog", "Wlog", unit="log2", key="Wlog", w="ewma"}, {"u8", "tc.choke.parms.plog", "Plog", unit="log2", key="Plog", w="Plog"}, {"u8", "tc.choke.parms.scell_log", "Scell log", unit="log2", key="Scell_log", w="Scell_log"}, {"u8", "tc.choke.parms.flags", "Flags", key="flags", s="Bits", left=0, bits="tc_red"}}}},
    [2] = {"TCA_CHOKE_STAB", {"hex", "tc.choke.stab", "Stab", key="Stab", s="Bytes"}},
    [3] = {"TCA_CHOKE_MAX_P", {"u32", "tc.choke.max_p", "Max p", unit="probability", key="MaxP", w="probability"}},
  },
  codel = {
    [1] = {"TCA_CODEL_TARGET", {"u32", "tc.codel.target", "Target", unit="us", key="Target", w="target"}},
    [2] = {"TCA_CODEL_LIMIT", {"u32", "tc.codel.limit", "Limit", unit="packets", key="Limit", w="limit"}},
    [3] = {"TCA_CODEL_INTERVAL", {"u32", "tc.codel.interval", "Interval", unit="us", key="Interval", w="interval"}},
    [4] = {"TCA_CODEL_ECN", {"u32", "tc.codel.ecn", "ECN", key="Ecn", w="noecn|ecn", s="Choice", left=0}},
    [5] = {"TCA_CODEL_CE_THRESHOLD", {"u32", "tc.codel.ce_threshold", "Ce threshold", unit="us", key="CeThreshold", w="ce_threshold"}},
  },
  drr = {
    [1] = {"TCA_DRR_QUANTUM", {"u32", "tc.drr.quantum", "Quantum", unit="bytes", key="Quantum", w="quantum"}},
  },
  dsmark = {
    [1] = {"TCA_DSMARK_INDICES", {"u16", "tc.dsmark.indices", "Indices", key="Indices", w="indices"}},
    [2] = {"TCA_DSMARK_DEFAULT_INDEX", {"u16", "tc.dsmark.default_index", "Default index", key="DefaultIndex", w="default_index"}},
    [3] = {"TCA_DSMARK_SET_TC_INDEX", {"flag", "tc.dsmark.set_tc_index", "Set TC index", key="SetTcIndex", w="set_tc_index"}},
    [4] = {"TCA_DSMARK_MASK", {"u8", "tc.dsmark.mask", "Mask", unit="hex", key="Mask", w="mask"}},
    [5] = {"TCA_DSMARK_VALUE", {"u8", "tc.dsmark.value", "Value", unit="hex", key="Value", w="value"}},
  },
  dualpi2 = {
    [1] = {"TCA_DUALPI2_LIMIT", {"u32", "tc.dualpi2.limit", "Limit", unit="packets", key="Limit", w="limit"}},
    [2] = {"TCA_DUALPI2_MEMORY_LIMIT", {"u32", "tc.dualpi2.memory_limit", "Memory limit", unit="bytes", key="MemoryLimit", w="memlimit"}},
    [3] = {"TCA_DUALPI2_TARGET", {"u32", "tc.dualpi2.target", "Target", unit="us", key="Target", w="target"}},
    [4] = {"TCA_DUALPI2_TUPDATE", {"u32", "tc.dualpi2.tupdate", "Tupdate", unit="us", key="Tupdate", w="tupdate"}},
    [5] = {"TCA_DUALPI2_ALPHA", {"u32", "tc.dualpi2.alpha", "Alpha", key="Alpha"}},
    [6] = {"TCA_DUALPI2_BETA", {"u32", "tc.dualpi2.beta", "Beta", key="Beta"}},
    [7] = {"TCA_DUALPI2_STEP_THRESH_PKTS", {"u32", "tc.dualpi2.step_thresh_pkts", "Step thresh pkts", unit="packets", key="StepThreshPkts", w="step_thresh", twin="tc.dualpi2.step_thresh"}},
    [8] = {"TCA_DUALPI2_STEP_THRESH_US", {"u32", "tc.dualpi2.step_thresh_us", "Step thresh us", unit="us", key="StepThreshUs", w="step_thresh", twin="tc.dualpi2.step_thresh"}},
    [9] = {"TCA_DUALPI2_MIN_QLEN_STEP", {"u32", "tc.dualpi2.min_qlen_step", "Min qlen step", unit="packets", key="MinQlenStep", w="min_qlen_step"}},
    [10] = {"TCA_DUALPI2_COUPLING", {"u8", "tc.dualpi2.coupling", "Coupling", key="Coupling", w="coupling_factor"}},
    [11] = {"TCA_DUALPI2_DROP_OVERLOAD", {"u8", "tc.dualpi2.drop_overload", "Drop overload", key="DropOverload", w="overflow|drop_on_overload", s="Choice", enum="dualpi2_drop_overload"}},
    [12] = {"TCA_DUALPI2_DROP_EARLY", {"u8", "tc.dualpi2.drop_early", "Drop early", key="DropEarly", w="drop_dequeue|drop_enqueue", s="Choice", enum="dualpi2_drop_early"}},
    [13] = {"TCA_DUALPI2_C_PROTECTION", {"u8", "tc.dualpi2.cprotection", "Cprotection", unit="percent", key="CProtection", w="classic_protection"}},
    [14] = {"TCA_DUALPI2_ECN_MASK", {"u8", "tc.dualpi2.ecn_mask", "ECN mask", key="EcnMask", w="|l4s_ect||any_ect", s="Choice", enum="dualpi2_ecn_mask"}},
    [15] = {"TCA_DUALPI2_SPLIT_GSO", {"u8", "tc.dualpi2.split_gso", "Split GSO", key="SplitGso", w="no_split_gso|split_gso", s="Choice", enum="dualpi2_split_gso"}},
    [16] = {"TCA_DUALPI2_PAD", {"flag", "tc.dualpi2.pad", "Pad", key="Pad", left=-1}},
  },
  etf = {
    [1] = {"TCA_ETF_PARMS", {"struct", "tc.etf.parms", "Parms", key="Parms", s="Flat", width=12, least=12, parts={{"s32", "tc.etf.parms.delta", "Delta", unit="ns", key="delta", w="delta"}, {"s32", "tc.etf.parms.clockid", "Clockid", names="clockid", key="clockid", w="clockid"}, {"u32", "tc.etf.parms.flags", "Flags", key="flags", w="flags", bits="tc_etf"}}}},
  },
  ets = {
    [1] = {"TCA_ETS_NBANDS", {"u8", "tc.ets.nbands", "Nbands", key="Nbands", w="bands"}},
    [2] = {"TCA_ETS_NSTRICT", {"u8", "tc.ets.nstrict", "Nstrict", key="Nstrict", w="strict"}},
    [3] = {"TCA_ETS_QUANTA", {"list", "tc.ets.quanta", "Quanta", key="Quanta", w="quanta", list="ets_quanta", nested=true}},
    [4] = {"TCA_ETS_QUANTA_BAND", {"u32", "tc.ets.quanta_band", "Quanta band", unit="bytes", key="QuantaBand", w="quantum"}},
    [5] = {"TCA_ETS_PRIOMAP", {"list", "tc.ets.priomap", "Priomap", key="Priomap", w="priomap", list="ets_priomap", nested=true}},
    [6] = {"TCA_ETS_PRIOMAP_BAND", {"u8", "tc.ets.priomap_band", "Priomap band", key="PriomapBand"}},
  },
  ets_quanta = {
    [4] = {"TCA_ETS_QUANTA_BAND", {"u32", "tc.ets_quanta.quanta_band", "Quanta band", unit="bytes", key="QuantaBand", s="Alone"}},
  },
  ets_priomap = {
    [6] = {"TCA_ETS_PRIOMAP_BAND", {"u8", "tc.ets_priomap.priomap_band", "Priomap band", key="PriomapBand", s="Alone"}},
  },
  fq = {
    [1] = {"TCA_FQ_PLIMIT", {"u32", "tc.fq.plimit", "Plimit", unit="packets", key="Plimit", w="limit"}},
    [2] = {"TCA_FQ_FLOW_PLIMIT", {"u32", "tc.fq.flow_plimit", "Flow plimit", unit="packets", key="FlowPlimit", w="flow_limit"}},
    [3] = {"TCA_FQ_QUANTUM", {"u32", "tc.fq.quantum", "Quantum", unit="bytes", key="Quantum", w="quantum"}},
    [4] = {"TCA_FQ_INITIAL_QUANTUM", {"u32", "tc.fq.initial_quantum", "Initial quantum", unit="bytes", key="InitialQuantum", w="initial_quantum"}},
    [5] = {"TCA_FQ_RATE_ENABLE", {"u32", "tc.fq.rate_enable", "Rate enable", key="RateEnable", w="nopacing|pacing", s="Choice", left=1}},
    [6] = {"TCA_FQ_FLOW_DEFAULT_RATE", {"u32", "tc.fq.flow_default_rate", "Flow default rate", unit="bytes/s", key="FlowDefaultRate", w="defrate", left=0}},
    [7] = {"TCA_FQ_FLOW_MAX_RATE", {"u32", "tc.fq.flow_max_rate", "Flow max rate", unit="bytes/s", key="FlowMaxRate", w="maxrate", left=4294967295}},
    [8] = {"TCA_FQ_BUCKETS_LOG", {"u32", "tc.fq.buckets_log", "Buckets log", unit="log2", key="BucketsLog", w="buckets"}},
    [9] = {"TCA_FQ_FLOW_REFILL_DELAY", {"u32", "tc.fq.flow_refill_delay", "Flow refill delay", unit="us", key="FlowRefillDelay", w="refill_delay"}},
    [10] = {"TCA_FQ_ORPHAN_MASK", {"u32", "tc.fq.orphan_mask", "Orphan mask", unit="hex", key="OrphanMask", w="orphan_mask"}},
    [11] = {"TCA_FQ_LOW_RATE_THRESHOLD", {"u32", "tc.fq.low_rate_threshold", "Low rate threshold", unit="bytes/s", key="LowRateThreshold", w="low_rate_threshold", left=0}},
    [12] = {"TCA_FQ_CE_THRESHOLD", {"u32", "tc.fq.ce_threshold", "Ce threshold", unit="us", key="CeThreshold", w="ce_threshold", left=4294967295}},
    [13] = {"TCA_FQ_TIMER_SLACK", {"u32", "tc.fq.timer_slack", "Timer slack", unit="ns", key="TimerSlack", w="timer_slack"}},
    [14] = {"TCA_FQ_HORIZON", {"u32", "tc.fq.horizon", "Horizon", unit="us", key="Horizon", w="horizon"}},
    [15] = {"TCA_FQ_HORIZON_DROP", {"u8", "tc.fq.horizon_drop", "Horizon drop", key="HorizonDrop", w="horizon_cap|horizon_drop", s="Choice"}},
    [16] = {"TCA_FQ_PRIOMAP", {"struct", "tc.fq.priomap", "Priomap", key="Priomap", s="Flat", width=20, least=20, parts={{"s32", "tc.fq.priomap.bands", "Bands", key="bands", w="bands"}, {"array", false, "Priomap", key="priomap", w="priomap", inner={"u8", "tc.fq.priomap.priomap", "Priomap"}, width=16}}}},
    [17] = {"TCA_FQ_WEIGHTS", {"array", false, "Weights", key="Weights", w="weights", inner={"s32", "tc.fq.weights", "Weights"}, width=12}},
    [18] = {"TCA_FQ_OFFLOAD_HORIZON", {"u32", "tc.fq.offload_horizon", "Offload horizon", unit="us", key="OffloadHorizon", w="offload_horizon", left=0}},
  },
  fq_codel = {
    [1] = {"TCA_FQ_CODEL_TARGET", {"u32", "tc.fq_codel.target", "Target", unit="us", key="Target", w="target"}},
    [2] = {"TCA_FQ_CODEL_LIMIT", {"u32", "tc.fq_codel.limit", "Limit", unit="packets", key="Limit", w="limit"}},
    [3] = {"TCA_FQ_CODEL_INTERVAL", {"u32", "tc.fq_codel.interval", "Interval", unit="us", key="Interval", w="interval"}},
    [4] = {"TCA_FQ_CODEL_ECN", {"u32", "tc.fq_codel.ecn", "ECN", key="Ecn", w="noecn|ecn", s="Choice"}},
    [5] = {"TCA_FQ_CODEL_FLOWS", {"u32", "tc.fq_codel.flows", "Flows", key="Flows", w="flows"}},
    [6] = {"TCA_FQ_CODEL_QUANTUM", {"u32", "tc.fq_codel.quantum", "Quantum", unit="bytes", key="Quantum", w="quantum"}},
    [7] = {"TCA_FQ_CODEL_CE_THRESHOLD", {"u32", "tc.fq_codel.ce_threshold", "Ce threshold", unit="us", key="CeThreshold", w="ce_threshold"}},
    [8] = {"TCA_FQ_CODEL_DROP_BATCH_SIZE", {"u32", "tc.fq_codel.drop_batch_size", "Drop batch size", unit="packets", key="DropBatchSize", w="drop_batch"}},
    [9] = {"TCA_FQ_CODEL_MEMORY_LIMIT", {"u32", "tc.fq_codel.memory_limit", "Memory limit", unit="bytes", key="MemoryLimit", w="memory_limit"}},
    [10] = {"TCA_FQ_CODEL_CE_THRESHOLD_SELECTOR", {"u8", "tc.fq_codel.ce_threshold_selector", "Ce threshold selector", unit="hex", key="CeThresholdSelector", w="ce_threshold_selector", s="Mask", a="CeThresholdMask"}},
    [11] = {"TCA_FQ_CODEL_CE_THRESHOLD_MASK", {"u8", "tc.fq_codel.ce_threshold_mask", "Ce threshold mask", unit="hex", key="CeThresholdMask"}},
  },
  fq_pie = {
    [1] = {"TCA_FQ_PIE_LIMIT", {"u32", "tc.fq_pie.limit", "Limit", unit="packets", key="Limit", w="limit"}},
    [2] = {"TCA_FQ_PIE_FLOWS", {"u32", "tc.fq_pie.flows", "Flows", key="Flows", w="flows"}},
    [3] = {"TCA_FQ_PIE_TARGET", {"u32", "tc.fq_pie.target", "Target", unit="us", key="Target", w="target"}},
    [4] = {"TCA_FQ_PIE_TUPDATE", {"u32", "tc.fq_pie.tupdate", "Tupdate", unit="us", key="Tupdate", w="tupdate"}},
    [5] = {"TCA_FQ_PIE_ALPHA", {"u32", "tc.fq_pie.alpha", "Alpha", key="Alpha", w="alpha"}},
    [6] = {"TCA_FQ_PIE_BETA", {"u32", "tc.fq_pie.beta", "Beta", key="Beta", w="beta"}},
    [7] = {"TCA_FQ_PIE_QUANTUM", {"u32", "tc.fq_pie.quantum", "Quantum", unit="bytes", key="Quantum", w="quantum"}},
    [8] = {"TCA_FQ_PIE_MEMORY_LIMIT", {"u32", "tc.fq_pie.memory_limit", "Memory limit", unit="bytes", key="MemoryLimit", w="memory_limit"}},
    [9] = {"TCA_FQ_PIE_ECN_PROB", {"u32", "tc.fq_pie.ecn_prob", "ECN prob", unit="percent", key="EcnProb", w="ecn_prob"}},
    [10] = {"TCA_FQ_PIE_ECN", {"u32", "tc.fq_pie.ecn", "ECN", key="Ecn", w="noecn|ecn", s="Choice", left=0}},
    [11] = {"TCA_FQ_PIE_BYTEMODE", {"u32", "tc.fq_pie.bytemode", "Bytemode", key="Bytemode", w="nobytemode|bytemode", s="Choice", left=0}},
    [12] = {"TCA_FQ_PIE_DQ_RATE_ESTIMATOR", {"u32", "tc.fq_pie.dq_rate_estimator", "Dq rate estimator", key="DqRateEstimator", w="no_dq_rate_estimator|dq_rate_estimator", s="Choice", left=0}},
  },
  gred = {
    [1] = {"TCA_GRED_PARMS", {"array", false, "Parms", key="Parms", inner={"struct", "tc.gred.parms", "Queue", width=52, least=52, parts={{"u32", "tc.gred.parms.limit", "Limit", unit="bytes", key="limit"}, {"u32", "tc.gred.parms.qth_min", "Qth min", unit="bytes", key="qth_min"}, {"u32", "tc.gred.parms.qth_max", "Qth max", unit="bytes", key="qth_max"}, {"u32", "tc.gred.parms.dp", "DP", key="DP"}, {"u32", "tc.gred.parms.backlog", "Backlog", unit="bytes", key="backlog", left=0}, {"u32", "tc.gred.parms.qave", "Qave", unit="bytes", key="qave", left=0}, {"u32", "tc.gred.parms.forced", "Forced", unit="packets", key="forced", left=0}, {"u32", "tc.gred.parms.early", "Early", unit="packets", key="early", left=0}, {"u32", "tc.gred.parms.other", "Other", unit="packets", key="other", left=0}, {"u32", "tc.gred.parms.pdrop", "Pdrop", unit="packets", key="pdrop", left=0}, {"u8", "tc.gred.parms.wlog", "Wlog", unit="log2", key="Wlog"}, {"u8", "tc.gred.parms.plog", "Plog", unit="log2", key="Plog"}, {"u8", "tc.gred.parms.scell_log", "Scell log", unit="log2", key="Scell_log"}, {"u8", "tc.gred.parms.prio", "Prio", key="prio"}, {"u32", "tc.gred.parms.packets", "Packets", unit="packets", key="packets", left=0}, {"u32", "tc.gred.parms.bytesin", "Bytesin", unit="bytes", key="bytesin", left=0}}}}},
    [2] = {"TCA_GRED_STAB", {"hex", "tc.gred.stab", "Stab", key="Stab", s="Bytes"}},
    [3] = {"TCA_GRED_DPS", {"struct", "tc.gred.dps", "Dps", key="Dps", s="Flat", width=12, least=12, parts={{"u32", "tc.gred.dps.dps", "DPs", key="DPs", w="vqs"}, {"u32", "tc.gred.dps.def_dp", "Def DP", key="def_DP", w="default"}, {"u8", "tc.gred.dps.grio", "Grio", key="grio", w="|grio", s="Choice", left=0}, {"u8", "tc.gred.dps.flags", "Flags", key="flags", s="Bits", left=0, bits="tc_red"}, {"pad", "tc.gred.dps.pad1", "Pad1", key="pad1", width=2}}}},
    [4] = {"TCA_GRED_MAX_P", {"array", false, "Max p", key="MaxP", w="probability", inner={"u32", "tc.gred.max_p", "Max p", unit="probability"}}},
    [5] = {"TCA_GRED_LIMIT", {"u32", "tc.gred.limit", "Limit", unit="bytes", key="Limit", w="limit"}},
    [6] = {"TCA_GRED_VQ_LIST", {"list", "tc.gred.vq_list", "Vq list", key="VqList", list="gred_vq_list"}},
  },
  gred_vq_list = {
    [1] = {"TCA_GRED_VQ_ENTRY", {"list", "tc.gred_vq_list.entry", "Entry", key="Entry", list="gred_vq"}},
  },
  gred_vq = {
    [1] = {"TCA_GRED_VQ_PAD", {"flag", "tc.gred_vq.pad", "Pad", key="Pad", left=-1}},
    [2] = {"TCA_GRED_VQ_DP", {"u32", "tc.gred_vq.dp", "Dp", key="Dp"}},
    [3] = {"TCA_GRED_VQ_STAT_BYTES", {"u64", "tc.gred_vq.stat_bytes", "Stat bytes", unit="bytes", key="StatBytes", left=0}},
    [4] = {"TCA_GRED_VQ_STAT_PACKETS", {"u32", "tc.gred_vq.stat_packets", "Stat packets", unit="packets", key="StatPackets", left=0}},
    [5] = {"TCA_GRED_VQ_STAT_BACKLOG", {"u32", "tc.gred_vq.stat_backlog", "Stat backlog", unit="bytes", key="StatBacklog", left=0}},
    [6] = {"TCA_GRED_VQ_STAT_PROB_DROP", {"u32", "tc.gred_vq.stat_prob_drop", "Stat prob drop", unit="packets", key="StatProbDrop", left=0}},
    [7] = {"TCA_GRED_VQ_STAT_PROB_MARK", {"u32", "tc.gred_vq.stat_prob_mark", "Stat prob mark", unit="packets", key="StatProbMark", left=0}},
    [8] = {"TCA_GRED_VQ_STAT_FORCED_DROP", {"u32", "tc.gred_vq.stat_forced_drop", "Stat forced drop", unit="packets", key="StatForcedDrop", left=0}},
    [9] = {"TCA_GRED_VQ_STAT_FORCED_MARK", {"u32", "tc.gred_vq.stat_forced_mark", "Stat forced mark", unit="packets", key="StatForcedMark", left=0}},
    [10] = {"TCA_GRED_VQ_STAT_PDROP", {"u32", "tc.gred_vq.stat_pdrop", "Stat pdrop", unit="packets", key="StatPdrop", left=0}},
    [11] = {"TCA_GRED_VQ_STAT_OTHER", {"u32", "tc.gred_vq.stat_other", "Stat other", unit="packets", key="StatOther", left=0}},
    [12] = {"TCA_GRED_VQ_FLAGS", {"u32", "tc.gred_vq.flags", "Flags", key="Flags", left=0, bits="tc_red"}},
  },
  hfsc = {
    [1] = {"TCA_HFSC_RSC", {"struct", "tc.hfsc.rsc", "Rsc", key="Rsc", w="rt", width=12, least=12, parts={{"u32", "tc.hfsc.rsc.m1", "M1", unit="bytes/s", key="m1", w="m1"}, {"u32", "tc.hfsc.rsc.d", "D", unit="us", key="d", w="d"}, {"u32", "tc.hfsc.rsc.m2", "M2", unit="bytes/s", key="m2", w="m2"}}}},
    [2] = {"TCA_HFSC_FSC", {"struct", "tc.hfsc.fsc", "Fsc", key="Fsc", w="ls", width=12, least=12, parts={{"u32", "tc.hfsc.fsc.m1", "M1", unit="bytes/s", key="m1", w="m1"}, {"u32", "tc.hfsc.fsc.d", "D", unit="us", key="d", w="d"}, {"u32", "tc.hfsc.fsc.m2", "M2", unit="bytes/s", key="m2", w="m2"}}}},
    [3] = {"TCA_HFSC_USC", {"struct", "tc.hfsc.usc", "Usc", key="Usc", w="ul", width=12, least=12, parts={{"u32", "tc.hfsc.usc.m1", "M1", unit="bytes/s", key="m1", w="m1"}, {"u32", "tc.hfsc.usc.d", "D", unit="us", key="d", w="d"}, {"u32", "tc.hfsc.usc.m2", "M2", unit="bytes/s", key="m2", w="m2"}}}},
  },
  hhf = {
    [1] = {"TCA_HHF_BACKLOG_LIMIT", {"u32", "tc.hhf.backlog_limit", "Backlog limit", unit="packets", key="BacklogLimit", w="limit"}},
    [2] = {"TCA_HHF_QUANTUM", {"u32", "tc.hhf.quantum", "Quantum", unit="bytes", key="Quantum", w="quantum"}},
    [3] = {"TCA_HHF_HH_FLOWS_LIMIT", {"u32", "tc.hhf.hh_flows_limit", "Hh flows limit", key="HhFlowsLimit", w="hh_limit"}},
    [4] = {"TCA_HHF_RESET_TIMEOUT", {"u32", "tc.hhf.reset_timeout", "Reset timeout", unit="us", key="ResetTimeout", w="reset_timeout"}},
    [5] = {"TCA_HHF_ADMIT_BYTES", {"u32", "tc.hhf.admit_bytes", "Admit bytes", unit="bytes", key="AdmitBytes", w="admit_bytes"}},
    [6] = {"TCA_HHF_EVICT_TIMEOUT", {"u32", "tc.hhf.evict_timeout", "Evict timeout", unit="us", key="EvictTimeout", w="evict_timeout"}},
    [7] = {"TCA_HHF_NON_HH_WEIGHT", {"u32", "tc.hhf.non_hh_weight", "Non hh weight", key="NonHhWeight", w="non_hh_weight"}},
  },
  htb = {
    [1] = {"TCA_HTB_PARMS", {"struct", "tc.htb.parms", "Parms", key="Parms", s="Flat", width=44, least=44, parts={{"struct", "tc.htb.parms.rate", "Rate", key="rate", w="rate", s="Rate", a="Rate64", width=12, least=12, parts={{"u8", "tc.htb.parms.rate.cell_log", "Cell log", unit="log2", key="cell_log", left=0}, {"u8", "tc.htb.parms.rate.linklayer", "Linklayer", key="linklayer", w="linklayer", below=2, enum="tc_linklayer"}, {"u16", "tc.htb.parms.rate.overhead", "Overhead", unit="bytes", key="overhead", w="overhead", left=0}, {"s16", "tc.htb.parms.rate.cell_align", "Cell align", key="cell_align", left=-1}, {"u16", "tc.htb.parms.rate.mpu", "MPU", unit="bytes", key="mpu", w="mpu", left=0}, {"u32", "tc.htb.parms.rate.rate", "Rate", unit="bytes/s", key="rate", w="rate", s="OfRate"}}}, {"struct", "tc.htb.parms.ceil", "Ceil", key="ceil", w="ceil", s="Rate", a="Ceil64", width=12, least=12, parts={{"u8", "tc.htb.parms.ceil.cell_log", "Cell log", unit="log2", key="cell_log", left=0}, {"u8", "tc.htb.parms.ceil.linklayer", "Linklayer", key="linklayer", w="linklayer", below=2, enum="tc_linklayer"}, {"u16", "tc.htb.parms.ceil.overhead", "Overhead", unit="bytes", key="overhead", w="overhead", left=0}, {"s16", "tc.htb.parms.ceil.cell_align", "Cell align", key="cell_align", left=-1}, {"u16", "tc.htb.parms.ceil.mpu", "MPU", unit="bytes", key="mpu", w="mpu", left=0}, {"u32", "tc.htb.parms.ceil.rate", "Rate", unit="bytes/s", key="rate", w="rate", s="OfRate"}}}, {"u32", "tc.htb.parms.buffer", "Buffer", unit="ticks", key="buffer", w="burst", s="Burst", a="rate"}, {"u32", "tc.htb.parms.cbuffer", "Cbuffer", unit="ticks", key="cbuffer", w="cburst", s="Burst", a="ceil"}, {"u32", "tc.htb.parms.quantum", "Quantum", unit="bytes", key="quantum", w="quantum"}, {"u32", "tc.htb.parms.level", "Level", key="level", w="level", s="Statistics", left=0}, {"u32", "tc.htb.parms.prio", "Prio", key="prio", w="prio"}}}},
    [2] = {"TCA_HTB_INIT", {"struct", "tc.htb.init", "Init", key="Init", s="Flat", width=20, least=20, parts={{"u32", "tc.htb.init.version", "Version", key="version", left=-1}, {"u32", "tc.htb.init.rate2quantum", "Rate2quantum", key="rate2quantum", w="r2q"}, {"u32", "tc.htb.init.defcls", "Defcls", unit="hex", key="defcls", w="default"}, {"u32", "tc.htb.init.debug", "Debug", key="debug", left=0}, {"u32", "tc.htb.init.direct_pkts", "Direct pkts", key="direct_pkts", w="direct_packets_stat", s="Statistics", left=0}}}},
    [3] = {"TCA_HTB_CTAB", {"hex", "tc.htb.ctab", "CTAB", key="Ctab", s="Bytes"}},
    [4] = {"TCA_HTB_RTAB", {"hex", "tc.htb.rtab", "RTAB", key="Rtab", s="Bytes"}},
    [5] = {"TCA_HTB_DIRECT_QLEN", {"u32", "tc.htb.direct_qlen", "Direct qlen", unit="packets", key="DirectQlen", w="direct_qlen"}},
    [6] = {"TCA_HTB_RATE64", {"u64", "tc.htb.rate64", "Rate64", unit="bytes/s", key="Rate64", left=-1}},
    [7] = {"TCA_HTB_CEIL64", {"u64", "tc.htb.ceil64", "Ceil64", unit="bytes/s", key="Ceil64", left=-1}},
    [8] = {"TCA_HTB_PAD", {"flag", "tc.htb.pad", "Pad", key="Pad", left=-1}},
    [9] = {"TCA_HTB_OFFLOAD", {"flag", "tc.htb.offload", "Offload", key="Offload", w="offload"}},
  },
  ingress = {
  },
  mqprio = {
    [1] = {"TCA_MQPRIO_MODE", {"u16", "tc.mqprio.mode", "Mode", key="Mode", w="mode", enum="tc_mqprio_mode"}},
    [2] = {"TCA_MQPRIO_SHAPER", {"u16", "tc.mqprio.shaper", "Shaper", key="Shaper", w="shaper", enum="tc_mqprio_shaper"}},
    [3] = {"TCA_MQPRIO_MIN_RATE64", {"list", "tc.mqprio.min_rate64", "Min rate64", key="MinRate64", w="min_rate", list="mqprio_min_rate", nested=true}},
    [4] = {"TCA_MQPRIO_MAX_RATE64", {"list", "tc.mqprio.max_rate64", "Max rate64", key="MaxRate64", w="max_rate", list="mqprio_max_rate", nested=true}},
    [5] = {"TCA_MQPRIO_TC_ENTRY", {"list", "tc.mqprio.tc_entry", "TC entry", key="TcEntry", list="mqprio_tc_entry", nested=true}},
  },
  mqprio_min_rate = {
    [3] = {"TCA_MQPRIO_MIN_RATE64", {"u64", "tc.mqprio_min_rate.min_rate64", "Min rate64", unit="bytes/s", key="MinRate64", s="Alone"}},
  },
  mqprio_max_rate = {
    [4] = {"TCA_MQPRIO_MAX_RATE64", {"u64", "tc.mqprio_max_rate.max_rate64", "Max rate64", unit="bytes/s", key="MaxRate64", s="Alone"}},
  },
  mqprio_tc_entry = {
    [1] = {"TCA_MQPRIO_TC_ENTRY_INDEX", {"u32", "tc.mqprio_tc_entry.index", "Index", key="Index"}},
    [2] = {"TCA_MQPRIO_TC_ENTRY_FP", {"u32", "tc.mqprio_tc_entry.fp", "Fp", key="Fp", enum="tc_fp"}},
  },
  netem = {
    [1] = {"TCA_NETEM_CORR", {"struct", "tc.netem.corr", "Corr", key="Corr", s="Flat", width=12, least=12, parts={{"u32", "tc.netem.corr.delay_corr", "Delay corr", unit="probability", key="delay_corr", left=0}, {"u32", "tc.netem.corr.loss_corr", "Loss corr", unit="probability", key="loss_corr", left=0}, {"u32", "tc.netem.corr.dup_corr", "Dup corr", unit="probability", key="dup_corr", left=0}}}},
    [2] = {"TCA_NETEM_DELAY_DIST", {"array", false, "Delay dist", key="DelayDist", s="Bytes", inner={"s16", "tc.netem.delay_dist", "Delay dist"}}},
    [3] = {"TCA_NETEM_REORDER", {"struct", "tc.netem.reorder", "Reorder", key="Reorder", s="Flat", width=8, least=8, parts={{"u32", "tc.netem.reorder.probability", "Probability", unit="probability", key="probability", w="reorder", left=0}, {"u32", "tc.netem.reorder.correlation", "Correlation", unit="probability", key="correlation", left=0}}}},
    [4] = {"TCA_NETEM_CORRUPT", {"struct", "tc.netem.corrupt", "Corrupt", key="Corrupt", s="Flat", width=8, least=8, parts={{"u32", "tc.netem.corrupt.probability", "Probability", unit="probability", key="probability", w="corrupt", left=0}, {"u32", "tc.netem.corrupt.correlation", "Correlation", unit="probability", key="correlation", left=0}}}},
    [5] = {"TCA_NETEM_LOSS", {"list", "tc.netem.loss_model", "Loss", key="Loss", w="loss", list="netem_loss", nested=true}},
    [6] = {"TCA_NETEM_RATE", {"struct", "tc.netem.rate", "Rate", key="Rate", s="Flat", width=16, least=16, parts={{"u32", "tc.netem.rate.rate", "Rate", unit="bytes/s", key="rate", w="rate", left=0}, {"s32", "tc.netem.rate.packet_overhead", "Packet overhead", unit="bytes", key="packet_overhead", w="packetoverhead", left=0}, {"u32", "tc.netem.rate.cell_size", "Cell size", unit="bytes", key="cell_size", w="cellsize", left=0}, {"s32", "tc.netem.rate.cell_overhead", "Cell overhead", unit="bytes", key="cell_overhead", w="celloverhead", left=0}}}},
    [7] = {"TCA_NETEM_ECN", {"u32", "tc.netem.ecn", "ECN", key="Ecn", w="noecn|ecn", s="Choice", left=0}},
    [8] = {"TCA_NETEM_RATE64", {"u64", "tc.netem.rate64", "Rate64", unit="bytes/s", key="Rate64"}},
    [9] = {"TCA_NETEM_PAD", {"flag", "tc.netem.pad", "Pad", key="Pad", left=-1}},
    [10] = {"TCA_NETEM_LATENCY64", {"s64", "tc.netem.latency64", "Latency64", unit="ns", key="Latency64", w="delay", left=0}},
    [11] = {"TCA_NETEM_JITTER64", {"s64", "tc.netem.jitter64", "Jitter64", unit="ns", key="Jitter64", w="jitter", left=0}},
    [12] = {"TCA_NETEM_SLOT", {"struct", "tc.netem.slot", "Slot", key="Slot", w="slot", width=40, least=40, parts={{"s64", "tc.netem.slot.min_delay", "Min delay", unit="ns", key="min_delay", left=0}, {"s64", "tc.netem.slot.max_delay", "Max delay", unit="ns", key="max_delay", left=0}, {"s32", "tc.netem.slot.max_packets", "Max packets", unit="packets", key="max_packets", w="packets", left=0}, {"s32", "tc.netem.slot.max_bytes", "Max bytes", unit="bytes", key="max_bytes", w="bytes", left=0}, {"s64", "tc.netem.slot.dist_delay", "Dist delay", unit="ns", key="dist_delay", left=0}, {"s64", "tc.netem.slot.dist_jitter", "Dist jitter", unit="ns", key="dist_jitter", left=0}}}},
    [13] = {"TCA_NETEM_SLOT_DIST", {"array", false, "Slot dist", key="SlotDist", s="Bytes", inner={"s16", "tc.netem.slot_dist", "Slot dist"}}},
    [14] = {"TCA_NETEM_PRNG_SEED", {"u64", "tc.netem.prng_seed", "Prng seed", key="PrngSeed", w="seed"}},
  },
  netem_loss = {
    [1] = {"NETEM_LOSS_GI", {"struct", "tc.netem_loss.gi", "Gi", key="Gi", w="state", width=20, least=20, parts={{"u32", "tc.netem_loss.gi.p13", "P13", unit="probability", key="p13", w="p13"}, {"u32", "tc.netem_loss.gi.p31", "P31", unit="probability", key="p31", w="p31"}, {"u32", "tc.netem_loss.gi.p32", "P32", unit="probability", key="p32", w="p32"}, {"u32", "tc.netem_loss.gi.p14", "P14", unit="probability", key="p14", w="p14"}, {"u32", "tc.netem_loss.gi.p23", "P23", unit="probability", key="p23", w="p23"}}}},
    [2] = {"NETEM_LOSS_GE", {"struct", "tc.netem_loss.ge", "Ge", key="Ge", w="gemodel", width=16, least=16, parts={{"u32", "tc.netem_loss.ge.p", "P", unit="probability", key="p", w="p"}, {"u32", "tc.netem_loss.ge.r", "R", unit="probability", key="r", w="r"}, {"u32", "tc.netem_loss.ge.h", "H", unit="probability", key="h"}, {"u32", "tc.netem_loss.ge.k1", "K1", unit="probability", key="k1"}}}},
  },
  no_options = {
  },
  pie = {
    [1] = {"TCA_PIE_TARGET", {"u32", "tc.pie.target", "Target", unit="us", key="Target", w="target"}},
    [2] = {"TCA_PIE_LIMIT", {"u32", "tc.pie.limit", "Limit", unit="packets", key="Limit", w="limit"}},
    [3] = {"TCA_PIE_TUPDATE", {"u32", "tc.pie.tupdate", "Tupdate", unit="us", key="Tupdate", w="tupdate"}},
    [4] = {"TCA_PIE_ALPHA", {"u32", "tc.pie.alpha", "Alpha", key="Alpha", w="alpha"}},
    [5] = {"TCA_PIE_BETA", {"u32", "tc.pie.beta", "Beta", key="Beta", w="beta"}},
    [6] = {"TCA_PIE_ECN", {"u32", "tc.pie.ecn", "ECN", key="Ecn", w="noecn|ecn", s="Choice", left=0}},
    [7] = {"TCA_PIE_BYTEMODE", {"u32", "tc.pie.bytemode", "Bytemode", key="Bytemode", w="nobytemode|bytemode", s="Choice", left=0}},
    [8] = {"TCA_PIE_DQ_RATE_ESTIMATOR", {"u32", "tc.pie.dq_rate_estimator", "Dq rate estimator", key="DqRateEstimator", w="no_dq_rate_estimator|dq_rate_estimator", s="Choice", left=0}},
  },
  prio = {
    [2] = {"TCA_OPTIONS", {"list", "tc.prio.options", "Options", key="Options", left=-1, list="prio"}},
  },
  qfq = {
    [1] = {"TCA_QFQ_WEIGHT", {"u32", "tc.qfq.weight", "Weight", key="Weight", w="weight"}},
    [2] = {"TCA_QFQ_LMAX", {"u32", "tc.qfq.lmax", "Lmax", unit="bytes", key="Lmax", w="maxpkt"}},
  },
  red = {
    [1] = {"TCA_RED_PARMS", {"struct", "tc.red.parms", "Parms", key="Parms", s="Flat", width=16, least=16, parts={{"u32", "tc.red.parms.limit", "Limit", unit="bytes", key="limit", w="limit"}, {"u32", "tc.red.parms.qth_min", "Qth min", unit="bytes", key="qth_min", w="min"}, {"u32", "tc.red.parms.qth_max", "Qth max", unit="bytes", key="qth_max", w="max"}, {"u8", "tc.red.parms.wlog", "Wlog", unit="log2", key="Wlog", w="ewma"}, {"u8", "tc.red.parms.plog", "Plog", unit="log2", key="Plog", w="Plog"}, {"u8", "tc.red.parms.scell_log", "Scell log", unit="log2", key="Scell_log", w="Scell_log"}, {"u8", "tc.red.parms.flags", "Flags", key="flags", s="Bits", left=0, bits="tc_red"}}}},
    [2] = {"TCA_RED_STAB", {"hex", "tc.red.stab", "Stab", key="Stab", s="Bytes"}},
    [3] = {"TCA_RED_MAX_P", {"u32", "tc.red.max_p", "Max p", unit="probability", key="MaxP", w="probability"}},
    [4] = {"TCA_RED_FLAGS", {"struct", "tc.red.flags", "Flags", key="Flags", width=8, least=8, parts={{"u32", "tc.red.flags.value", "Value", key="value", bits="tc_red"}, {"u32", "tc.red.flags.selector", "Selector", key="selector", left=15, bits="tc_red"}}}},
    [5] = {"TCA_RED_EARLY_DROP_BLOCK", {"u32", "tc.red.early_drop_block", "Early drop block", key="EarlyDropBlock"}},
    [6] = {"TCA_RED_MARK_BLOCK", {"u32", "tc.red.mark_block", "Mark block", key="MarkBlock"}},
  },
  sfb = {
    [1] = {"TCA_SFB_PARMS", {"struct", "tc.sfb.parms", "Parms", key="Parms", s="Flat", width=36, least=36, parts={{"u32", "tc.sfb.parms.rehash_interval", "Rehash interval", unit="ms", key="rehash_interval", w="rehash"}, {"u32", "tc.sfb.parms.warmup_time", "Warmup time", unit="ms", key="warmup_time", w="db"}, {"u32", "tc.sfb.parms.max", "Max", unit="packets", key="max", w="max"}, {"u32", "tc.sfb.parms.bin_size", "Bin size", unit="packets", key="bin_size", w="target"}, {"u32", "tc.sfb.parms.increment", "Increment", key="increment"}, {"u32", "tc.sfb.parms.decrement", "Decrement", key="decrement"}, {"u32", "tc.sfb.parms.limit", "Limit", unit="packets", key="limit", w="limit"}, {"u32", "tc.sfb.parms.penalty_rate", "Penalty rate", unit="packets/s", key="penalty_rate", w="penalty_rate"}, {"u32", "tc.sfb.parms.penalty_burst", "Penalty burst", unit="packets", key="penalty_burst", w="penalty_burst"}}}},
  },
  taprio = {
    [1] = {"TCA_TAPRIO_ATTR_PRIOMAP", {"struct", "tc.taprio.priomap", "Priomap", key="Priomap", s="Flat", width=82, least=82, parts={{"u8", "tc.taprio.priomap.num_tc", "Num TC", key="num_tc", w="num_tc"}, {"array", false, "Prio TC map", key="prio_tc_map", w="map", inner={"u8", "tc.taprio.priomap.prio_tc_map", "Prio TC map"}, width=16}, {"u8", "tc.taprio.priomap.hw", "HW", key="hw", w="hw"}, {"array", false, "Count", key="count", inner={"u16", "tc.taprio.priomap.count", "Count"}, width=32}, {"array", false, "Offset", key="offset", inner={"u16", "tc.taprio.priomap.offset", "Offset"}, width=32}}}},
    [2] = {"TCA_TAPRIO_ATTR_SCHED_ENTRY_LIST", {"list", "tc.taprio.sched_entry_list", "Sched entry list", key="SchedEntryList", s="Flat", list="taprio_entry_list", nested=true}},
    [3] = {"TCA_TAPRIO_ATTR_SCHED_BASE_TIME", {"s64", "tc.taprio.sched_base_time", "Sched base time", unit="ns", key="SchedBaseTime", w="base-time"}},
    [4] = {"TCA_TAPRIO_ATTR_SCHED_SINGLE_ENTRY", {"list", "tc.taprio.sched_single_entry", "Sched single entry", key="SchedSingleEntry", list="taprio_entry"}},
    [5] = {"TCA_TAPRIO_ATTR_SCHED_CLOCKID", {"s32", "tc.taprio.sched_clockid", "Sched clockid", names="clockid", key="SchedClockid", w="clockid"}},
    [6] = {"TCA_TAPRIO_PAD", {"flag", "tc.taprio.pad", "Pad", key="Pad", left=-1}},
    [7] = {"TCA_TAPRIO_ATTR_ADMIN_SCHED", {"list", "tc.taprio.admin_sched", "Admin sched", key="AdminSched", list="taprio"}},
    [8] = {"TCA_TAPRIO_ATTR_SCHED_CYCLE_TIME", {"s64", "tc.taprio.sched_cycle_time", "Sched cycle time", unit="ns", key="SchedCycleTime", w="cycle-time"}},
    [9] = {"TCA_TAPRIO_ATTR_SCHED_CYCLE_TIME_EXTENSION", {"s64", "tc.taprio.sched_cycle_time_extension", "Sched cycle time extension", unit="ns", key="SchedCycleTimeExtension", w="cycle-time-extension"}},
    [10] = {"TCA_TAPRIO_ATTR_FLAGS", {"u32", "tc.taprio.flags", "Flags", key="Flags", w="flags", bits="taprio_flag"}},
    [11] = {"TCA_TAPRIO_ATTR_TXTIME_DELAY", {"u32", "tc.taprio.txtime_delay", "Txtime delay", unit="ns", key="TxtimeDelay", w="txtime-delay"}},
    [12] = {"TCA_TAPRIO_ATTR_TC_ENTRY", {"list", "tc.taprio.tc_entry", "TC entry", key="TcEntry", list="taprio_tc_entry", nested=true}},
  },
  taprio_entry_list = {
    [1] = {"TCA_TAPRIO_SCHED_ENTRY", {"list", "tc.taprio_entry_list.entry", "Entry", key="Entry", w="sched-entry", list="taprio_entry"}},
  },
  taprio_entry = {
    [1] = {"TCA_TAPRIO_SCHED_ENTRY_INDEX", {"u32", "tc.taprio_entry.index", "Index", key="Index", w="index"}},
    [2] = {"TCA_TAPRIO_SCHED_ENTRY_CMD", {"u8", "tc.taprio_entry.cmd", "Cmd", key="Cmd", w="S|H|R", s="Choice", enum="tc_taprio_cmd"}},
    [3] = {"TCA_TAPRIO_SCHED_ENTRY_GATE_MASK", {"u32", "tc.taprio_entry.gate_mask", "Gate mask", unit="hex", key="GateMask", w="gatemask"}},
    [4] = {"TCA_TAPRIO_SCHED_ENTRY_INTERVAL", {"u32", "tc.taprio_entry.interval", "Interval", unit="ns", key="Interval", w="interval"}},
  },
  taprio_tc_entry = {
    [1] = {"TCA_TAPRIO_TC_ENTRY_INDEX", {"u32", "tc.taprio_tc_entry.index", "Index", key="Index"}},
    [2] = {"TCA_TAPRIO_TC_ENTRY_MAX_SDU", {"u32", "tc.taprio_tc_entry.max_sdu", "Max sdu", unit="bytes", key="MaxSdu", left=0}},
    [3] = {"TCA_TAPRIO_TC_ENTRY_FP", {"u32", "tc.taprio_tc_entry.fp", "Fp", key="Fp", enum="tc_fp"}},
  },
  taprio_stats = {
    [1] = {"TCA_TAPRIO_OFFLOAD_STATS_PAD", {"flag", "tc.taprio_stats.pad", "Pad", key="Pad", left=-1}},
    [2] = {"TCA_TAPRIO_OFFLOAD_STATS_WINDOW_DROPS", {"u64", "tc.taprio_stats.window_drops", "Window drops", unit="packets", key="WindowDrops", left=0}},
    [3] = {"TCA_TAPRIO_OFFLOAD_STATS_TX_OVERRUNS", {"u64", "tc.taprio_stats.tx_overruns", "Tx overruns", unit="packets", key="TxOverruns", left=0}},
  },
  tbf = {
    [1] = {"TCA_TBF_PARMS", {"struct", "tc.tbf.parms", "Parms", key="Parms", s="Flat", width=36, least=36, parts={{"struct", "tc.tbf.parms.rate", "Rate", key="rate", w="rate", s="Rate", a="Rate64", width=12, least=12, parts={{"u8", "tc.tbf.parms.rate.cell_log", "Cell log", unit="log2", key="cell_log", left=0}, {"u8", "tc.tbf.parms.rate.linklayer", "Linklayer", key="linklayer", w="linklayer", below=2, enum="tc_linklayer"}, {"u16", "tc.tbf.parms.rate.overhead", "Overhead", unit="bytes", key="overhead", w="overhead", left=0}, {"s16", "tc.tbf.parms.rate.cell_align", "Cell align", key="cell_align", left=-1}, {"u16", "tc.tbf.parms.rate.mpu", "MPU", unit="bytes", key="mpu", w="mpu", left=0}, {"u32", "tc.tbf.parms.rate.rate", "Rate", unit="bytes/s", key="rate", w="rate", s="OfRate"}}}, {"struct", "tc.tbf.parms.peakrate", "Peakrate", key="peakrate", w="peakrate", s="Rate", a="Prate64", left=0, width=12, least=12, parts={{"u8", "tc.tbf.parms.peakrate.cell_log", "Cell log", unit="log2", key="cell_log", left=0}, {"u8", "tc.tbf.parms.peakrate.linklayer", "Linklayer", key="linklayer", w="linklayer", below=2, enum="tc_linklayer"}, {"u16", "tc.tbf.parms.peakrate.overhead", "Overhead", unit="bytes", key="overhead", w="overhead", left=0}, {"s16", "tc.tbf.parms.peakrate.cell_align", "Cell align", key="cell_align", left=-1}, {"u16", "tc.tbf.parms.peakrate.mpu", "MPU", unit="bytes", key="mpu", w="mpu", left=0}, {"u32", "tc.tbf.parms.peakrate.rate", "Rate", unit="bytes/s", key="rate", w="rate", s="OfRate"}}}, {"u32", "tc.tbf.parms.limit", "Limit", unit="bytes", key="limit", w="limit"}, {"u32", "tc.tbf.parms.buffer", "Buffer", unit="ticks", key="buffer", w="burst", s="Burst", a="rate"}, {"u32", "tc.tbf.parms.mtu", "MTU", unit="ticks", key="mtu", w="mtu", s="Burst", a="peakrate", left=0}}}},
    [2] = {"TCA_TBF_RTAB", {"hex", "tc.tbf.rtab", "RTAB", key="Rtab", s="Bytes"}},
    [3] = {"TCA_TBF_PTAB", {"hex", "tc.tbf.ptab", "PTAB", key="Ptab", s="Bytes"}},
    [4] = {"TCA_TBF_RATE64", {"u64", "tc.tbf.rate64", "Rate64", unit="bytes/s", key="Rate64", left=-1}},
    [5] = {"TCA_TBF_PRATE64", {"u64", "tc.tbf.prate64", "Prate64", unit="bytes/s", key="Prate64", left=-1}},
    [6] = {"TCA_TBF_BURST", {"u32", "tc.tbf.burst", "Burst", unit="bytes", key="Burst"}},
    [7] = {"TCA_TBF_PBURST", {"u32", "tc.tbf.pburst", "Pburst", unit="bytes", key="Pburst"}},
    [8] = {"TCA_TBF_PAD", {"flag", "tc.tbf.pad", "Pad", key="Pad", left=-1}},
  },
  stab = {
    [1] = {"TCA_STAB_BASE", {"struct", "tc.stab.base", "Base", key="Base", s="Flat", width=24, least=24, parts={{"u8", "tc.stab.base.cell_log", "Cell log", unit="log2", key="cell_log", left=0}, {"u8", "tc.stab.base.size_log", "Size log", unit="log2", key="size_log", left=0}, {"s16", "tc.stab.base.cell_align", "Cell align", key="cell_align", left=-1}, {"s32", "tc.stab.base.overhead", "Overhead", unit="bytes", key="overhead", w="overhead"}, {"u32", "tc.stab.base.linklayer", "Linklayer", key="linklayer", w="linklayer", enum="tc_linklayer"}, {"u32", "tc.stab.base.mpu", "MPU", unit="bytes", key="mpu", w="mpu"}, {"u32", "tc.stab.base.mtu", "MTU", unit="bytes", key="mtu", w="mtu"}, {"u32", "tc.stab.base.tsize", "Tsize", key="tsize", w="tsize"}}}},
    [2] = {"TCA_STAB_DATA", {"array", false, "Data", key="Data", s="Bytes", inner={"u16", "tc.stab.data", "Data"}}},
  },
  stats = {
    [1] = {"TCA_STATS_BASIC", {"struct", "tc.stats.basic", "Basic", key="Basic", s="Flat", width=16, least=16, parts={{"u64", "tc.stats.basic.bytes", "Bytes", unit="bytes", key="bytes", w="sent", s="Count"}, {"u32", "tc.stats.basic.packets", "Packets", unit="packets", key="packets", s="Count"}, {"pad", "tc.stats.basic.padding", "Padding", key="padding", width=4}}}},
    [2] = {"TCA_STATS_RATE_EST", {"struct", "tc.stats.rate_est", "Rate est", key="RateEst", s="Flat", width=8, least=8, parts={{"u32", "tc.stats.rate_est.bps", "Bps", unit="bytes/s", key="bps", w="rate", s="Count", left=0}, {"u32", "tc.stats.rate_est.pps", "Pps", unit="packets/s", key="pps", s="Count", left=0}}}},
    [3] = {"TCA_STATS_QUEUE", {"struct", "tc.stats.queue", "Queue", key="Queue", s="Flat", width=20, least=20, parts={{"u32", "tc.stats.queue.qlen", "Qlen", unit="packets", key="qlen", s="Count"}, {"u32", "tc.stats.queue.backlog", "Backlog", unit="bytes", key="backlog", w="backlog", s="Count"}, {"u32", "tc.stats.queue.drops", "Drops", unit="packets", key="drops", w="dropped", s="Count"}, {"u32", "tc.stats.queue.requeues", "Requeues", unit="packets", key="requeues", w="requeues", left=0}, {"u32", "tc.stats.queue.overlimits", "Overlimits", key="overlimits", w="overlimits", s="Count"}}}},
    [4] = {"TCA_STATS_APP", {"by", "tc.stats.app", "App", which="statistics", kinds="tc", other={"choice", "tc.stats.app", "App", key="App", s="Statistics", parts={}}, key="App", s="Statistics"}},
    [5] = {"TCA_STATS_RATE_EST64", {"struct", "tc.stats.rate_est64", "Rate est64", key="RateEst64", s="Flat", width=16, least=16, parts={{"u64", "tc.stats.rate_est64.bps", "Bps", unit="bytes/s", key="bps", w="rate", s="Count", left=0}, {"u64", "tc.stats.rate_est64.pps", "Pps", unit="packets/s", key="pps", s="Count", left=0}}}},
    [6] = {"TCA_STATS_PAD", {"flag", "tc.stats.pad", "Pad", key="Pad", left=-1}},
    [7] = {"TCA_STATS_BASIC_HW", {"struct", "tc.stats.basic_hw", "Basic HW", key="BasicHw", width=16, least=16, parts={{"u64", "tc.stats.basic_hw.bytes", "Bytes", unit="bytes", key="bytes", w="sent", s="Count"}, {"u32", "tc.stats.basic_hw.packets", "Packets", unit="packets", key="packets", s="Count"}, {"pad", "tc.stats.basic_hw.padding", "Padding", key="padding", width=4}}}},
    [8] = {"TCA_STATS_PKT64", {"u64", "tc.stats.pkt64", "Pkt64", unit="packets", key="Pkt64", left=0}},
  },
}
local F = {
  type = {"u16", "tc.msg.type", "Type", names="message_type"},
  flags = {"u16", "tc.msg.flags", "Flags", unit="hex"},
  seq = {"u32", "tc.msg.seq", "Sequence number"},
  port = {"u32", "tc.msg.port", "Port ID"},
  length = {"u16", "tc.nla.len", "Length"},
  word = {"u16", "tc.nla.type", "Type", unit="hex"},
  padding = {"bytes", "tc.nla.pad", "Padding"},
  raw = {"bytes", "tc.raw", "Raw"},
  rest = {"bytes", "tc.rest", "Rest"},
  other = {"bytes", "tc.other", "Other"},
  pref = {"u16", "tc.pref", "Pref"},
  protocol = {"u16", "tc.protocol", "Protocol", unit="hex", names="eth_p"},
  verb = {"text", "tc.verb", "Verb"},
  dev = {"text", "tc.dev", "Interface"},
  request = {"none", "tc.request", "Request"},
  answer = {"none", "tc.answer", "Answer"},
  refused = {"none", "tc.refused", "Refused"},
  refusal = {"text", "tc.refusal", "Refused"},
  error = {"u32", "tc.error", "Error", names="errno"},
  quoted = {"none", "tc.quoted", "Request"},
  quoted_type = {"u16", "tc.quoted.type", "Type", names="message_type"},
  quoted_flags = {"u16", "tc.quoted.flags", "Flags", unit="hex"},
  quoted_seq = {"u32", "tc.quoted.seq", "Sequence number"},
  quoted_port = {"u32", "tc.quoted.port", "Port ID"},
  request_in = {"frame", "tc.request_in", "Request in", frame="REQUEST"},
  answer_in = {"frame", "tc.answer_in", "Answer in", frame="RESPONSE"},
}
local KINDS = {tc = {}, action = {}}
KINDS.action.bpf = {options={"list", false, "", list="act_bpf", nested=true, layer="Bpf"}}
KINDS.action.connmark = {options={"list", false, "", list="connmark", nested=true, layer="Connmark"}}
KINDS.action.csum = {options={"list", false, "", list="csum", nested=true, layer="Csum"}}
KINDS.action.ct = {options={"list", false, "", list="ct", nested=true, layer="Ct"}}
KINDS.action.ctinfo = {options={"list", false, "", list="ctinfo", nested=true, layer="Ctinfo"}}
KINDS.action.gact = {options={"list", false, "", list="gact", nested=true, layer="Gact"}}
KINDS.action.gate = {options={"list", false, "", list="gate", nested=true, layer="Gate"}}
KINDS.action.ife = {options={"list", false, "", list="ife", nested=true, layer="Ife"}}
KINDS.action.ipt = {options={"list", false, "", list="ipt", nested=true, layer="Ipt"}}
KINDS.action.xt = {options={"list", false, "", list="ipt", nested=true, layer="Xt"}}
KINDS.action.mirred = {options={"list", false, "", list="mirred", nested=true, layer="Mirror"}}
KINDS.action.mpls = {options={"list", false, "", list="mpls", nested=true, layer="Mpls"}}
KINDS.action.nat = {options={"list", false, "", list="nat", nested=true, layer="Nat"}}
KINDS.action.pedit = {options={"list", false, "", list="pedit", nested=true, layer="Pedit"}}
KINDS.action.police = {options={"list", false, "", list="police", nested=true, layer="Police"}}
KINDS.action.sample = {options={"list", false, "", list="sample", nested=true, layer="Sample"}}
KINDS.action.simple = {options={"list", false, "", list="simple", nested=true, layer="Simple"}}
KINDS.action.skbedit = {options={"list", false, "", list="skbedit", nested=true, layer="Skbedit"}}
KINDS.action.skbmod = {options={"list", false, "", list="skbmod", nested=true, layer="Skbmod"}}
KINDS.action.tunnel_key = {options={"list", false, "", list="tunnel_key", nested=true, layer="TunnelKey"}}
KINDS.action.vlan = {options={"list", false, "", list="vlan", nested=true, layer="Vlan"}}
KINDS.tc.basic = {options={"list", false, "", list="basic", layer="Basic"}}
KINDS.tc.bpf = {options={"list", false, "", list="bpf", layer="Bpf"}}
KINDS.tc.cgroup = {options={"list", false, "", list="cgroup", layer="Cgroup"}}
KINDS.tc.flow = {options={"list", false, "", list="flow", layer="Flow"}}
KINDS.tc.flower = {options={"list", false, "", list="flower", layer="Flower"}}
KINDS.tc.fw = {options={"list", false, "", list="fw", layer="Fw"}}
KINDS.tc.matchall = {options={"list", false, "", list="matchall", layer="MatchAll"}}
KINDS.tc.route = {options={"list", false, "", list="route", layer="Route"}}
KINDS.tc.rsvp = {options={"list", false, "", list="rsvp", layer="Rsvp"}}
KINDS.tc.rsvp6 = {options={"list", false, "", list="rsvp6", layer="Rsvp6"}}
KINDS.tc.tcindex = {options={"list", false, "", list="tcindex", layer="Tcindex"}}
KINDS.tc.u32 = {options={"list", false, "", list="u32", layer="U32"}}
KINDS.tc.atm = {options={"list", false, "", list="atm", layer="Atm"}}
KINDS.tc.cake = {options={"list", false, "", list="cake", layer="Cake"}, statistics={"list", false, "", list="cake_stats"}}
KINDS.tc.cake_mq = {options={"list", false, "", list="cake", layer="CakeMq"}}
KINDS.tc.cbq = {options={"list", false, "", list="cbq", layer="Cbq"}, statistics={"struct", false, "", width=16, least=16, parts={{"u32", "tc.cbq.xstats.borrows", "Borrows", key="borrows", left=0}, {"u32", "tc.cbq.xstats.overactions", "Overactions", key="overactions", left=0}, {"s32", "tc.cbq.xstats.avgidle", "Avgidle", key="avgidle", left=0}, {"s32", "tc.cbq.xstats.undertime", "Undertime", key="undertime", left=0}}}}
KINDS.tc.cbs = {options={"list", false, "", list="cbs", layer="Cbs"}}
KINDS.tc.choke = {options={"list", false, "", list="choke", layer="Choke"}, statistics={"struct", false, "", width=20, least=20, parts={{"u32", "tc.choke.xstats.early", "Early", key="early", left=0}, {"u32", "tc.choke.xstats.pdrop", "Pdrop", key="pdrop", left=0}, {"u32", "tc.choke.xstats.other", "Other", key="other", left=0}, {"u32", "tc.choke.xstats.marked", "Marked", key="marked", left=0}, {"u32", "tc.choke.xstats.matched", "Matched", key="matched", left=0}}}}
KINDS.tc.codel = {options={"list", false, "", list="codel", layer="Codel"}, statistics={"struct", false, "", width=36, least=36, parts={{"u32", "tc.codel.xstats.maxpacket", "Maxpacket", key="maxpacket", left=0}, {"u32", "tc.codel.xstats.count", "Count", key="count", left=0}, {"u32", "tc.codel.xstats.lastcount", "Lastcount", key="lastcount", left=0}, {"u32", "tc.codel.xstats.ldelay", "Ldelay", unit="us", key="ldelay", left=0}, {"s32", "tc.codel.xstats.drop_next", "Drop next", unit="us", key="drop_next", left=0}, {"u32", "tc.codel.xstats.drop_overlimit", "Drop overlimit", key="drop_overlimit", left=0}, {"u32", "tc.codel.xstats.ecn_mark", "ECN mark", key="ecn_mark", left=0}, {"u32", "tc.codel.xstats.dropping", "Dropping", key="dropping", left=0}, {"u32", "tc.codel.xstats.ce_mark", "Ce mark", key="ce_mark", left=0}}}}
KINDS.tc.drr = {options={"list", false, "", list="drr", layer="Drr"}, statistics={"struct", false, "", width=4, least=4, parts={{"u32", "tc.drr.xstats.deficit", "Deficit", key="deficit", left=0}}}}
KINDS.tc.dsmark = {options={"list", false, "", list="dsmark", layer="Dsmark"}}
KINDS.tc.dualpi2 = {options={"list", false, "", list="dualpi2", layer="Dualpi2"}, statistics={"struct", false, "", width=48, least=48, parts={{"u32", "tc.dualpi2.xstats.prob", "Prob", key="prob", left=0}, {"u32", "tc.dualpi2.xstats.delay_c", "Delay c", unit="us", key="delay_c", left=0}, {"u32", "tc.dualpi2.xstats.delay_l", "Delay l", unit="us", key="delay_l", left=0}, {"u32", "tc.dualpi2.xstats.packets_in_c", "Packets in c", unit="packets", key="packets_in_c", left=0}, {"u32", "tc.dualpi2.xstats.packets_in_l", "Packets in l", unit="packets", key="packets_in_l", left=0}, {"u32", "tc.dualpi2.xstats.maxq", "Maxq", unit="packets", key="maxq", left=0}, {"u32", "tc.dualpi2.xstats.ecn_mark", "ECN mark", unit="packets", key="ecn_mark", left=0}, {"u32", "tc.dualpi2.xstats.step_marks", "Step marks", unit="packets", key="step_marks", left=0}, {"s32", "tc.dualpi2.xstats.credit", "Credit", key="credit", left=0}, {"u32", "tc.dualpi2.xstats.memory_used", "Memory used", unit="bytes", key="memory_used", left=0}, {"u32", "tc.dualpi2.xstats.max_memory_used", "Max memory used", unit="bytes", key="max_memory_used", left=0}, {"u32", "tc.dualpi2.xstats.memory_limit", "Memory limit", unit="bytes", key="memory_limit", left=0}}}}
KINDS.tc.etf = {options={"list", false, "", list="etf", layer="Etf"}}
KINDS.tc.ets = {options={"list", false, "", list="ets", nested=true, layer="Ets"}}
KINDS.tc.pfifo = {options={"struct", false, "", width=4, least=4, parts={{"u32", "tc.pfifo.limit", "Limit", unit="packets", key="limit", w="limit"}}}}
KINDS.tc.pfifo_head_drop = KINDS.tc.pfifo
KINDS.tc.bfifo = {options={"struct", false, "", width=4, least=4, parts={{"u32", "tc.bfifo.limit", "Limit", unit="bytes", key="limit", w="limit"}}}}
KINDS.tc.fq = {options={"list", false, "", list="fq", layer="Fq"}, statistics={"struct", false, "", least=104, parts={{"u64", "tc.fq.xstats.gc_flows", "Gc flows", key="gc_flows", w="gc", left=0}, {"u64", "tc.fq.xstats.highprio_packets", "Highprio packets", key="highprio_packets", w="highprio", left=0}, {"u64", "tc.fq.xstats.tcp_retrans", "TCP retrans", key="tcp_retrans", left=0}, {"u64", "tc.fq.xstats.throttled", "Throttled", key="throttled", w="throttled", left=0}, {"u64", "tc.fq.xstats.flows_plimit", "Flows plimit", key="flows_plimit", left=0}, {"u64", "tc.fq.xstats.pkts_too_long", "Pkts too long", key="pkts_too_long", left=0}, {"u64", "tc.fq.xstats.allocation_errors", "Allocation errors", key="allocation_errors", left=0}, {"s64", "tc.fq.xstats.time_next_delayed_flow", "Time next delayed flow", unit="ns", key="time_next_delayed_flow", left=0}, {"u32", "tc.fq.xstats.flows", "Flows", key="flows", w="flows", left=0}, {"u32", "tc.fq.xstats.inactive_flows", "Inactive flows", key="inactive_flows", w="inactive", left=0}, {"u32", "tc.fq.xstats.throttled_flows", "Throttled flows", key="throttled_flows", left=0}, {"u32", "tc.fq.xstats.unthrottle_latency_ns", "Unthrottle latency ns", unit="ns", key="unthrottle_latency_ns", left=0}, {"u64", "tc.fq.xstats.ce_mark", "Ce mark", key="ce_mark", left=0}, {"u64", "tc.fq.xstats.horizon_drops", "Horizon drops", key="horizon_drops", left=0}, {"u64", "tc.fq.xstats.horizon_caps", "Horizon caps", key="horizon_caps", left=0}, {"array", false, "Since 6 7", key="since_6_7", inner={"struct", "tc.fq.xstats.since_6_7", "Since", width=48, least=48, parts={{"u64", "tc.fq.xstats.since_6_7.fastpath_packets", "Fastpath packets", key="fastpath_packets", left=0}, {"array", false, "Band drops", key="band_drops", inner={"u64", "tc.fq.xstats.since_6_7.band_drops", "Band drops"}, width=24}, {"array", false, "Band pkt count", key="band_pkt_count", inner={"u32", "tc.fq.xstats.since_6_7.band_pkt_count", "Band pkt count"}, width=12}, {"pad", "tc.fq.xstats.since_6_7.pad", "Pad", key="pad", width=4}}}}}}}
KINDS.tc.fq_codel = {options={"list", false, "", list="fq_codel", layer="FqCodel"}, statistics={"choice", false, "", parts={{"struct", false, "Qdisc", prefix="\000\000\000\000", key="Qdisc", width=36, least=36, parts={{"u32", "tc.fq_codel.xstats.qdisc.maxpacket", "Maxpacket", unit="bytes", key="maxpacket", left=0}, {"u32", "tc.fq_codel.xstats.qdisc.drop_overlimit", "Drop overlimit", unit="packets", key="drop_overlimit", left=0}, {"u32", "tc.fq_codel.xstats.qdisc.ecn_mark", "ECN mark", unit="packets", key="ecn_mark", left=0}, {"u32", "tc.fq_codel.xstats.qdisc.new_flow_count", "New flow count", key="new_flow_count", left=0}, {"u32", "tc.fq_codel.xstats.qdisc.new_flows_len", "New flows len", key="new_flows_len", left=0}, {"u32", "tc.fq_codel.xstats.qdisc.old_flows_len", "Old flows len", key="old_flows_len", left=0}, {"u32", "tc.fq_codel.xstats.qdisc.ce_mark", "Ce mark", unit="packets", key="ce_mark", left=0}, {"u32", "tc.fq_codel.xstats.qdisc.memory_usage", "Memory usage", unit="bytes", key="memory_usage", left=0}, {"u32", "tc.fq_codel.xstats.qdisc.drop_overmemory", "Drop overmemory", unit="packets", key="drop_overmemory", left=0}}}, {"struct", false, "Class", prefix="\001\000\000\000", key="Class", width=24, least=24, parts={{"s32", "tc.fq_codel.xstats.class.deficit", "Deficit", unit="bytes", key="deficit", left=0}, {"u32", "tc.fq_codel.xstats.class.ldelay", "Ldelay", unit="us", key="ldelay", left=0}, {"u32", "tc.fq_codel.xstats.class.count", "Count", key="count", left=0}, {"u32", "tc.fq_codel.xstats.class.lastcount", "Lastcount", key="lastcount", left=0}, {"u32", "tc.fq_codel.xstats.class.dropping", "Dropping", key="dropping", left=0}, {"s32", "tc.fq_codel.xstats.class.drop_next", "Drop next", unit="us", key="drop_next", left=0}}}}}}
KINDS.tc.fq_pie = {options={"list", false, "", list="fq_pie", nested=true, layer="FqPie"}, statistics={"struct", false, "", width=36, least=36, parts={{"u32", "tc.fq_pie.xstats.packets_in", "Packets in", key="packets_in", left=0}, {"u32", "tc.fq_pie.xstats.dropped", "Dropped", key="dropped", left=0}, {"u32", "tc.fq_pie.xstats.overlimit", "Overlimit", key="overlimit", left=0}, {"u32", "tc.fq_pie.xstats.overmemory", "Overmemory", key="overmemory", left=0}, {"u32", "tc.fq_pie.xstats.ecn_mark", "ECN mark", key="ecn_mark", left=0}, {"u32", "tc.fq_pie.xstats.new_flow_count", "New flow count", key="new_flow_count", left=0}, {"u32", "tc.fq_pie.xstats.new_flows_len", "New flows len", key="new_flows_len", left=0}, {"u32", "tc.fq_pie.xstats.old_flows_len", "Old flows len", key="old_flows_len", left=0}, {"u32", "tc.fq_pie.xstats.memory_usage", "Memory usage", key="memory_usage", left=0}}}}
KINDS.tc.gred = {options={"list", false, "", list="gred", layer="Gred"}}
KINDS.tc.hfsc = {options={"choice", false, "", parts={{"struct", false, "Qdisc", length=2, key="Qdisc", width=2, least=2, parts={{"u16", "tc.hfsc.qdisc.defcls", "Defcls", unit="hex", key="defcls", w="default", left=0}}}, {"list", false, "Class", key="Class", list="hfsc", layer="Hfsc"}}}, statistics={"struct", false, "", width=24, least=24, parts={{"u64", "tc.hfsc.xstats.work", "Work", unit="bytes", key="work", w="work", left=0}, {"u64", "tc.hfsc.xstats.rtwork", "Rtwork", unit="bytes", key="rtwork", w="rtwork", left=0}, {"u32", "tc.hfsc.xstats.period", "Period", key="period", w="period", left=0}, {"u32", "tc.hfsc.xstats.level", "Level", key="level", w="level", left=0}}}}
KINDS.tc.hhf = {options={"list", false, "", list="hhf", layer="Hhf"}, statistics={"struct", false, "", width=16, least=16, parts={{"u32", "tc.hhf.xstats.drop_overlimit", "Drop overlimit", key="drop_overlimit", left=0}, {"u32", "tc.hhf.xstats.hh_overlimit", "Hh overlimit", key="hh_overlimit", left=0}, {"u32", "tc.hhf.xstats.hh_tot_count", "Hh tot count", key="hh_tot_count", w="tot_hh", left=0}, {"u32", "tc.hhf.xstats.hh_cur_count", "Hh cur count", key="hh_cur_count", w="cur_hh", left=0}}}}
KINDS.tc.htb = {options={"list", false, "", list="htb", layer="Htb"}, statistics={"struct", false, "", width=20, least=20, parts={{"u32", "tc.htb.xstats.lends", "Lends", key="lends", w="lended", left=0}, {"u32", "tc.htb.xstats.borrows", "Borrows", key="borrows", w="borrowed", left=0}, {"u32", "tc.htb.xstats.giants", "Giants", key="giants", left=0}, {"s32", "tc.htb.xstats.tokens", "Tokens", unit="ticks", key="tokens", left=0}, {"s32", "tc.htb.xstats.ctokens", "Ctokens", unit="ticks", key="ctokens", left=0}}}}
KINDS.tc.ingress = {options={"list", false, "", list="ingress", layer="Ingress"}}
KINDS.tc.mqprio = {options={"struct", false, "", least=84, parts={{"u8", "tc.mqprio.num_tc", "Num TC", key="num_tc", w="num_tc"}, {"array", false, "Prio TC map", key="prio_tc_map", w="map", inner={"u8", "tc.mqprio.prio_tc_map", "Prio TC map"}, width=16}, {"u8", "tc.mqprio.hw", "HW", key="hw", w="hw"}, {"array", false, "Count", key="count", inner={"u16", "tc.mqprio.count", "Count"}, width=32}, {"array", false, "Offset", key="offset", inner={"u16", "tc.mqprio.offset", "Offset"}, width=32}, {"pad", "tc.mqprio.padding", "Padding", key="padding", width=2}, {"list", false, "Attributes", key="attributes", s="Flat", list="mqprio"}}}}
KINDS.tc.multiq = {options={"struct", false, "", width=4, least=4, parts={{"u16", "tc.multiq.bands", "Bands", key="bands", w="bands"}, {"u16", "tc.multiq.max_bands", "Max bands", key="max_bands"}}}}
KINDS.tc.netem = {options={"struct", false, "", least=24, parts={{"u32", "tc.netem.latency", "Latency", unit="ticks", key="latency", left=0}, {"u32", "tc.netem.limit", "Limit", unit="packets", key="limit", w="limit"}, {"u32", "tc.netem.loss", "Loss", unit="probability", key="loss", w="loss", left=0}, {"u32", "tc.netem.gap", "Gap", unit="packets", key="gap", w="gap", left=0}, {"u32", "tc.netem.duplicate", "Duplicate", unit="probability", key="duplicate", w="duplicate", left=0}, {"u32", "tc.netem.jitter", "Jitter", unit="ticks", key="jitter", left=0}, {"list", false, "Attributes", key="attributes", s="Flat", list="netem"}}}, statistics={"struct", false, "", width=56, least=56, parts={{"u64", "tc.netem.xstats.delayed", "Delayed", unit="packets", key="delayed", left=0}, {"u64", "tc.netem.xstats.dropped", "Dropped", unit="packets", key="dropped", left=0}, {"u64", "tc.netem.xstats.corrupted", "Corrupted", unit="packets", key="corrupted", left=0}, {"u64", "tc.netem.xstats.duplicated", "Duplicated", unit="packets", key="duplicated", left=0}, {"u64", "tc.netem.xstats.reordered", "Reordered", unit="packets", key="reordered", left=0}, {"u64", "tc.netem.xstats.ecn_marked", "ECN marked", unit="packets", key="ecn_marked", left=0}, {"u64", "tc.netem.xstats.allocation_errors", "Allocation errors", key="allocation_errors", left=0}}}}
KINDS.tc.noop = {options={"list", false, "", list="no_options"}}
KINDS.tc.noqueue = KINDS.tc.noop
KINDS.tc.blackhole = KINDS.tc.noop
KINDS.tc.mq = KINDS.tc.noop
KINDS.tc.teql0 = KINDS.tc.noop
KINDS.tc.clsact = {options={"list", false, "", list="no_options", layer="Clsact"}}
KINDS.tc.pie = {options={"list", false, "", list="pie", layer="Pie"}, statistics={"struct", false, "", width=40, least=40, parts={{"u64", "tc.pie.xstats.prob", "Prob", key="prob", left=0}, {"u32", "tc.pie.xstats.delay", "Delay", unit="us", key="delay", left=0}, {"u32", "tc.pie.xstats.avg_dq_rate", "Avg dq rate", unit="bytes/s", key="avg_dq_rate", left=0}, {"u32", "tc.pie.xstats.dq_rate_estimating", "Dq rate estimating", key="dq_rate_estimating", left=0}, {"u32", "tc.pie.xstats.packets_in", "Packets in", key="packets_in", left=0}, {"u32", "tc.pie.xstats.dropped", "Dropped", key="dropped", left=0}, {"u32", "tc.pie.xstats.overlimit", "Overlimit", key="overlimit", left=0}, {"u32", "tc.pie.xstats.maxq", "Maxq", key="maxq", left=0}, {"u32", "tc.pie.xstats.ecn_mark", "ECN mark", key="ecn_mark", left=0}}}}
KINDS.tc.plug = {options={"struct", false, "", width=8, least=8, parts={{"s32", "tc.plug.action", "Action", key="action", w="block|release|release_indefinite|limit", s="Choice", enum="tcq_plug"}, {"u32", "tc.plug.limit", "Limit", unit="bytes", key="limit", w="limit", left=0}}}}
KINDS.tc.prio = {options={"struct", false, "", least=20, parts={{"s32", "tc.prio.bands", "Bands", key="bands", w="bands"}, {"array", false, "Priomap", key="priomap", w="priomap", inner={"u8", "tc.prio.priomap", "Priomap"}, width=16}, {"list", false, "Attributes", key="attributes", s="Flat", list="prio"}}}}
KINDS.tc.rr = KINDS.tc.prio
KINDS.tc.pfifo_fast = {options={"struct", false, "", width=20, least=20, parts={{"s32", "tc.pfifo_fast.bands", "Bands", key="bands", w="bands"}, {"array", false, "Priomap", key="priomap", w="priomap", inner={"u8", "tc.pfifo_fast.priomap", "Priomap"}, width=16}}}}
KINDS.tc.qfq = {options={"list", false, "", list="qfq", layer="Qfq"}, statistics={"struct", false, "", width=8, least=8, parts={{"u32", "tc.qfq.xstats.weight", "Weight", key="weight", left=0}, {"u32", "tc.qfq.xstats.lmax", "Lmax", unit="bytes", key="lmax", left=0}}}}
KINDS.tc.red = {options={"list", false, "", list="red", layer="Red"}, statistics={"struct", false, "", width=16, least=16, parts={{"u32", "tc.red.xstats.early", "Early", unit="packets", key="early", left=0}, {"u32", "tc.red.xstats.pdrop", "Pdrop", unit="packets", key="pdrop", left=0}, {"u32", "tc.red.xstats.other", "Other", unit="packets", key="other", left=0}, {"u32", "tc.red.xstats.marked", "Marked", unit="packets", key="marked", left=0}}}}
KINDS.tc.sfb = {options={"list", false, "", list="sfb", layer="Sfb"}, statistics={"struct", false, "", width=36, least=36, parts={{"u32", "tc.sfb.xstats.earlydrop", "Earlydrop", key="earlydrop", left=0}, {"u32", "tc.sfb.xstats.penaltydrop", "Penaltydrop", key="penaltydrop", left=0}, {"u32", "tc.sfb.xstats.bucketdrop", "Bucketdrop", key="bucketdrop", left=0}, {"u32", "tc.sfb.xstats.queuedrop", "Queuedrop", key="queuedrop", left=0}, {"u32", "tc.sfb.xstats.childdrop", "Childdrop", key="childdrop", left=0}, {"u32", "tc.sfb.xstats.marked", "Marked", key="marked", left=0}, {"u32", "tc.sfb.xstats.maxqlen", "Maxqlen", unit="packets", key="maxqlen", left=0}, {"u32", "tc.sfb.xstats.maxprob", "Maxprob", key="maxprob", left=0}, {"u32", "tc.sfb.xstats.avgprob", "Avgprob", key="avgprob", left=0}}}}
KINDS.tc.sfq = {options={"choice", false, "", parts={{"struct", false, "Qopt", length=20, key="Qopt", width=20, least=20, parts={{"u32", "tc.sfq.qopt.quantum", "Quantum", unit="bytes", key="quantum", w="quantum"}, {"s32", "tc.sfq.qopt.perturb_period", "Perturb period", unit="s", key="perturb_period", w="perturb", left=0}, {"u32", "tc.sfq.qopt.limit", "Limit", unit="packets", key="limit", w="limit"}, {"u32", "tc.sfq.qopt.divisor", "Divisor", key="divisor", w="divisor"}, {"u32", "tc.sfq.qopt.flows", "Flows", key="flows", w="flows"}}}, {"struct", false, "Qopt v1", length=72, key="QoptV1", width=72, least=72, parts={{"struct", "tc.sfq.qopt_v1.v0", "V0", key="v0", s="Flat", width=20, least=20, parts={{"u32", "tc.sfq.qopt_v1.v0.quantum", "Quantum", unit="bytes", key="quantum", w="quantum"}, {"s32", "tc.sfq.qopt_v1.v0.perturb_period", "Perturb period", unit="s", key="perturb_period", w="perturb", left=0}, {"u32", "tc.sfq.qopt_v1.v0.limit", "Limit", unit="packets", key="limit", w="limit"}, {"u32", "tc.sfq.qopt_v1.v0.divisor", "Divisor", key="divisor", w="divisor"}, {"u32", "tc.sfq.qopt_v1.v0.flows", "Flows", key="flows", w="flows"}}}, {"u32", "tc.sfq.qopt_v1.depth", "Depth", unit="packets", key="depth", w="depth", left=0}, {"u32", "tc.sfq.qopt_v1.headdrop", "Headdrop", key="headdrop", w="|headdrop", s="Choice", left=0}, {"u32", "tc.sfq.qopt_v1.limit", "Limit", unit="bytes", key="limit", w="redflowlimit", left=0}, {"u32", "tc.sfq.qopt_v1.qth_min", "Qth min", unit="bytes", key="qth_min", w="min", left=0}, {"u32", "tc.sfq.qopt_v1.qth_max", "Qth max", unit="bytes", key="qth_max", w="max", left=0}, {"u8", "tc.sfq.qopt_v1.wlog", "Wlog", unit="log2", key="Wlog", w="ewma", left=0}, {"u8", "tc.sfq.qopt_v1.plog", "Plog", unit="log2", key="Plog", left=0}, {"u8", "tc.sfq.qopt_v1.scell_log", "Scell log", unit="log2", key="Scell_log", left=0}, {"u8", "tc.sfq.qopt_v1.flags", "Flags", key="flags", s="Bits", left=0, bits="tc_red"}, {"u32", "tc.sfq.qopt_v1.max_p", "Max P", unit="probability", key="max_P", w="probability", left=0}, {"struct", "tc.sfq.qopt_v1.stats", "Stats", key="stats", s="Statistics", width=24, least=24, parts={{"u32", "tc.sfq.qopt_v1.stats.prob_drop", "Prob drop", unit="packets", key="prob_drop", left=0}, {"u32", "tc.sfq.qopt_v1.stats.forced_drop", "Forced drop", unit="packets", key="forced_drop", left=0}, {"u32", "tc.sfq.qopt_v1.stats.prob_mark", "Prob mark", unit="packets", key="prob_mark", left=0}, {"u32", "tc.sfq.qopt_v1.stats.forced_mark", "Forced mark", unit="packets", key="forced_mark", left=0}, {"u32", "tc.sfq.qopt_v1.stats.prob_mark_head", "Prob mark head", unit="packets", key="prob_mark_head", left=0}, {"u32", "tc.sfq.qopt_v1.stats.forced_mark_head", "Forced mark head", unit="packets", key="forced_mark_head", left=0}}}}}}}, statistics={"struct", false, "", width=4, least=4, parts={{"s32", "tc.sfq.xstats.allot", "Allot", unit="bytes", key="allot", left=0}}}}
KINDS.tc.skbprio = {options={"struct", false, "", width=4, least=4, parts={{"u32", "tc.skbprio.limit", "Limit", unit="packets", key="limit", w="limit"}}}}
KINDS.tc.taprio = {options={"list", false, "", list="taprio", layer="Taprio"}, statistics={"list", false, "", list="taprio_stats", nested=true}}
KINDS.tc.tbf = {options={"list", false, "", list="tbf", layer="Tbf"}}
local TCMSG = {family = {"u8", "tc.family", "Family", key="family", enum="address_family"}, padding = {"pad", "tc.padding", "Padding", key="padding", width=3}, index = {"s32", "tc.index", "Index", unit="ifindex", key="index"}, handle = {"handle", "tc.handle", "Handle", key="handle", twin="tc.handle.number"}, parent = {"handle", "tc.parent", "Parent", key="parent", twin="tc.parent.number"}, info = {"u32", "tc.info", "Info", key="info"}}
local TCAMSG = {family = {"u8", "tc.family", "Family", key="family", enum="address_family"}, padding = {"pad", "tc.padding", "Padding", key="padding", width=3}}
local ABOUT = {
  ["tc.extack.message"] = "NLMSGERR_ATTR_MSG, what is wrong",
  ["tc.extack.offset"] = "NLMSGERR_ATTR_OFFS, where it is in the request, in bytes from the beginning of the netlink header",
  ["tc.extack.cookie"] = "NLMSGERR_ATTR_COOKIE",
  ["tc.extack.policy"] = "NLMSGERR_ATTR_POLICY",
  ["tc.extack.miss_type"] = "NLMSGERR_ATTR_MISS_TYPE, the type of the attribute that is missing",
  ["tc.extack.miss_nest"] = "NLMSGERR_ATTR_MISS_NEST, where the attribute is that lacks it, as the offset",
  ["tc.extack_policy.type"] = "NL_POLICY_TYPE_ATTR_TYPE",
  ["tc.extack_policy.min_value_s"] = "NL_POLICY_TYPE_ATTR_MIN_VALUE_S",
  ["tc.extack_policy.max_value_s"] = "NL_POLICY_TYPE_ATTR_MAX_VALUE_S",
  ["tc.extack_policy.min_value_u"] = "NL_POLICY_TYPE_ATTR_MIN_VALUE_U",
  ["tc.extack_policy.max_value_u"] = "NL_POLICY_TYPE_ATTR_MAX_VALUE_U",
  ["tc.extack_policy.min_length"] = "NL_POLICY_TYPE_ATTR_MIN_LENGTH, bytes",
  ["tc.extack_policy.max_length"] = "NL_POLICY_TYPE_ATTR_MAX_LENGTH, bytes",
  ["tc.extack_policy.policy_idx"] = "NL_POLICY_TYPE_ATTR_POLICY_IDX",
  ["tc.extack_policy.policy_maxtype"] = "NL_POLICY_TYPE_ATTR_POLICY_MAXTYPE",
  ["tc.extack_policy.bitfield32_mask"] = "NL_POLICY_TYPE_ATTR_BITFIELD32_MASK",
  ["tc.extack_policy.pad"] = "NL_POLICY_TYPE_ATTR_PAD",
  ["tc.extack_policy.mask"] = "NL_POLICY_TYPE_ATTR_MASK",
  ["tc.action.kind"] = "TCA_ACT_KIND",
  ["tc.action.options"] = "TCA_ACT_OPTIONS",
  ["tc.action.index"] = "TCA_ACT_INDEX",
  ["tc.action.stats"] = "TCA_ACT_STATS",
  ["tc.action.pad"] = "TCA_ACT_PAD",
  ["tc.action.cookie"] = "TCA_ACT_COOKIE, in the answer to a flush the number of actions, TCA_FCNT",
  ["tc.action.flags.value.no_percpu_stats"] = "TCA_ACT_FLAGS_NO_PERCPU_STATS",
  ["tc.action.flags.value.skip_hw"] = "TCA_ACT_FLAGS_SKIP_HW",
  ["tc.action.flags.value.skip_sw"] = "TCA_ACT_FLAGS_SKIP_SW",
  ["tc.action.flags.selector.no_percpu_stats"] = "TCA_ACT_FLAGS_NO_PERCPU_STATS",
  ["tc.action.flags.selector.skip_hw"] = "TCA_ACT_FLAGS_SKIP_HW",
  ["tc.action.flags.selector.skip_sw"] = "TCA_ACT_FLAGS_SKIP_SW",
  ["tc.action.flags"] = "TCA_ACT_FLAGS",
  ["tc.action.hw_stats.value.immediate"] = "TCA_ACT_HW_STATS_IMMEDIATE",
  ["tc.action.hw_stats.value.delayed"] = "TCA_ACT_HW_STATS_DELAYED",
  ["tc.action.hw_stats.selector.immediate"] = "TCA_ACT_HW_STATS_IMMEDIATE",
  ["tc.action.hw_stats.selector.delayed"] = "TCA_ACT_HW_STATS_DELAYED",
  ["tc.action.hw_stats"] = "TCA_ACT_HW_STATS",
  ["tc.action.used_hw_stats.value.immediate"] = "TCA_ACT_HW_STATS_IMMEDIATE",
  ["tc.action.used_hw_stats.value.delayed"] = "TCA_ACT_HW_STATS_DELAYED",
  ["tc.action.used_hw_stats.selector.immediate"] = "TCA_ACT_HW_STATS_IMMEDIATE",
  ["tc.action.used_hw_stats.selector.delayed"] = "TCA_ACT_HW_STATS_DELAYED",
  ["tc.action.used_hw_stats"] = "TCA_ACT_USED_HW_STATS",
  ["tc.action.in_hw_count"] = "TCA_ACT_IN_HW_COUNT",
  ["tc.act_bpf.tm.install"] = "hundredths of a second, how long ago",
  ["tc.act_bpf.tm.lastuse"] = "hundredths of a second, how long ago",
  ["tc.act_bpf.tm.expires"] = "hundredths of a second",
  ["tc.act_bpf.tm.firstuse"] = "hundredths of a second, how long ago",
  ["tc.act_bpf.tm"] = "TCA_ACT_BPF_TM",
  ["tc.act_bpf.parms"] = "TCA_ACT_BPF_PARMS",
  ["tc.act_bpf.ops_len"] = "TCA_ACT_BPF_OPS_LEN",
  ["tc.act_bpf.fd"] = "TCA_ACT_BPF_FD",
  ["tc.act_bpf.name"] = "TCA_ACT_BPF_NAME",
  ["tc.act_bpf.pad"] = "TCA_ACT_BPF_PAD",
  ["tc.act_bpf.tag"] = "TCA_ACT_BPF_TAG",
  ["tc.act_bpf.id"] = "TCA_ACT_BPF_ID",
  ["tc.connmark.parms"] = "TCA_CONNMARK_PARMS",
  ["tc.connmark.tm.install"] = "hundredths of a second, how long ago",
  ["tc.connmark.tm.lastuse"] = "hundredths of a second, how long ago",
  ["tc.connmark.tm.expires"] = "hundredths of a second",
  ["tc.connmark.tm.firstuse"] = "hundredths of a second, how long ago",
  ["tc.connmark.tm"] = "TCA_CONNMARK_TM",
  ["tc.connmark.pad"] = "TCA_CONNMARK_PAD",
  ["tc.csum.parms.update_flags.ipv4hdr"] = "TCA_CSUM_UPDATE_FLAG_IPV4HDR",
  ["tc.csum.parms.update_flags.icmp"] = "TCA_CSUM_UPDATE_FLAG_ICMP",
  ["tc.csum.parms.update_flags.igmp"] = "TCA_CSUM_UPDATE_FLAG_IGMP",
  ["tc.csum.parms.update_flags.tcp"] = "TCA_CSUM_UPDATE_FLAG_TCP",
  ["tc.csum.parms.update_flags.udp"] = "TCA_CSUM_UPDATE_FLAG_UDP",
  ["tc.csum.parms.update_flags.udplite"] = "TCA_CSUM_UPDATE_FLAG_UDPLITE",
  ["tc.csum.parms.update_flags.sctp"] = "TCA_CSUM_UPDATE_FLAG_SCTP",
  ["tc.csum.parms"] = "TCA_CSUM_PARMS",
  ["tc.csum.tm.install"] = "hundredths of a second, how long ago",
  ["tc.csum.tm.lastuse"] = "hundredths of a second, how long ago",
  ["tc.csum.tm.expires"] = "hundredths of a second",
  ["tc.csum.tm.firstuse"] = "hundredths of a second, how long ago",
  ["tc.csum.tm"] = "TCA_CSUM_TM",
  ["tc.csum.pad"] = "TCA_CSUM_PAD",
  ["tc.ct.parms"] = "TCA_CT_PARMS",
  ["tc.ct.tm.install"] = "hundredths of a second, how long ago",
  ["tc.ct.tm.lastuse"] = "hundredths of a second, how long ago",
  ["tc.ct.tm.expires"] = "hundredths of a second",
  ["tc.ct.tm.firstuse"] = "hundredths of a second, how long ago",
  ["tc.ct.tm"] = "TCA_CT_TM",
  ["tc.ct.action"] = "TCA_CT_ACTION",
  ["tc.ct.action.commit"] = "TCA_CT_ACT_COMMIT",
  ["tc.ct.action.force"] = "TCA_CT_ACT_FORCE",
  ["tc.ct.action.clear"] = "TCA_CT_ACT_CLEAR",
  ["tc.ct.action.nat"] = "TCA_CT_ACT_NAT",
  ["tc.ct.action.nat_src"] = "TCA_CT_ACT_NAT_SRC",
  ["tc.ct.action.nat_dst"] = "TCA_CT_ACT_NAT_DST",
  ["tc.ct.zone"] = "TCA_CT_ZONE",
  ["tc.ct.mark"] = "TCA_CT_MARK",
  ["tc.ct.mark_mask"] = "TCA_CT_MARK_MASK",
  ["tc.ct.labels"] = "TCA_CT_LABELS",
  ["tc.ct.labels_mask"] = "TCA_CT_LABELS_MASK",
  ["tc.ct.nat_ipv4_min"] = "TCA_CT_NAT_IPV4_MIN",
  ["tc.ct.nat_ipv4_max"] = "TCA_CT_NAT_IPV4_MAX",
  ["tc.ct.nat_ipv6_min"] = "TCA_CT_NAT_IPV6_MIN",
  ["tc.ct.nat_ipv6_max"] = "TCA_CT_NAT_IPV6_MAX",
  ["tc.ct.nat_port_min"] = "TCA_CT_NAT_PORT_MIN",
  ["tc.ct.nat_port_max"] = "TCA_CT_NAT_PORT_MAX",
  ["tc.ct.pad"] = "TCA_CT_PAD",
  ["tc.ct.helper_name"] = "TCA_CT_HELPER_NAME",
  ["tc.ct.helper_family"] = "TCA_CT_HELPER_FAMILY",
  ["tc.ct.helper_proto"] = "TCA_CT_HELPER_PROTO",
  ["tc.ctinfo.pad"] = "TCA_CTINFO_PAD",
  ["tc.ctinfo.tm.install"] = "hundredths of a second, how long ago",
  ["tc.ctinfo.tm.lastuse"] = "hundredths of a second, how long ago",
  ["tc.ctinfo.tm.expires"] = "hundredths of a second",
  ["tc.ctinfo.tm.firstuse"] = "hundredths of a second, how long ago",
  ["tc.ctinfo.tm"] = "TCA_CTINFO_TM",
  ["tc.ctinfo.action"] = "TCA_CTINFO_ACT",
  ["tc.ctinfo.zone"] = "TCA_CTINFO_ZONE",
  ["tc.ctinfo.parms_dscp_mask"] = "TCA_CTINFO_PARMS_DSCP_MASK",
  ["tc.ctinfo.parms_dscp_statemask"] = "TCA_CTINFO_PARMS_DSCP_STATEMASK",
  ["tc.ctinfo.parms_cpmark_mask"] = "TCA_CTINFO_PARMS_CPMARK_MASK",
  ["tc.ctinfo.stats_dscp_set"] = "TCA_CTINFO_STATS_DSCP_SET",
  ["tc.ctinfo.stats_dscp_error"] = "TCA_CTINFO_STATS_DSCP_ERROR",
  ["tc.ctinfo.stats_cpmark_set"] = "TCA_CTINFO_STATS_CPMARK_SET",
  ["tc.gact.tm.install"] = "hundredths of a second, how long ago",
  ["tc.gact.tm.lastuse"] = "hundredths of a second, how long ago",
  ["tc.gact.tm.expires"] = "hundredths of a second",
  ["tc.gact.tm.firstuse"] = "hundredths of a second, how long ago",
  ["tc.gact.tm"] = "TCA_GACT_TM",
  ["tc.gact.parms"] = "TCA_GACT_PARMS",
  ["tc.gact.prob"] = "TCA_GACT_PROB",
  ["tc.gact.pad"] = "TCA_GACT_PAD",
  ["tc.gate.tm.install"] = "hundredths of a second, how long ago",
  ["tc.gate.tm.lastuse"] = "hundredths of a second, how long ago",
  ["tc.gate.tm.expires"] = "hundredths of a second",
  ["tc.gate.tm.firstuse"] = "hundredths of a second, how long ago",
  ["tc.gate.tm"] = "TCA_GATE_TM",
  ["tc.gate.parms"] = "TCA_GATE_PARMS",
  ["tc.gate.pad"] = "TCA_GATE_PAD",
  ["tc.gate.priority"] = "TCA_GATE_PRIORITY",
  ["tc.gate.entry_list"] = "TCA_GATE_ENTRY_LIST",
  ["tc.gate.base_time"] = "TCA_GATE_BASE_TIME, ns",
  ["tc.gate.cycle_time"] = "TCA_GATE_CYCLE_TIME, ns",
  ["tc.gate.cycle_time_ext"] = "TCA_GATE_CYCLE_TIME_EXT, ns",
  ["tc.gate.flags"] = "TCA_GATE_FLAGS",
  ["tc.gate.clockid"] = "TCA_GATE_CLOCKID",
  ["tc.gate_list.one_entry"] = "TCA_GATE_ONE_ENTRY",
  ["tc.gate_entry.index"] = "TCA_GATE_ENTRY_INDEX",
  ["tc.gate_entry.gate"] = "TCA_GATE_ENTRY_GATE",
  ["tc.gate_entry.interval"] = "TCA_GATE_ENTRY_INTERVAL, ns",
  ["tc.gate_entry.ipv"] = "TCA_GATE_ENTRY_IPV",
  ["tc.gate_entry.max_octets"] = "TCA_GATE_ENTRY_MAX_OCTETS, bytes",
  ["tc.ife.parms.flags.encode"] = "IFE_ENCODE",
  ["tc.ife.parms"] = "TCA_IFE_PARMS",
  ["tc.ife.tm.install"] = "hundredths of a second, how long ago",
  ["tc.ife.tm.lastuse"] = "hundredths of a second, how long ago",
  ["tc.ife.tm.expires"] = "hundredths of a second",
  ["tc.ife.tm.firstuse"] = "hundredths of a second, how long ago",
  ["tc.ife.tm"] = "TCA_IFE_TM",
  ["tc.ife.dmac"] = "TCA_IFE_DMAC",
  ["tc.ife.smac"] = "TCA_IFE_SMAC",
  ["tc.ife.type"] = "TCA_IFE_TYPE",
  ["tc.ife.metalst"] = "TCA_IFE_METALST",
  ["tc.ife.pad"] = "TCA_IFE_PAD",
  ["tc.ipt.table"] = "TCA_IPT_TABLE",
  ["tc.ipt.hook"] = "TCA_IPT_HOOK",
  ["tc.ipt.index"] = "TCA_IPT_INDEX",
  ["tc.ipt.cnt"] = "TCA_IPT_CNT",
  ["tc.ipt.tm.install"] = "hundredths of a second, how long ago",
  ["tc.ipt.tm.lastuse"] = "hundredths of a second, how long ago",
  ["tc.ipt.tm.expires"] = "hundredths of a second",
  ["tc.ipt.tm.firstuse"] = "hundredths of a second, how long ago",
  ["tc.ipt.tm"] = "TCA_IPT_TM",
  ["tc.ipt.targ"] = "TCA_IPT_TARG",
  ["tc.ipt.pad"] = "TCA_IPT_PAD",
  ["tc.mirred.tm.install"] = "hundredths of a second, how long ago",
  ["tc.mirred.tm.lastuse"] = "hundredths of a second, how long ago",
  ["tc.mirred.tm.expires"] = "hundredths of a second",
  ["tc.mirred.tm.firstuse"] = "hundredths of a second, how long ago",
  ["tc.mirred.tm"] = "TCA_MIRRED_TM",
  ["tc.mirred.parms.ifindex"] = "interface",
  ["tc.mirred.parms"] = "TCA_MIRRED_PARMS",
  ["tc.mirred.pad"] = "TCA_MIRRED_PAD",
  ["tc.mirred.blockid"] = "TCA_MIRRED_BLOCKID",
  ["tc.mpls.tm.install"] = "hundredths of a second, how long ago",
  ["tc.mpls.tm.lastuse"] = "hundredths of a second, how long ago",
  ["tc.mpls.tm.expires"] = "hundredths of a second",
  ["tc.mpls.tm.firstuse"] = "hundredths of a second, how long ago",
  ["tc.mpls.tm"] = "TCA_MPLS_TM",
  ["tc.mpls.parms"] = "TCA_MPLS_PARMS",
  ["tc.mpls.pad"] = "TCA_MPLS_PAD",
  ["tc.mpls.proto"] = "TCA_MPLS_PROTO",
  ["tc.mpls.label"] = "TCA_MPLS_LABEL",
  ["tc.mpls.tc"] = "TCA_MPLS_TC",
  ["tc.mpls.ttl"] = "TCA_MPLS_TTL",
  ["tc.mpls.bos"] = "TCA_MPLS_BOS",
  ["tc.nat.parms"] = "TCA_NAT_PARMS",
  ["tc.nat.tm.install"] = "hundredths of a second, how long ago",
  ["tc.nat.tm.lastuse"] = "hundredths of a second, how long ago",
  ["tc.nat.tm.expires"] = "hundredths of a second",
  ["tc.nat.tm.firstuse"] = "hundredths of a second, how long ago",
  ["tc.nat.tm"] = "TCA_NAT_TM",
  ["tc.nat.pad"] = "TCA_NAT_PAD",
  ["tc.pedit.tm.install"] = "hundredths of a second, how long ago",
  ["tc.pedit.tm.lastuse"] = "hundredths of a second, how long ago",
  ["tc.pedit.tm.expires"] = "hundredths of a second",
  ["tc.pedit.tm.firstuse"] = "hundredths of a second, how long ago",
  ["tc.pedit.tm"] = "TCA_PEDIT_TM",
  ["tc.pedit.parms.nkeys"] = "how many keys follow",
  ["tc.pedit.parms"] = "TCA_PEDIT_PARMS",
  ["tc.pedit.pad"] = "TCA_PEDIT_PAD",
  ["tc.pedit.parms_ex.nkeys"] = "how many keys follow",
  ["tc.pedit.parms_ex"] = "TCA_PEDIT_PARMS_EX",
  ["tc.pedit.keys_ex"] = "TCA_PEDIT_KEYS_EX",
  ["tc.pedit_keys_ex.key_ex"] = "TCA_PEDIT_KEY_EX",
  ["tc.pedit_key_ex.htype"] = "TCA_PEDIT_KEY_EX_HTYPE",
  ["tc.pedit_key_ex.cmd"] = "TCA_PEDIT_KEY_EX_CMD",
  ["tc.police.tbf.burst"] = "ticks of 64 ns",
  ["tc.police.tbf.mtu"] = "bytes",
  ["tc.police.tbf.rate.cell_log"] = "exponent of 2",
  ["tc.police.tbf.rate.overhead"] = "bytes",
  ["tc.police.tbf.rate.mpu"] = "bytes",
  ["tc.police.tbf.rate.rate"] = "bytes a second",
  ["tc.police.tbf.peakrate.cell_log"] = "exponent of 2",
  ["tc.police.tbf.peakrate.overhead"] = "bytes",
  ["tc.police.tbf.peakrate.mpu"] = "bytes",
  ["tc.police.tbf.peakrate.rate"] = "bytes a second",
  ["tc.police.tbf"] = "TCA_POLICE_TBF",
  ["tc.police.rate"] = "TCA_POLICE_RATE, rate table: 256 times u32, ticks",
  ["tc.police.peakrate"] = "TCA_POLICE_PEAKRATE, rate table: 256 times u32, ticks",
  ["tc.police.avrate"] = "TCA_POLICE_AVRATE, bytes a second",
  ["tc.police.result"] = "TCA_POLICE_RESULT",
  ["tc.police.tm.install"] = "hundredths of a second, how long ago",
  ["tc.police.tm.lastuse"] = "hundredths of a second, how long ago",
  ["tc.police.tm.expires"] = "hundredths of a second",
  ["tc.police.tm.firstuse"] = "hundredths of a second, how long ago",
  ["tc.police.tm"] = "TCA_POLICE_TM",
  ["tc.police.pad"] = "TCA_POLICE_PAD",
  ["tc.police.rate64"] = "TCA_POLICE_RATE64, bytes a second",
  ["tc.police.peakrate64"] = "TCA_POLICE_PEAKRATE64, bytes a second",
  ["tc.police.pktrate64"] = "TCA_POLICE_PKTRATE64, packets a second",
  ["tc.police.pktburst64"] = "TCA_POLICE_PKTBURST64, ticks of 64 ns, how long the burst takes at PKTRATE64",
  ["tc.sample.tm.install"] = "hundredths of a second, how long ago",
  ["tc.sample.tm.lastuse"] = "hundredths of a second, how long ago",
  ["tc.sample.tm.expires"] = "hundredths of a second",
  ["tc.sample.tm.firstuse"] = "hundredths of a second, how long ago",
  ["tc.sample.tm"] = "TCA_SAMPLE_TM",
  ["tc.sample.parms"] = "TCA_SAMPLE_PARMS",
  ["tc.sample.rate"] = "TCA_SAMPLE_RATE",
  ["tc.sample.trunc_size"] = "TCA_SAMPLE_TRUNC_SIZE, bytes",
  ["tc.sample.psample_group"] = "TCA_SAMPLE_PSAMPLE_GROUP",
  ["tc.sample.pad"] = "TCA_SAMPLE_PAD",
  ["tc.simple.tm.install"] = "hundredths of a second, how long ago",
  ["tc.simple.tm.lastuse"] = "hundredths of a second, how long ago",
  ["tc.simple.tm.expires"] = "hundredths of a second",
  ["tc.simple.tm.firstuse"] = "hundredths of a second, how long ago",
  ["tc.simple.tm"] = "TCA_DEF_TM",
  ["tc.simple.parms"] = "TCA_DEF_PARMS",
  ["tc.simple.data"] = "TCA_DEF_DATA",
  ["tc.simple.pad"] = "TCA_DEF_PAD",
  ["tc.skbedit.tm.install"] = "hundredths of a second, how long ago",
  ["tc.skbedit.tm.lastuse"] = "hundredths of a second, how long ago",
  ["tc.skbedit.tm.expires"] = "hundredths of a second",
  ["tc.skbedit.tm.firstuse"] = "hundredths of a second, how long ago",
  ["tc.skbedit.tm"] = "TCA_SKBEDIT_TM",
  ["tc.skbedit.parms"] = "TCA_SKBEDIT_PARMS",
  ["tc.skbedit.priority"] = "TCA_SKBEDIT_PRIORITY, a class, as a handle",
  ["tc.skbedit.queue_mapping"] = "TCA_SKBEDIT_QUEUE_MAPPING",
  ["tc.skbedit.mark"] = "TCA_SKBEDIT_MARK",
  ["tc.skbedit.pad"] = "TCA_SKBEDIT_PAD",
  ["tc.skbedit.ptype"] = "TCA_SKBEDIT_PTYPE",
  ["tc.skbedit.mask"] = "TCA_SKBEDIT_MASK",
  ["tc.skbedit.flags"] = "TCA_SKBEDIT_FLAGS",
  ["tc.skbedit.flags.priority"] = "SKBEDIT_F_PRIORITY",
  ["tc.skbedit.flags.queue_mapping"] = "SKBEDIT_F_QUEUE_MAPPING",
  ["tc.skbedit.flags.mark"] = "SKBEDIT_F_MARK",
  ["tc.skbedit.flags.ptype"] = "SKBEDIT_F_PTYPE",
  ["tc.skbedit.flags.mask"] = "SKBEDIT_F_MASK",
  ["tc.skbedit.flags.inheritdsfield"] = "SKBEDIT_F_INHERITDSFIELD",
  ["tc.skbedit.flags.txq_skbhash"] = "SKBEDIT_F_TXQ_SKBHASH",
  ["tc.skbedit.queue_mapping_max"] = "TCA_SKBEDIT_QUEUE_MAPPING_MAX",
  ["tc.skbmod.tm.install"] = "hundredths of a second, how long ago",
  ["tc.skbmod.tm.lastuse"] = "hundredths of a second, how long ago",
  ["tc.skbmod.tm.expires"] = "hundredths of a second",
  ["tc.skbmod.tm.firstuse"] = "hundredths of a second, how long ago",
  ["tc.skbmod.tm"] = "TCA_SKBMOD_TM",
  ["tc.skbmod.parms.flags.dmac"] = "SKBMOD_F_DMAC",
  ["tc.skbmod.parms.flags.smac"] = "SKBMOD_F_SMAC",
  ["tc.skbmod.parms.flags.etype"] = "SKBMOD_F_ETYPE",
  ["tc.skbmod.parms.flags.swapmac"] = "SKBMOD_F_SWAPMAC",
  ["tc.skbmod.parms.flags.ecn"] = "SKBMOD_F_ECN",
  ["tc.skbmod.parms"] = "TCA_SKBMOD_PARMS",
  ["tc.skbmod.dmac"] = "TCA_SKBMOD_DMAC",
  ["tc.skbmod.smac"] = "TCA_SKBMOD_SMAC",
  ["tc.skbmod.etype"] = "TCA_SKBMOD_ETYPE",
  ["tc.skbmod.pad"] = "TCA_SKBMOD_PAD",
  ["tc.tunnel_key.tm.install"] = "hundredths of a second, how long ago",
  ["tc.tunnel_key.tm.lastuse"] = "hundredths of a second, how long ago",
  ["tc.tunnel_key.tm.expires"] = "hundredths of a second",
  ["tc.tunnel_key.tm.firstuse"] = "hundredths of a second, how long ago",
  ["tc.tunnel_key.tm"] = "TCA_TUNNEL_KEY_TM",
  ["tc.tunnel_key.parms"] = "TCA_TUNNEL_KEY_PARMS",
  ["tc.tunnel_key.enc_ipv4_src"] = "TCA_TUNNEL_KEY_ENC_IPV4_SRC",
  ["tc.tunnel_key.enc_ipv4_dst"] = "TCA_TUNNEL_KEY_ENC_IPV4_DST",
  ["tc.tunnel_key.enc_ipv6_src"] = "TCA_TUNNEL_KEY_ENC_IPV6_SRC",
  ["tc.tunnel_key.enc_ipv6_dst"] = "TCA_TUNNEL_KEY_ENC_IPV6_DST",
  ["tc.tunnel_key.enc_key_id"] = "TCA_TUNNEL_KEY_ENC_KEY_ID",
  ["tc.tunnel_key.pad"] = "TCA_TUNNEL_KEY_PAD",
  ["tc.tunnel_key.enc_dst_port"] = "TCA_TUNNEL_KEY_ENC_DST_PORT",
  ["tc.tunnel_key.no_csum"] = "TCA_TUNNEL_KEY_NO_CSUM",
  ["tc.tunnel_key.enc_opts"] = "TCA_TUNNEL_KEY_ENC_OPTS",
  ["tc.tunnel_key.enc_tos"] = "TCA_TUNNEL_KEY_ENC_TOS",
  ["tc.tunnel_key.enc_ttl"] = "TCA_TUNNEL_KEY_ENC_TTL",
  ["tc.tunnel_key.no_frag"] = "TCA_TUNNEL_KEY_NO_FRAG",
  ["tc.tunnel_key_opts.geneve"] = "TCA_TUNNEL_KEY_ENC_OPTS_GENEVE",
  ["tc.tunnel_key_opts.vxlan"] = "TCA_TUNNEL_KEY_ENC_OPTS_VXLAN",
  ["tc.tunnel_key_opts.erspan"] = "TCA_TUNNEL_KEY_ENC_OPTS_ERSPAN",
  ["tc.tunnel_key_geneve.class"] = "TCA_TUNNEL_KEY_ENC_OPT_GENEVE_CLASS",
  ["tc.tunnel_key_geneve.type"] = "TCA_TUNNEL_KEY_ENC_OPT_GENEVE_TYPE",
  ["tc.tunnel_key_geneve.data"] = "TCA_TUNNEL_KEY_ENC_OPT_GENEVE_DATA",
  ["tc.tunnel_key_vxlan.gbp"] = "TCA_TUNNEL_KEY_ENC_OPT_VXLAN_GBP",
  ["tc.tunnel_key_erspan.ver"] = "TCA_TUNNEL_KEY_ENC_OPT_ERSPAN_VER",
  ["tc.tunnel_key_erspan.index"] = "TCA_TUNNEL_KEY_ENC_OPT_ERSPAN_INDEX",
  ["tc.tunnel_key_erspan.dir"] = "TCA_TUNNEL_KEY_ENC_OPT_ERSPAN_DIR",
  ["tc.tunnel_key_erspan.hwid"] = "TCA_TUNNEL_KEY_ENC_OPT_ERSPAN_HWID",
  ["tc.vlan.tm.install"] = "hundredths of a second, how long ago",
  ["tc.vlan.tm.lastuse"] = "hundredths of a second, how long ago",
  ["tc.vlan.tm.expires"] = "hundredths of a second",
  ["tc.vlan.tm.firstuse"] = "hundredths of a second, how long ago",
  ["tc.vlan.tm"] = "TCA_VLAN_TM",
  ["tc.vlan.parms"] = "TCA_VLAN_PARMS",
  ["tc.vlan.push_vlan_id"] = "TCA_VLAN_PUSH_VLAN_ID",
  ["tc.vlan.push_vlan_protocol"] = "TCA_VLAN_PUSH_VLAN_PROTOCOL",
  ["tc.vlan.pad"] = "TCA_VLAN_PAD",
  ["tc.vlan.push_vlan_priority"] = "TCA_VLAN_PUSH_VLAN_PRIORITY",
  ["tc.vlan.push_eth_dst"] = "TCA_VLAN_PUSH_ETH_DST",
  ["tc.vlan.push_eth_src"] = "TCA_VLAN_PUSH_ETH_SRC",
  ["tc.ematch_tree.hdr"] = "TCA_EMATCH_TREE_HDR",
  ["tc.ematch.container.flags.and"] = "TCF_EM_REL_AND",
  ["tc.ematch.container.flags.or"] = "TCF_EM_REL_OR",
  ["tc.ematch.container.flags.invert"] = "TCF_EM_INVERT",
  ["tc.ematch.container.flags.simple"] = "TCF_EM_SIMPLE",
  ["tc.ematch.container.first"] = "the number of the first match within",
  ["tc.ematch.cmp.flags.and"] = "TCF_EM_REL_AND",
  ["tc.ematch.cmp.flags.or"] = "TCF_EM_REL_OR",
  ["tc.ematch.cmp.flags.invert"] = "TCF_EM_INVERT",
  ["tc.ematch.cmp.flags.simple"] = "TCF_EM_SIMPLE",
  ["tc.ematch.cmp.match.off"] = "bytes",
  ["tc.ematch.cmp.match.align_flags"] = "bits 0 to 3: TCF_EM_ALIGN_*, bits 4 to 7: TCF_EM_CMP_TRANS",
  ["tc.ematch.cmp.match.layer_opnd"] = "bits 0 to 3: TCF_LAYER_*, bits 4 to 7: TCF_EM_OPND_*",
  ["tc.ematch.nbyte.flags.and"] = "TCF_EM_REL_AND",
  ["tc.ematch.nbyte.flags.or"] = "TCF_EM_REL_OR",
  ["tc.ematch.nbyte.flags.invert"] = "TCF_EM_INVERT",
  ["tc.ematch.nbyte.flags.simple"] = "TCF_EM_SIMPLE",
  ["tc.ematch.nbyte.match.off"] = "bytes",
  ["tc.ematch.nbyte.match.len_layer"] = "bits 0 to 11: length of the needle, bits 12 to 15: TCF_LAYER_*",
  ["tc.ematch.u32.flags.and"] = "TCF_EM_REL_AND",
  ["tc.ematch.u32.flags.or"] = "TCF_EM_REL_OR",
  ["tc.ematch.u32.flags.invert"] = "TCF_EM_INVERT",
  ["tc.ematch.u32.flags.simple"] = "TCF_EM_SIMPLE",
  ["tc.ematch.u32.match.off"] = "bytes",
  ["tc.ematch.meta.flags.and"] = "TCF_EM_REL_AND",
  ["tc.ematch.meta.flags.or"] = "TCF_EM_REL_OR",
  ["tc.ematch.meta.flags.invert"] = "TCF_EM_INVERT",
  ["tc.ematch.meta.flags.simple"] = "TCF_EM_SIMPLE",
  ["tc.ematch.text.flags.and"] = "TCF_EM_REL_AND",
  ["tc.ematch.text.flags.or"] = "TCF_EM_REL_OR",
  ["tc.ematch.text.flags.invert"] = "TCF_EM_INVERT",
  ["tc.ematch.text.flags.simple"] = "TCF_EM_SIMPLE",
  ["tc.ematch.text.match.algo"] = "a text, and NULs after it",
  ["tc.ematch.text.match.from_offset"] = "bytes",
  ["tc.ematch.text.match.to_offset"] = "bytes",
  ["tc.ematch.text.match.pattern_len"] = "bytes",
  ["tc.ematch.text.match.layers"] = "bits 0 to 3: from_layer, bits 4 to 7: to_layer",
  ["tc.ematch.canid.flags.and"] = "TCF_EM_REL_AND",
  ["tc.ematch.canid.flags.or"] = "TCF_EM_REL_OR",
  ["tc.ematch.canid.flags.invert"] = "TCF_EM_INVERT",
  ["tc.ematch.canid.flags.simple"] = "TCF_EM_SIMPLE",
  ["tc.ematch.ipset.flags.and"] = "TCF_EM_REL_AND",
  ["tc.ematch.ipset.flags.or"] = "TCF_EM_REL_OR",
  ["tc.ematch.ipset.flags.invert"] = "TCF_EM_INVERT",
  ["tc.ematch.ipset.flags.simple"] = "TCF_EM_SIMPLE",
  ["tc.ematch.ipt.flags.and"] = "TCF_EM_REL_AND",
  ["tc.ematch.ipt.flags.or"] = "TCF_EM_REL_OR",
  ["tc.ematch.ipt.flags.invert"] = "TCF_EM_INVERT",
  ["tc.ematch.ipt.flags.simple"] = "TCF_EM_SIMPLE",
  ["tc.ematch_tree.list"] = "TCA_EMATCH_TREE_LIST, the type of each is its number",
  ["tc.em_meta.hdr.left.kind"] = "bits 0 to 11: TCF_META_ID_*, bits 12 to 15: TCF_META_TYPE_*",
  ["tc.em_meta.hdr.right.kind"] = "bits 0 to 11: TCF_META_ID_*, bits 12 to 15: TCF_META_TYPE_*",
  ["tc.em_meta.hdr"] = "TCA_EM_META_HDR",
  ["tc.em_meta.lvalue"] = "TCA_EM_META_LVALUE, TCF_META_ID_DEV, RTIIF, SK_BOUND_IF, each a number",
  ["tc.em_meta.rvalue"] = "TCA_EM_META_RVALUE, as in Lvalue",
  ["tc.em_ipt.hook"] = "TCA_EM_IPT_HOOK",
  ["tc.em_ipt.match_name"] = "TCA_EM_IPT_MATCH_NAME",
  ["tc.em_ipt.match_revision"] = "TCA_EM_IPT_MATCH_REVISION",
  ["tc.em_ipt.nfproto"] = "TCA_EM_IPT_NFPROTO",
  ["tc.em_ipt.match_data"] = "TCA_EM_IPT_MATCH_DATA",
  ["tc.basic.class_id.number"] = "the same as a number",
  ["tc.basic.class_id"] = "TCA_BASIC_CLASSID",
  ["tc.basic.ematches"] = "TCA_BASIC_EMATCHES",
  ["tc.basic.action"] = "TCA_BASIC_ACT",
  ["tc.basic.police"] = "TCA_BASIC_POLICE",
  ["tc.basic.pcnt"] = "TCA_BASIC_PCNT",
  ["tc.basic.pad"] = "TCA_BASIC_PAD",
  ["tc.bpf.act"] = "TCA_BPF_ACT",
  ["tc.bpf.police"] = "TCA_BPF_POLICE",
  ["tc.bpf.class_id.number"] = "the same as a number",
  ["tc.bpf.class_id"] = "TCA_BPF_CLASSID",
  ["tc.bpf.ops_len"] = "TCA_BPF_OPS_LEN",
  ["tc.bpf.prog_fd"] = "TCA_BPF_FD",
  ["tc.bpf.prog_name"] = "TCA_BPF_NAME",
  ["tc.bpf.flags"] = "TCA_BPF_FLAGS",
  ["tc.bpf.flags.act_direct"] = "TCA_BPF_FLAG_ACT_DIRECT",
  ["tc.bpf.flags_generic"] = "TCA_BPF_FLAGS_GEN",
  ["tc.bpf.flags_generic.skip_hw"] = "TCA_CLS_FLAGS_SKIP_HW",
  ["tc.bpf.flags_generic.skip_sw"] = "TCA_CLS_FLAGS_SKIP_SW",
  ["tc.bpf.flags_generic.in_hw"] = "TCA_CLS_FLAGS_IN_HW",
  ["tc.bpf.flags_generic.not_in_hw"] = "TCA_CLS_FLAGS_NOT_IN_HW",
  ["tc.bpf.flags_generic.verbose"] = "TCA_CLS_FLAGS_VERBOSE",
  ["tc.bpf.prog_tag"] = "TCA_BPF_TAG",
  ["tc.bpf.prog_id"] = "TCA_BPF_ID",
  ["tc.cgroup.action"] = "TCA_CGROUP_ACT",
  ["tc.cgroup.police"] = "TCA_CGROUP_POLICE",
  ["tc.cgroup.ematches"] = "TCA_CGROUP_EMATCHES",
  ["tc.flow.keys"] = "TCA_FLOW_KEYS",
  ["tc.flow.keys.src"] = "FLOW_KEY_SRC",
  ["tc.flow.keys.dst"] = "FLOW_KEY_DST",
  ["tc.flow.keys.proto"] = "FLOW_KEY_PROTO",
  ["tc.flow.keys.proto_src"] = "FLOW_KEY_PROTO_SRC",
  ["tc.flow.keys.proto_dst"] = "FLOW_KEY_PROTO_DST",
  ["tc.flow.keys.iif"] = "FLOW_KEY_IIF",
  ["tc.flow.keys.priority"] = "FLOW_KEY_PRIORITY",
  ["tc.flow.keys.mark"] = "FLOW_KEY_MARK",
  ["tc.flow.keys.nfct"] = "FLOW_KEY_NFCT",
  ["tc.flow.keys.nfct_src"] = "FLOW_KEY_NFCT_SRC",
  ["tc.flow.keys.nfct_dst"] = "FLOW_KEY_NFCT_DST",
  ["tc.flow.keys.nfct_proto_src"] = "FLOW_KEY_NFCT_PROTO_SRC",
  ["tc.flow.keys.nfct_proto_dst"] = "FLOW_KEY_NFCT_PROTO_DST",
  ["tc.flow.keys.rtclassid"] = "FLOW_KEY_RTCLASSID",
  ["tc.flow.keys.skuid"] = "FLOW_KEY_SKUID",
  ["tc.flow.keys.skgid"] = "FLOW_KEY_SKGID",
  ["tc.flow.keys.vlan_tag"] = "FLOW_KEY_VLAN_TAG",
  ["tc.flow.keys.rxhash"] = "FLOW_KEY_RXHASH",
  ["tc.flow.mode"] = "TCA_FLOW_MODE",
  ["tc.flow.baseclass.number"] = "the same as a number",
  ["tc.flow.baseclass"] = "TCA_FLOW_BASECLASS",
  ["tc.flow.rshift"] = "TCA_FLOW_RSHIFT",
  ["tc.flow.addend"] = "TCA_FLOW_ADDEND",
  ["tc.flow.mask"] = "TCA_FLOW_MASK",
  ["tc.flow.xor"] = "TCA_FLOW_XOR",
  ["tc.flow.divisor"] = "TCA_FLOW_DIVISOR",
  ["tc.flow.action"] = "TCA_FLOW_ACT",
  ["tc.flow.police"] = "TCA_FLOW_POLICE",
  ["tc.flow.ematches"] = "TCA_FLOW_EMATCHES",
  ["tc.flow.perturb"] = "TCA_FLOW_PERTURB, s",
  ["tc.flower.class_id.number"] = "the same as a number",
  ["tc.flower.class_id"] = "TCA_FLOWER_CLASSID",
  ["tc.flower.in_dev"] = "TCA_FLOWER_INDEV",
  ["tc.flower.actions"] = "TCA_FLOWER_ACT",
  ["tc.flower.eth_dst"] = "TCA_FLOWER_KEY_ETH_DST",
  ["tc.flower.eth_dst_mask"] = "TCA_FLOWER_KEY_ETH_DST_MASK",
  ["tc.flower.eth_src"] = "TCA_FLOWER_KEY_ETH_SRC",
  ["tc.flower.eth_src_mask"] = "TCA_FLOWER_KEY_ETH_SRC_MASK",
  ["tc.flower.eth_type"] = "TCA_FLOWER_KEY_ETH_TYPE",
  ["tc.flower.ip_proto"] = "TCA_FLOWER_KEY_IP_PROTO",
  ["tc.flower.ipv4_src"] = "TCA_FLOWER_KEY_IPV4_SRC",
  ["tc.flower.ipv4_src_mask"] = "TCA_FLOWER_KEY_IPV4_SRC_MASK",
  ["tc.flower.ipv4_dst"] = "TCA_FLOWER_KEY_IPV4_DST",
  ["tc.flower.ipv4_dst_mask"] = "TCA_FLOWER_KEY_IPV4_DST_MASK",
  ["tc.flower.ipv6_src"] = "TCA_FLOWER_KEY_IPV6_SRC",
  ["tc.flower.ipv6_src_mask"] = "TCA_FLOWER_KEY_IPV6_SRC_MASK",
  ["tc.flower.ipv6_dst"] = "TCA_FLOWER_KEY_IPV6_DST",
  ["tc.flower.ipv6_dst_mask"] = "TCA_FLOWER_KEY_IPV6_DST_MASK",
  ["tc.flower.src_port"] = "in the words of tc: tcp_src, udp_src, sctp_src, port_src_min",
  ["tc.flower.tcp_src"] = "TCA_FLOWER_KEY_TCP_SRC",
  ["tc.flower.dst_port"] = "in the words of tc: tcp_dst, udp_dst, sctp_dst, port_dst_min",
  ["tc.flower.tcp_dst"] = "TCA_FLOWER_KEY_TCP_DST",
  ["tc.flower.udp_src"] = "TCA_FLOWER_KEY_UDP_SRC",
  ["tc.flower.udp_dst"] = "TCA_FLOWER_KEY_UDP_DST",
  ["tc.flower.flags"] = "TCA_FLOWER_FLAGS",
  ["tc.flower.flags.skip_hw"] = "TCA_CLS_FLAGS_SKIP_HW",
  ["tc.flower.flags.skip_sw"] = "TCA_CLS_FLAGS_SKIP_SW",
  ["tc.flower.flags.in_hw"] = "TCA_CLS_FLAGS_IN_HW",
  ["tc.flower.flags.not_in_hw"] = "TCA_CLS_FLAGS_NOT_IN_HW",
  ["tc.flower.flags.verbose"] = "TCA_CLS_FLAGS_VERBOSE",
  ["tc.flower.vlan_id"] = "TCA_FLOWER_KEY_VLAN_ID",
  ["tc.flower.vlan_prio"] = "TCA_FLOWER_KEY_VLAN_PRIO",
  ["tc.flower.vlan_eth_type"] = "TCA_FLOWER_KEY_VLAN_ETH_TYPE",
  ["tc.flower.enc_key_id"] = "TCA_FLOWER_KEY_ENC_KEY_ID",
  ["tc.flower.enc_key_ipv4_src"] = "TCA_FLOWER_KEY_ENC_IPV4_SRC",
  ["tc.flower.enc_key_ipv4_src_mask"] = "TCA_FLOWER_KEY_ENC_IPV4_SRC_MASK",
  ["tc.flower.enc_key_ipv4_dst"] = "TCA_FLOWER_KEY_ENC_IPV4_DST",
  ["tc.flower.enc_key_ipv4_dst_mask"] = "TCA_FLOWER_KEY_ENC_IPV4_DST_MASK",
  ["tc.flower.enc_key_ipv6_src"] = "TCA_FLOWER_KEY_ENC_IPV6_SRC",
  ["tc.flower.enc_key_ipv6_src_mask"] = "TCA_FLOWER_KEY_ENC_IPV6_SRC_MASK",
  ["tc.flower.enc_key_ipv6_dst"] = "TCA_FLOWER_KEY_ENC_IPV6_DST",
  ["tc.flower.enc_key_ipv6_dst_mask"] = "TCA_FLOWER_KEY_ENC_IPV6_DST_MASK",
  ["tc.flower.tcp_src_mask"] = "TCA_FLOWER_KEY_TCP_SRC_MASK",
  ["tc.flower.tcp_dst_mask"] = "TCA_FLOWER_KEY_TCP_DST_MASK",
  ["tc.flower.udp_src_mask"] = "TCA_FLOWER_KEY_UDP_SRC_MASK",
  ["tc.flower.udp_dst_mask"] = "TCA_FLOWER_KEY_UDP_DST_MASK",
  ["tc.flower.sctp_src_mask"] = "TCA_FLOWER_KEY_SCTP_SRC_MASK",
  ["tc.flower.sctp_dst_mask"] = "TCA_FLOWER_KEY_SCTP_DST_MASK",
  ["tc.flower.sctp_src"] = "TCA_FLOWER_KEY_SCTP_SRC",
  ["tc.flower.sctp_dst"] = "TCA_FLOWER_KEY_SCTP_DST",
  ["tc.flower.enc_key_udp_src_port"] = "TCA_FLOWER_KEY_ENC_UDP_SRC_PORT",
  ["tc.flower.enc_key_udp_src_port_mask"] = "TCA_FLOWER_KEY_ENC_UDP_SRC_PORT_MASK",
  ["tc.flower.enc_key_udp_dst_port"] = "TCA_FLOWER_KEY_ENC_UDP_DST_PORT",
  ["tc.flower.enc_key_udp_dst_port_mask"] = "TCA_FLOWER_KEY_ENC_UDP_DST_PORT_MASK",
  ["tc.flower.key_flags"] = "TCA_FLOWER_KEY_FLAGS",
  ["tc.flower.key_flags.is_fragment"] = "TCA_FLOWER_KEY_FLAGS_IS_FRAGMENT",
  ["tc.flower.key_flags.frag_is_first"] = "TCA_FLOWER_KEY_FLAGS_FRAG_IS_FIRST",
  ["tc.flower.key_flags.tunnel_csum"] = "TCA_FLOWER_KEY_FLAGS_TUNNEL_CSUM",
  ["tc.flower.key_flags.tunnel_dont_fragment"] = "TCA_FLOWER_KEY_FLAGS_TUNNEL_DONT_FRAGMENT",
  ["tc.flower.key_flags.tunnel_oam"] = "TCA_FLOWER_KEY_FLAGS_TUNNEL_OAM",
  ["tc.flower.key_flags.tunnel_crit_opt"] = "TCA_FLOWER_KEY_FLAGS_TUNNEL_CRIT_OPT",
  ["tc.flower.key_flags_mask"] = "TCA_FLOWER_KEY_FLAGS_MASK",
  ["tc.flower.key_flags_mask.is_fragment"] = "TCA_FLOWER_KEY_FLAGS_IS_FRAGMENT",
  ["tc.flower.key_flags_mask.frag_is_first"] = "TCA_FLOWER_KEY_FLAGS_FRAG_IS_FIRST",
  ["tc.flower.key_flags_mask.tunnel_csum"] = "TCA_FLOWER_KEY_FLAGS_TUNNEL_CSUM",
  ["tc.flower.key_flags_mask.tunnel_dont_fragment"] = "TCA_FLOWER_KEY_FLAGS_TUNNEL_DONT_FRAGMENT",
  ["tc.flower.key_flags_mask.tunnel_oam"] = "TCA_FLOWER_KEY_FLAGS_TUNNEL_OAM",
  ["tc.flower.key_flags_mask.tunnel_crit_opt"] = "TCA_FLOWER_KEY_FLAGS_TUNNEL_CRIT_OPT",
  ["tc.flower.icmp_code"] = "in the words of tc: icmpv4_code, icmpv6_code",
  ["tc.flower.icmpv4_code"] = "TCA_FLOWER_KEY_ICMPV4_CODE",
  ["tc.flower.icmpv4_code_mask"] = "TCA_FLOWER_KEY_ICMPV4_CODE_MASK",
  ["tc.flower.icmp_type"] = "in the words of tc: icmpv4_type, icmpv6_type",
  ["tc.flower.icmpv4_type"] = "TCA_FLOWER_KEY_ICMPV4_TYPE",
  ["tc.flower.icmpv4_type_mask"] = "TCA_FLOWER_KEY_ICMPV4_TYPE_MASK",
  ["tc.flower.icmpv6_code"] = "TCA_FLOWER_KEY_ICMPV6_CODE",
  ["tc.flower.icmpv6_code_mask"] = "TCA_FLOWER_KEY_ICMPV6_CODE_MASK",
  ["tc.flower.icmpv6_type"] = "TCA_FLOWER_KEY_ICMPV6_TYPE",
  ["tc.flower.icmpv6_type_mask"] = "TCA_FLOWER_KEY_ICMPV6_TYPE_MASK",
  ["tc.flower.arp_sip"] = "TCA_FLOWER_KEY_ARP_SIP",
  ["tc.flower.arp_sip_mask"] = "TCA_FLOWER_KEY_ARP_SIP_MASK",
  ["tc.flower.arp_tip"] = "TCA_FLOWER_KEY_ARP_TIP",
  ["tc.flower.arp_tip_mask"] = "TCA_FLOWER_KEY_ARP_TIP_MASK",
  ["tc.flower.arp_op"] = "TCA_FLOWER_KEY_ARP_OP",
  ["tc.flower.arp_op_mask"] = "TCA_FLOWER_KEY_ARP_OP_MASK",
  ["tc.flower.arp_sha"] = "TCA_FLOWER_KEY_ARP_SHA",
  ["tc.flower.arp_sha_mask"] = "TCA_FLOWER_KEY_ARP_SHA_MASK",
  ["tc.flower.arp_tha"] = "TCA_FLOWER_KEY_ARP_THA",
  ["tc.flower.arp_tha_mask"] = "TCA_FLOWER_KEY_ARP_THA_MASK",
  ["tc.flower.mpls_ttl"] = "TCA_FLOWER_KEY_MPLS_TTL",
  ["tc.flower.mpls_bos"] = "TCA_FLOWER_KEY_MPLS_BOS",
  ["tc.flower.mpls_tc"] = "TCA_FLOWER_KEY_MPLS_TC",
  ["tc.flower.mpls_label"] = "TCA_FLOWER_KEY_MPLS_LABEL",
  ["tc.flower.tcp_flags"] = "TCA_FLOWER_KEY_TCP_FLAGS",
  ["tc.flower.tcp_flags.fin"] = "TCPHDR_FIN",
  ["tc.flower.tcp_flags.syn"] = "TCPHDR_SYN",
  ["tc.flower.tcp_flags.rst"] = "TCPHDR_RST",
  ["tc.flower.tcp_flags.psh"] = "TCPHDR_PSH",
  ["tc.flower.tcp_flags.ack"] = "TCPHDR_ACK",
  ["tc.flower.tcp_flags.urg"] = "TCPHDR_URG",
  ["tc.flower.tcp_flags.ece"] = "TCPHDR_ECE",
  ["tc.flower.tcp_flags.cwr"] = "TCPHDR_CWR",
  ["tc.flower.tcp_flags_mask"] = "TCA_FLOWER_KEY_TCP_FLAGS_MASK",
  ["tc.flower.tcp_flags_mask.fin"] = "TCPHDR_FIN",
  ["tc.flower.tcp_flags_mask.syn"] = "TCPHDR_SYN",
  ["tc.flower.tcp_flags_mask.rst"] = "TCPHDR_RST",
  ["tc.flower.tcp_flags_mask.psh"] = "TCPHDR_PSH",
  ["tc.flower.tcp_flags_mask.ack"] = "TCPHDR_ACK",
  ["tc.flower.tcp_flags_mask.urg"] = "TCPHDR_URG",
  ["tc.flower.tcp_flags_mask.ece"] = "TCPHDR_ECE",
  ["tc.flower.tcp_flags_mask.cwr"] = "TCPHDR_CWR",
  ["tc.flower.ip_tos"] = "TCA_FLOWER_KEY_IP_TOS",
  ["tc.flower.ip_tos_mask"] = "TCA_FLOWER_KEY_IP_TOS_MASK",
  ["tc.flower.ip_ttl"] = "TCA_FLOWER_KEY_IP_TTL",
  ["tc.flower.ip_ttl_mask"] = "TCA_FLOWER_KEY_IP_TTL_MASK",
  ["tc.flower.cvlan_id"] = "TCA_FLOWER_KEY_CVLAN_ID",
  ["tc.flower.cvlan_prio"] = "TCA_FLOWER_KEY_CVLAN_PRIO",
  ["tc.flower.cvlan_eth_type"] = "TCA_FLOWER_KEY_CVLAN_ETH_TYPE",
  ["tc.flower.enc_key_ip_tos"] = "TCA_FLOWER_KEY_ENC_IP_TOS",
  ["tc.flower.enc_key_ip_tos_mask"] = "TCA_FLOWER_KEY_ENC_IP_TOS_MASK",
  ["tc.flower.enc_key_ip_ttl"] = "TCA_FLOWER_KEY_ENC_IP_TTL",
  ["tc.flower.enc_key_ip_ttl_mask"] = "TCA_FLOWER_KEY_ENC_IP_TTL_MASK",
  ["tc.flower.enc_opts"] = "TCA_FLOWER_KEY_ENC_OPTS",
  ["tc.flower.enc_opts_mask"] = "TCA_FLOWER_KEY_ENC_OPTS_MASK",
  ["tc.flower.in_hw_count"] = "TCA_FLOWER_IN_HW_COUNT",
  ["tc.flower.port_src_min"] = "TCA_FLOWER_KEY_PORT_SRC_MIN",
  ["tc.flower.port_src_max"] = "TCA_FLOWER_KEY_PORT_SRC_MAX",
  ["tc.flower.port_dst_min"] = "TCA_FLOWER_KEY_PORT_DST_MIN",
  ["tc.flower.port_dst_max"] = "TCA_FLOWER_KEY_PORT_DST_MAX",
  ["tc.flower.ct_state"] = "TCA_FLOWER_KEY_CT_STATE",
  ["tc.flower.ct_state.new"] = "TCA_FLOWER_KEY_CT_FLAGS_NEW",
  ["tc.flower.ct_state.established"] = "TCA_FLOWER_KEY_CT_FLAGS_ESTABLISHED",
  ["tc.flower.ct_state.related"] = "TCA_FLOWER_KEY_CT_FLAGS_RELATED",
  ["tc.flower.ct_state.tracked"] = "TCA_FLOWER_KEY_CT_FLAGS_TRACKED",
  ["tc.flower.ct_state.invalid"] = "TCA_FLOWER_KEY_CT_FLAGS_INVALID",
  ["tc.flower.ct_state.reply"] = "TCA_FLOWER_KEY_CT_FLAGS_REPLY",
  ["tc.flower.ct_state_mask"] = "TCA_FLOWER_KEY_CT_STATE_MASK",
  ["tc.flower.ct_state_mask.new"] = "TCA_FLOWER_KEY_CT_FLAGS_NEW",
  ["tc.flower.ct_state_mask.established"] = "TCA_FLOWER_KEY_CT_FLAGS_ESTABLISHED",
  ["tc.flower.ct_state_mask.related"] = "TCA_FLOWER_KEY_CT_FLAGS_RELATED",
  ["tc.flower.ct_state_mask.tracked"] = "TCA_FLOWER_KEY_CT_FLAGS_TRACKED",
  ["tc.flower.ct_state_mask.invalid"] = "TCA_FLOWER_KEY_CT_FLAGS_INVALID",
  ["tc.flower.ct_state_mask.reply"] = "TCA_FLOWER_KEY_CT_FLAGS_REPLY",
  ["tc.flower.ct_zone"] = "TCA_FLOWER_KEY_CT_ZONE",
  ["tc.flower.ct_zone_mask"] = "TCA_FLOWER_KEY_CT_ZONE_MASK",
  ["tc.flower.ct_mark"] = "TCA_FLOWER_KEY_CT_MARK",
  ["tc.flower.ct_mark_mask"] = "TCA_FLOWER_KEY_CT_MARK_MASK",
  ["tc.flower.ct_labels"] = "TCA_FLOWER_KEY_CT_LABELS",
  ["tc.flower.ct_labels_mask"] = "TCA_FLOWER_KEY_CT_LABELS_MASK",
  ["tc.flower.mpls_opts"] = "TCA_FLOWER_KEY_MPLS_OPTS",
  ["tc.flower.key_hash"] = "TCA_FLOWER_KEY_HASH",
  ["tc.flower.key_hash_mask"] = "TCA_FLOWER_KEY_HASH_MASK",
  ["tc.flower.num_of_vlans"] = "TCA_FLOWER_KEY_NUM_OF_VLANS",
  ["tc.flower.pppoe_sid"] = "TCA_FLOWER_KEY_PPPOE_SID",
  ["tc.flower.ppp_proto"] = "TCA_FLOWER_KEY_PPP_PROTO",
  ["tc.flower.l2tpv3_sid"] = "TCA_FLOWER_KEY_L2TPV3_SID",
  ["tc.flower.l2_miss"] = "TCA_FLOWER_L2_MISS",
  ["tc.flower.cfm"] = "TCA_FLOWER_KEY_CFM",
  ["tc.flower.spi"] = "TCA_FLOWER_KEY_SPI",
  ["tc.flower.spi_mask"] = "TCA_FLOWER_KEY_SPI_MASK",
  ["tc.flower.enc_flags"] = "TCA_FLOWER_KEY_ENC_FLAGS",
  ["tc.flower.enc_flags.is_fragment"] = "TCA_FLOWER_KEY_FLAGS_IS_FRAGMENT",
  ["tc.flower.enc_flags.frag_is_first"] = "TCA_FLOWER_KEY_FLAGS_FRAG_IS_FIRST",
  ["tc.flower.enc_flags.tunnel_csum"] = "TCA_FLOWER_KEY_FLAGS_TUNNEL_CSUM",
  ["tc.flower.enc_flags.tunnel_dont_fragment"] = "TCA_FLOWER_KEY_FLAGS_TUNNEL_DONT_FRAGMENT",
  ["tc.flower.enc_flags.tunnel_oam"] = "TCA_FLOWER_KEY_FLAGS_TUNNEL_OAM",
  ["tc.flower.enc_flags.tunnel_crit_opt"] = "TCA_FLOWER_KEY_FLAGS_TUNNEL_CRIT_OPT",
  ["tc.flower.enc_flags_mask"] = "TCA_FLOWER_KEY_ENC_FLAGS_MASK",
  ["tc.flower.enc_flags_mask.is_fragment"] = "TCA_FLOWER_KEY_FLAGS_IS_FRAGMENT",
  ["tc.flower.enc_flags_mask.frag_is_first"] = "TCA_FLOWER_KEY_FLAGS_FRAG_IS_FIRST",
  ["tc.flower.enc_flags_mask.tunnel_csum"] = "TCA_FLOWER_KEY_FLAGS_TUNNEL_CSUM",
  ["tc.flower.enc_flags_mask.tunnel_dont_fragment"] = "TCA_FLOWER_KEY_FLAGS_TUNNEL_DONT_FRAGMENT",
  ["tc.flower.enc_flags_mask.tunnel_oam"] = "TCA_FLOWER_KEY_FLAGS_TUNNEL_OAM",
  ["tc.flower.enc_flags_mask.tunnel_crit_opt"] = "TCA_FLOWER_KEY_FLAGS_TUNNEL_CRIT_OPT",
  ["tc.enc_opts.geneve"] = "TCA_FLOWER_KEY_ENC_OPTS_GENEVE",
  ["tc.enc_opts.vxlan"] = "TCA_FLOWER_KEY_ENC_OPTS_VXLAN",
  ["tc.enc_opts.erspan"] = "TCA_FLOWER_KEY_ENC_OPTS_ERSPAN",
  ["tc.enc_opts.gtp"] = "TCA_FLOWER_KEY_ENC_OPTS_GTP",
  ["tc.enc_opts.pfcp"] = "TCA_FLOWER_KEY_ENC_OPTS_PFCP",
  ["tc.enc_opt_geneve.class"] = "TCA_FLOWER_KEY_ENC_OPT_GENEVE_CLASS",
  ["tc.enc_opt_geneve.type"] = "TCA_FLOWER_KEY_ENC_OPT_GENEVE_TYPE",
  ["tc.enc_opt_geneve.data"] = "TCA_FLOWER_KEY_ENC_OPT_GENEVE_DATA",
  ["tc.enc_opt_vxlan.gbp"] = "TCA_FLOWER_KEY_ENC_OPT_VXLAN_GBP",
  ["tc.enc_opt_erspan.ver"] = "TCA_FLOWER_KEY_ENC_OPT_ERSPAN_VER",
  ["tc.enc_opt_erspan.index"] = "TCA_FLOWER_KEY_ENC_OPT_ERSPAN_INDEX",
  ["tc.enc_opt_erspan.dir"] = "TCA_FLOWER_KEY_ENC_OPT_ERSPAN_DIR",
  ["tc.enc_opt_erspan.hwid"] = "TCA_FLOWER_KEY_ENC_OPT_ERSPAN_HWID",
  ["tc.enc_opt_gtp.pdu_type"] = "TCA_FLOWER_KEY_ENC_OPT_GTP_PDU_TYPE",
  ["tc.enc_opt_gtp.qfi"] = "TCA_FLOWER_KEY_ENC_OPT_GTP_QFI",
  ["tc.enc_opt_pfcp.type"] = "TCA_FLOWER_KEY_ENC_OPT_PFCP_TYPE",
  ["tc.enc_opt_pfcp.seid"] = "TCA_FLOWER_KEY_ENC_OPT_PFCP_SEID",
  ["tc.cfm.md_level"] = "TCA_FLOWER_KEY_CFM_MD_LEVEL",
  ["tc.cfm.opcode"] = "TCA_FLOWER_KEY_CFM_OPCODE",
  ["tc.mpls_opts.lse"] = "TCA_FLOWER_KEY_MPLS_OPTS_LSE",
  ["tc.mpls_lse.lse_depth"] = "TCA_FLOWER_KEY_MPLS_OPT_LSE_DEPTH",
  ["tc.mpls_lse.lse_ttl"] = "TCA_FLOWER_KEY_MPLS_OPT_LSE_TTL",
  ["tc.mpls_lse.lse_bos"] = "TCA_FLOWER_KEY_MPLS_OPT_LSE_BOS",
  ["tc.mpls_lse.lse_tc"] = "TCA_FLOWER_KEY_MPLS_OPT_LSE_TC",
  ["tc.mpls_lse.lse_label"] = "TCA_FLOWER_KEY_MPLS_OPT_LSE_LABEL",
  ["tc.fw.class_id.number"] = "the same as a number",
  ["tc.fw.class_id"] = "TCA_FW_CLASSID",
  ["tc.fw.police"] = "TCA_FW_POLICE",
  ["tc.fw.in_dev"] = "TCA_FW_INDEV",
  ["tc.fw.action"] = "TCA_FW_ACT",
  ["tc.fw.mask"] = "TCA_FW_MASK",
  ["tc.matchall.class_id.number"] = "the same as a number",
  ["tc.matchall.class_id"] = "TCA_MATCHALL_CLASSID",
  ["tc.matchall.action"] = "TCA_MATCHALL_ACT",
  ["tc.matchall.flags"] = "TCA_MATCHALL_FLAGS",
  ["tc.matchall.flags.skip_hw"] = "TCA_CLS_FLAGS_SKIP_HW",
  ["tc.matchall.flags.skip_sw"] = "TCA_CLS_FLAGS_SKIP_SW",
  ["tc.matchall.flags.in_hw"] = "TCA_CLS_FLAGS_IN_HW",
  ["tc.matchall.flags.not_in_hw"] = "TCA_CLS_FLAGS_NOT_IN_HW",
  ["tc.matchall.flags.verbose"] = "TCA_CLS_FLAGS_VERBOSE",
  ["tc.matchall.pnct.rhit"] = "packets",
  ["tc.matchall.pnct"] = "TCA_MATCHALL_PCNT",
  ["tc.matchall.pad"] = "TCA_MATCHALL_PAD",
  ["tc.route.class_id.number"] = "the same as a number",
  ["tc.route.class_id"] = "TCA_ROUTE4_CLASSID",
  ["tc.route.to"] = "TCA_ROUTE4_TO",
  ["tc.route.from"] = "TCA_ROUTE4_FROM",
  ["tc.route.iif"] = "TCA_ROUTE4_IIF, interface",
  ["tc.route.police"] = "TCA_ROUTE4_POLICE",
  ["tc.route.action"] = "TCA_ROUTE4_ACT",
  ["tc.rsvp.class_id.number"] = "the same as a number",
  ["tc.rsvp.class_id"] = "TCA_RSVP_CLASSID",
  ["tc.rsvp.dst"] = "TCA_RSVP_DST",
  ["tc.rsvp.src"] = "TCA_RSVP_SRC",
  ["tc.rsvp.pinfo"] = "TCA_RSVP_PINFO",
  ["tc.rsvp.police"] = "TCA_RSVP_POLICE",
  ["tc.rsvp.action"] = "TCA_RSVP_ACT",
  ["tc.rsvp6.class_id.number"] = "the same as a number",
  ["tc.rsvp6.class_id"] = "TCA_RSVP_CLASSID",
  ["tc.rsvp6.dst"] = "TCA_RSVP_DST",
  ["tc.rsvp6.src"] = "TCA_RSVP_SRC",
  ["tc.rsvp6.pinfo"] = "TCA_RSVP_PINFO",
  ["tc.rsvp6.police"] = "TCA_RSVP_POLICE",
  ["tc.rsvp6.action"] = "TCA_RSVP_ACT",
  ["tc.tcindex.hash"] = "TCA_TCINDEX_HASH",
  ["tc.tcindex.mask"] = "TCA_TCINDEX_MASK",
  ["tc.tcindex.shift"] = "TCA_TCINDEX_SHIFT",
  ["tc.tcindex.fall_through"] = "TCA_TCINDEX_FALL_THROUGH",
  ["tc.tcindex.class_id.number"] = "the same as a number",
  ["tc.tcindex.class_id"] = "TCA_TCINDEX_CLASSID",
  ["tc.tcindex.police"] = "TCA_TCINDEX_POLICE",
  ["tc.tcindex.action"] = "TCA_TCINDEX_ACT",
  ["tc.u32.class_id.number"] = "the same as a number",
  ["tc.u32.class_id"] = "TCA_U32_CLASSID",
  ["tc.u32.hash"] = "TCA_U32_HASH",
  ["tc.u32.link"] = "TCA_U32_LINK",
  ["tc.u32.divisor"] = "TCA_U32_DIVISOR",
  ["tc.u32.selector.flags.terminal"] = "TC_U32_TERMINAL",
  ["tc.u32.selector.flags.offset"] = "TC_U32_OFFSET",
  ["tc.u32.selector.flags.var_offset"] = "TC_U32_VAROFFSET",
  ["tc.u32.selector.flags.eat"] = "TC_U32_EAT",
  ["tc.u32.selector.nkeys"] = "how many keys follow",
  ["tc.u32.selector.off"] = "bytes",
  ["tc.u32.selector.offoff"] = "bytes",
  ["tc.u32.selector.hoff"] = "bytes",
  ["tc.u32.selector.keys.off"] = "bytes",
  ["tc.u32.selector"] = "TCA_U32_SEL",
  ["tc.u32.police"] = "TCA_U32_POLICE",
  ["tc.u32.action"] = "TCA_U32_ACT",
  ["tc.u32.indev"] = "TCA_U32_INDEV",
  ["tc.u32.pnct.rcnt"] = "packets",
  ["tc.u32.pnct.rhit"] = "packets",
  ["tc.u32.pnct.kcnts"] = "packets",
  ["tc.u32.pnct"] = "TCA_U32_PCNT",
  ["tc.u32.mark"] = "TCA_U32_MARK",
  ["tc.u32.flags"] = "TCA_U32_FLAGS",
  ["tc.u32.flags.skip_hw"] = "TCA_CLS_FLAGS_SKIP_HW",
  ["tc.u32.flags.skip_sw"] = "TCA_CLS_FLAGS_SKIP_SW",
  ["tc.u32.flags.in_hw"] = "TCA_CLS_FLAGS_IN_HW",
  ["tc.u32.flags.not_in_hw"] = "TCA_CLS_FLAGS_NOT_IN_HW",
  ["tc.u32.flags.verbose"] = "TCA_CLS_FLAGS_VERBOSE",
  ["tc.u32.pad"] = "TCA_U32_PAD",
  ["tc.kind"] = "TCA_KIND",
  ["tc.options"] = "TCA_OPTIONS",
  ["tc.options_raw"] = "TCA_OPTIONS",
  ["tc.stats.bytes"] = "bytes",
  ["tc.stats.packets"] = "packets",
  ["tc.stats.drops"] = "packets",
  ["tc.stats.bps"] = "bytes a second",
  ["tc.stats.pps"] = "packets a second",
  ["tc.stats.qlen"] = "packets",
  ["tc.stats.backlog"] = "bytes",
  ["tc.stats"] = "TCA_STATS",
  ["tc.xstats"] = "TCA_XSTATS",
  ["tc.rate.interval"] = "exponent of 2, 250 ms at -2",
  ["tc.rate.ewma_log"] = "exponent of 2",
  ["tc.rate"] = "TCA_RATE",
  ["tc.fcnt"] = "TCA_FCNT",
  ["tc.stats2"] = "TCA_STATS2",
  ["tc.stab"] = "TCA_STAB",
  ["tc.pad"] = "TCA_PAD",
  ["tc.dump_invisible"] = "TCA_DUMP_INVISIBLE",
  ["tc.chain"] = "TCA_CHAIN",
  ["tc.hw_offload"] = "TCA_HW_OFFLOAD",
  ["tc.ingress_block"] = "TCA_INGRESS_BLOCK",
  ["tc.egress_block"] = "TCA_EGRESS_BLOCK",
  ["tc.dump_flags.value.terse"] = "TCA_DUMP_FLAGS_TERSE",
  ["tc.dump_flags.selector.terse"] = "TCA_DUMP_FLAGS_TERSE",
  ["tc.dump_flags"] = "TCA_DUMP_FLAGS",
  ["tc.ext_warn_msg"] = "TCA_EXT_WARN_MSG",
  ["tc.actions"] = "TCA_ROOT_TAB",
  ["tc.flags.flags.large_dump_on"] = "TCA_ACT_FLAG_LARGE_DUMP_ON",
  ["tc.flags.flags.terse_dump"] = "TCA_ACT_FLAG_TERSE_DUMP",
  ["tc.flags.selector.large_dump_on"] = "TCA_ACT_FLAG_LARGE_DUMP_ON",
  ["tc.flags.selector.terse_dump"] = "TCA_ACT_FLAG_TERSE_DUMP",
  ["tc.flags"] = "TCA_ROOT_FLAGS",
  ["tc.root_count"] = "TCA_ROOT_COUNT",
  ["tc.root_time_delta"] = "TCA_ROOT_TIME_DELTA, ms",
  ["tc.root_ext_warn_msg"] = "TCA_ROOT_EXT_WARN_MSG",
  ["tc.atm.fd"] = "TCA_ATM_FD",
  ["tc.atm.ptr"] = "TCA_ATM_PTR",
  ["tc.atm.excess"] = "TCA_ATM_EXCESS",
  ["tc.atm.addr"] = "TCA_ATM_ADDR",
  ["tc.atm.state"] = "TCA_ATM_STATE",
  ["tc.cake.pad"] = "TCA_CAKE_PAD",
  ["tc.cake.base_rate64"] = "TCA_CAKE_BASE_RATE64, bytes a second",
  ["tc.cake.diffserv_mode"] = "TCA_CAKE_DIFFSERV_MODE",
  ["tc.cake.atm"] = "TCA_CAKE_ATM",
  ["tc.cake.flow_mode"] = "TCA_CAKE_FLOW_MODE",
  ["tc.cake.overhead"] = "TCA_CAKE_OVERHEAD, bytes",
  ["tc.cake.rtt"] = "TCA_CAKE_RTT, us",
  ["tc.cake.target"] = "TCA_CAKE_TARGET, us",
  ["tc.cake.autorate"] = "TCA_CAKE_AUTORATE",
  ["tc.cake.memory"] = "TCA_CAKE_MEMORY, bytes",
  ["tc.cake.nat"] = "TCA_CAKE_NAT",
  ["tc.cake.raw"] = "TCA_CAKE_RAW",
  ["tc.cake.wash"] = "TCA_CAKE_WASH",
  ["tc.cake.mpu"] = "TCA_CAKE_MPU, bytes",
  ["tc.cake.ingress"] = "TCA_CAKE_INGRESS",
  ["tc.cake.ack_filter"] = "TCA_CAKE_ACK_FILTER",
  ["tc.cake.split_gso"] = "TCA_CAKE_SPLIT_GSO",
  ["tc.cake.fwmark"] = "TCA_CAKE_FWMARK",
  ["tc.cake_stats.pad"] = "TCA_CAKE_STATS_PAD",
  ["tc.cake_stats.capacity_estimate64"] = "TCA_CAKE_STATS_CAPACITY_ESTIMATE64, bytes a second",
  ["tc.cake_stats.memory_limit"] = "TCA_CAKE_STATS_MEMORY_LIMIT, bytes",
  ["tc.cake_stats.memory_used"] = "TCA_CAKE_STATS_MEMORY_USED, bytes",
  ["tc.cake_stats.avg_netoff"] = "TCA_CAKE_STATS_AVG_NETOFF, bytes",
  ["tc.cake_stats.min_netlen"] = "TCA_CAKE_STATS_MIN_NETLEN, bytes",
  ["tc.cake_stats.max_netlen"] = "TCA_CAKE_STATS_MAX_NETLEN, bytes",
  ["tc.cake_stats.min_adjlen"] = "TCA_CAKE_STATS_MIN_ADJLEN, bytes",
  ["tc.cake_stats.max_adjlen"] = "TCA_CAKE_STATS_MAX_ADJLEN, bytes",
  ["tc.cake_stats.tin_stats"] = "TCA_CAKE_STATS_TIN_STATS",
  ["tc.cake_stats.deficit"] = "TCA_CAKE_STATS_DEFICIT",
  ["tc.cake_stats.cobalt_count"] = "TCA_CAKE_STATS_COBALT_COUNT",
  ["tc.cake_stats.dropping"] = "TCA_CAKE_STATS_DROPPING",
  ["tc.cake_stats.drop_next_us"] = "TCA_CAKE_STATS_DROP_NEXT_US, us",
  ["tc.cake_stats.pdrop"] = "TCA_CAKE_STATS_P_DROP",
  ["tc.cake_stats.blue_timer_us"] = "TCA_CAKE_STATS_BLUE_TIMER_US, us",
  ["tc.cake_stats.active_queues"] = "TCA_CAKE_STATS_ACTIVE_QUEUES",
  ["tc.cake_tin_stats.pad"] = "TCA_CAKE_TIN_STATS_PAD",
  ["tc.cake_tin_stats.sent_packets"] = "TCA_CAKE_TIN_STATS_SENT_PACKETS, packets",
  ["tc.cake_tin_stats.sent_bytes64"] = "TCA_CAKE_TIN_STATS_SENT_BYTES64, bytes",
  ["tc.cake_tin_stats.dropped_packets"] = "TCA_CAKE_TIN_STATS_DROPPED_PACKETS, packets",
  ["tc.cake_tin_stats.dropped_bytes64"] = "TCA_CAKE_TIN_STATS_DROPPED_BYTES64, bytes",
  ["tc.cake_tin_stats.acks_dropped_packets"] = "TCA_CAKE_TIN_STATS_ACKS_DROPPED_PACKETS, packets",
  ["tc.cake_tin_stats.acks_dropped_bytes64"] = "TCA_CAKE_TIN_STATS_ACKS_DROPPED_BYTES64, bytes",
  ["tc.cake_tin_stats.ecn_marked_packets"] = "TCA_CAKE_TIN_STATS_ECN_MARKED_PACKETS, packets",
  ["tc.cake_tin_stats.ecn_marked_bytes64"] = "TCA_CAKE_TIN_STATS_ECN_MARKED_BYTES64, bytes",
  ["tc.cake_tin_stats.backlog_packets"] = "TCA_CAKE_TIN_STATS_BACKLOG_PACKETS, packets",
  ["tc.cake_tin_stats.backlog_bytes"] = "TCA_CAKE_TIN_STATS_BACKLOG_BYTES, bytes",
  ["tc.cake_tin_stats.threshold_rate64"] = "TCA_CAKE_TIN_STATS_THRESHOLD_RATE64, bytes a second",
  ["tc.cake_tin_stats.target_us"] = "TCA_CAKE_TIN_STATS_TARGET_US, us",
  ["tc.cake_tin_stats.interval_us"] = "TCA_CAKE_TIN_STATS_INTERVAL_US, us",
  ["tc.cake_tin_stats.way_indirect_hits"] = "TCA_CAKE_TIN_STATS_WAY_INDIRECT_HITS",
  ["tc.cake_tin_stats.way_misses"] = "TCA_CAKE_TIN_STATS_WAY_MISSES",
  ["tc.cake_tin_stats.way_collisions"] = "TCA_CAKE_TIN_STATS_WAY_COLLISIONS",
  ["tc.cake_tin_stats.peak_delay_us"] = "TCA_CAKE_TIN_STATS_PEAK_DELAY_US, us",
  ["tc.cake_tin_stats.avg_delay_us"] = "TCA_CAKE_TIN_STATS_AVG_DELAY_US, us",
  ["tc.cake_tin_stats.base_delay_us"] = "TCA_CAKE_TIN_STATS_BASE_DELAY_US, us",
  ["tc.cake_tin_stats.sparse_flows"] = "TCA_CAKE_TIN_STATS_SPARSE_FLOWS",
  ["tc.cake_tin_stats.bulk_flows"] = "TCA_CAKE_TIN_STATS_BULK_FLOWS",
  ["tc.cake_tin_stats.unresponsive_flows"] = "TCA_CAKE_TIN_STATS_UNRESPONSIVE_FLOWS",
  ["tc.cake_tin_stats.max_skblen"] = "TCA_CAKE_TIN_STATS_MAX_SKBLEN, bytes",
  ["tc.cake_tin_stats.flow_quantum"] = "TCA_CAKE_TIN_STATS_FLOW_QUANTUM, bytes",
  ["tc.cbq.lssopt.change.flags"] = "TCF_CBQ_LSS_FLAGS",
  ["tc.cbq.lssopt.change.ewma"] = "TCF_CBQ_LSS_EWMA",
  ["tc.cbq.lssopt.change.maxidle"] = "TCF_CBQ_LSS_MAXIDLE",
  ["tc.cbq.lssopt.change.minidle"] = "TCF_CBQ_LSS_MINIDLE",
  ["tc.cbq.lssopt.change.offtime"] = "TCF_CBQ_LSS_OFFTIME",
  ["tc.cbq.lssopt.change.avpkt"] = "TCF_CBQ_LSS_AVPKT",
  ["tc.cbq.lssopt.flags.bounded"] = "TCF_CBQ_LSS_BOUNDED",
  ["tc.cbq.lssopt.flags.isolated"] = "TCF_CBQ_LSS_ISOLATED",
  ["tc.cbq.lssopt"] = "TCA_CBQ_LSSOPT",
  ["tc.cbq.wrropt"] = "TCA_CBQ_WRROPT",
  ["tc.cbq.fopt"] = "TCA_CBQ_FOPT",
  ["tc.cbq.ovl_strategy"] = "TCA_CBQ_OVL_STRATEGY",
  ["tc.cbq.rate.cell_log"] = "exponent of 2",
  ["tc.cbq.rate.overhead"] = "bytes",
  ["tc.cbq.rate.mpu"] = "bytes",
  ["tc.cbq.rate.rate"] = "bytes a second",
  ["tc.cbq.rate"] = "TCA_CBQ_RATE",
  ["tc.cbq.rtab"] = "TCA_CBQ_RTAB",
  ["tc.cbq.police"] = "TCA_CBQ_POLICE",
  ["tc.cbs.parms.hicredit"] = "bytes",
  ["tc.cbs.parms.locredit"] = "bytes",
  ["tc.cbs.parms.idleslope"] = "1000 bits a second",
  ["tc.cbs.parms.sendslope"] = "1000 bits a second",
  ["tc.cbs.parms"] = "TCA_CBS_PARMS",
  ["tc.choke.parms.limit"] = "packets",
  ["tc.choke.parms.qth_min"] = "packets",
  ["tc.choke.parms.qth_max"] = "packets",
  ["tc.choke.parms.wlog"] = "exponent of 2",
  ["tc.choke.parms.plog"] = "exponent of 2",
  ["tc.choke.parms.scell_log"] = "exponent of 2",
  ["tc.choke.parms.flags.ecn"] = "TC_RED_ECN",
  ["tc.choke.parms.flags.harddrop"] = "TC_RED_HARDDROP",
  ["tc.choke.parms.flags.adaptative"] = "TC_RED_ADAPTATIVE",
  ["tc.choke.parms.flags.nodrop"] = "TC_RED_NODROP",
  ["tc.choke.parms"] = "TCA_CHOKE_PARMS",
  ["tc.choke.stab"] = "TCA_CHOKE_STAB",
  ["tc.choke.max_p"] = "TCA_CHOKE_MAX_P, 2^-32 each",
  ["tc.codel.target"] = "TCA_CODEL_TARGET, us",
  ["tc.codel.limit"] = "TCA_CODEL_LIMIT, packets",
  ["tc.codel.interval"] = "TCA_CODEL_INTERVAL, us",
  ["tc.codel.ecn"] = "TCA_CODEL_ECN",
  ["tc.codel.ce_threshold"] = "TCA_CODEL_CE_THRESHOLD, us",
  ["tc.drr.quantum"] = "TCA_DRR_QUANTUM, bytes",
  ["tc.dsmark.indices"] = "TCA_DSMARK_INDICES",
  ["tc.dsmark.default_index"] = "TCA_DSMARK_DEFAULT_INDEX",
  ["tc.dsmark.set_tc_index"] = "TCA_DSMARK_SET_TC_INDEX",
  ["tc.dsmark.mask"] = "TCA_DSMARK_MASK",
  ["tc.dsmark.value"] = "TCA_DSMARK_VALUE",
  ["tc.dualpi2.limit"] = "TCA_DUALPI2_LIMIT, packets",
  ["tc.dualpi2.memory_limit"] = "TCA_DUALPI2_MEMORY_LIMIT, bytes",
  ["tc.dualpi2.target"] = "TCA_DUALPI2_TARGET, us",
  ["tc.dualpi2.tupdate"] = "TCA_DUALPI2_TUPDATE, us",
  ["tc.dualpi2.alpha"] = "TCA_DUALPI2_ALPHA, Hz, times 256",
  ["tc.dualpi2.beta"] = "TCA_DUALPI2_BETA, Hz, times 256",
  ["tc.dualpi2.step_thresh"] = "in the words of tc: step_thresh_pkts, step_thresh_us",
  ["tc.dualpi2.step_thresh_pkts"] = "TCA_DUALPI2_STEP_THRESH_PKTS, packets",
  ["tc.dualpi2.step_thresh_us"] = "TCA_DUALPI2_STEP_THRESH_US, us",
  ["tc.dualpi2.min_qlen_step"] = "TCA_DUALPI2_MIN_QLEN_STEP, packets",
  ["tc.dualpi2.coupling"] = "TCA_DUALPI2_COUPLING",
  ["tc.dualpi2.drop_overload"] = "TCA_DUALPI2_DROP_OVERLOAD",
  ["tc.dualpi2.drop_early"] = "TCA_DUALPI2_DROP_EARLY",
  ["tc.dualpi2.cprotection"] = "TCA_DUALPI2_C_PROTECTION, percent",
  ["tc.dualpi2.ecn_mask"] = "TCA_DUALPI2_ECN_MASK",
  ["tc.dualpi2.split_gso"] = "TCA_DUALPI2_SPLIT_GSO",
  ["tc.dualpi2.pad"] = "TCA_DUALPI2_PAD",
  ["tc.etf.parms.delta"] = "ns",
  ["tc.etf.parms.flags.deadline_mode_on"] = "TC_ETF_DEADLINE_MODE_ON",
  ["tc.etf.parms.flags.offload_on"] = "TC_ETF_OFFLOAD_ON",
  ["tc.etf.parms.flags.skip_sock_check"] = "TC_ETF_SKIP_SOCK_CHECK",
  ["tc.etf.parms"] = "TCA_ETF_PARMS",
  ["tc.ets.nbands"] = "TCA_ETS_NBANDS",
  ["tc.ets.nstrict"] = "TCA_ETS_NSTRICT",
  ["tc.ets.quanta"] = "TCA_ETS_QUANTA",
  ["tc.ets.quanta_band"] = "TCA_ETS_QUANTA_BAND, bytes",
  ["tc.ets.priomap"] = "TCA_ETS_PRIOMAP",
  ["tc.ets.priomap_band"] = "TCA_ETS_PRIOMAP_BAND",
  ["tc.ets_quanta.quanta_band"] = "TCA_ETS_QUANTA_BAND, bytes",
  ["tc.ets_priomap.priomap_band"] = "TCA_ETS_PRIOMAP_BAND",
  ["tc.fq.plimit"] = "TCA_FQ_PLIMIT, packets",
  ["tc.fq.flow_plimit"] = "TCA_FQ_FLOW_PLIMIT, packets",
  ["tc.fq.quantum"] = "TCA_FQ_QUANTUM, bytes",
  ["tc.fq.initial_quantum"] = "TCA_FQ_INITIAL_QUANTUM, bytes",
  ["tc.fq.rate_enable"] = "TCA_FQ_RATE_ENABLE",
  ["tc.fq.flow_default_rate"] = "TCA_FQ_FLOW_DEFAULT_RATE, bytes a second",
  ["tc.fq.flow_max_rate"] = "TCA_FQ_FLOW_MAX_RATE, bytes a second",
  ["tc.fq.buckets_log"] = "TCA_FQ_BUCKETS_LOG, exponent of 2",
  ["tc.fq.flow_refill_delay"] = "TCA_FQ_FLOW_REFILL_DELAY, us",
  ["tc.fq.orphan_mask"] = "TCA_FQ_ORPHAN_MASK",
  ["tc.fq.low_rate_threshold"] = "TCA_FQ_LOW_RATE_THRESHOLD, bytes a second",
  ["tc.fq.ce_threshold"] = "TCA_FQ_CE_THRESHOLD, us",
  ["tc.fq.timer_slack"] = "TCA_FQ_TIMER_SLACK, ns",
  ["tc.fq.horizon"] = "TCA_FQ_HORIZON, us",
  ["tc.fq.horizon_drop"] = "TCA_FQ_HORIZON_DROP",
  ["tc.fq.priomap"] = "TCA_FQ_PRIOMAP",
  ["tc.fq.offload_horizon"] = "TCA_FQ_OFFLOAD_HORIZON, us",
  ["tc.fq_codel.target"] = "TCA_FQ_CODEL_TARGET, us",
  ["tc.fq_codel.limit"] = "TCA_FQ_CODEL_LIMIT, packets",
  ["tc.fq_codel.interval"] = "TCA_FQ_CODEL_INTERVAL, us",
  ["tc.fq_codel.ecn"] = "TCA_FQ_CODEL_ECN, 0 or 1",
  ["tc.fq_codel.flows"] = "TCA_FQ_CODEL_FLOWS",
  ["tc.fq_codel.quantum"] = "TCA_FQ_CODEL_QUANTUM, bytes",
  ["tc.fq_codel.ce_threshold"] = "TCA_FQ_CODEL_CE_THRESHOLD, us",
  ["tc.fq_codel.drop_batch_size"] = "TCA_FQ_CODEL_DROP_BATCH_SIZE, packets",
  ["tc.fq_codel.memory_limit"] = "TCA_FQ_CODEL_MEMORY_LIMIT, bytes",
  ["tc.fq_codel.ce_threshold_selector"] = "TCA_FQ_CODEL_CE_THRESHOLD_SELECTOR",
  ["tc.fq_codel.ce_threshold_mask"] = "TCA_FQ_CODEL_CE_THRESHOLD_MASK",
  ["tc.fq_pie.limit"] = "TCA_FQ_PIE_LIMIT, packets",
  ["tc.fq_pie.flows"] = "TCA_FQ_PIE_FLOWS",
  ["tc.fq_pie.target"] = "TCA_FQ_PIE_TARGET, us",
  ["tc.fq_pie.tupdate"] = "TCA_FQ_PIE_TUPDATE, us",
  ["tc.fq_pie.alpha"] = "TCA_FQ_PIE_ALPHA",
  ["tc.fq_pie.beta"] = "TCA_FQ_PIE_BETA",
  ["tc.fq_pie.quantum"] = "TCA_FQ_PIE_QUANTUM, bytes",
  ["tc.fq_pie.memory_limit"] = "TCA_FQ_PIE_MEMORY_LIMIT, bytes",
  ["tc.fq_pie.ecn_prob"] = "TCA_FQ_PIE_ECN_PROB, percent",
  ["tc.fq_pie.ecn"] = "TCA_FQ_PIE_ECN",
  ["tc.fq_pie.bytemode"] = "TCA_FQ_PIE_BYTEMODE",
  ["tc.fq_pie.dq_rate_estimator"] = "TCA_FQ_PIE_DQ_RATE_ESTIMATOR",
  ["tc.gred.parms.limit"] = "bytes",
  ["tc.gred.parms.qth_min"] = "bytes",
  ["tc.gred.parms.qth_max"] = "bytes",
  ["tc.gred.parms.backlog"] = "bytes",
  ["tc.gred.parms.qave"] = "bytes",
  ["tc.gred.parms.forced"] = "packets",
  ["tc.gred.parms.early"] = "packets",
  ["tc.gred.parms.other"] = "packets",
  ["tc.gred.parms.pdrop"] = "packets",
  ["tc.gred.parms.wlog"] = "exponent of 2",
  ["tc.gred.parms.plog"] = "exponent of 2",
  ["tc.gred.parms.scell_log"] = "exponent of 2",
  ["tc.gred.parms.packets"] = "packets",
  ["tc.gred.parms.bytesin"] = "bytes",
  ["tc.gred.stab"] = "TCA_GRED_STAB",
  ["tc.gred.dps.flags.ecn"] = "TC_RED_ECN",
  ["tc.gred.dps.flags.harddrop"] = "TC_RED_HARDDROP",
  ["tc.gred.dps.flags.adaptative"] = "TC_RED_ADAPTATIVE",
  ["tc.gred.dps.flags.nodrop"] = "TC_RED_NODROP",
  ["tc.gred.dps"] = "TCA_GRED_DPS",
  ["tc.gred.max_p"] = "2^-32 each",
  ["tc.gred.limit"] = "TCA_GRED_LIMIT, bytes",
  ["tc.gred.vq_list"] = "TCA_GRED_VQ_LIST",
  ["tc.gred_vq_list.entry"] = "TCA_GRED_VQ_ENTRY",
  ["tc.gred_vq.pad"] = "TCA_GRED_VQ_PAD",
  ["tc.gred_vq.dp"] = "TCA_GRED_VQ_DP",
  ["tc.gred_vq.stat_bytes"] = "TCA_GRED_VQ_STAT_BYTES, bytes",
  ["tc.gred_vq.stat_packets"] = "TCA_GRED_VQ_STAT_PACKETS, packets",
  ["tc.gred_vq.stat_backlog"] = "TCA_GRED_VQ_STAT_BACKLOG, bytes",
  ["tc.gred_vq.stat_prob_drop"] = "TCA_GRED_VQ_STAT_PROB_DROP, packets",
  ["tc.gred_vq.stat_prob_mark"] = "TCA_GRED_VQ_STAT_PROB_MARK, packets",
  ["tc.gred_vq.stat_forced_drop"] = "TCA_GRED_VQ_STAT_FORCED_DROP, packets",
  ["tc.gred_vq.stat_forced_mark"] = "TCA_GRED_VQ_STAT_FORCED_MARK, packets",
  ["tc.gred_vq.stat_pdrop"] = "TCA_GRED_VQ_STAT_PDROP, packets",
  ["tc.gred_vq.stat_other"] = "TCA_GRED_VQ_STAT_OTHER, packets",
  ["tc.gred_vq.flags"] = "TCA_GRED_VQ_FLAGS",
  ["tc.gred_vq.flags.ecn"] = "TC_RED_ECN",
  ["tc.gred_vq.flags.harddrop"] = "TC_RED_HARDDROP",
  ["tc.gred_vq.flags.adaptative"] = "TC_RED_ADAPTATIVE",
  ["tc.gred_vq.flags.nodrop"] = "TC_RED_NODROP",
  ["tc.hfsc.rsc.m1"] = "bytes a second",
  ["tc.hfsc.rsc.d"] = "us",
  ["tc.hfsc.rsc.m2"] = "bytes a second",
  ["tc.hfsc.rsc"] = "TCA_HFSC_RSC",
  ["tc.hfsc.fsc.m1"] = "bytes a second",
  ["tc.hfsc.fsc.d"] = "us",
  ["tc.hfsc.fsc.m2"] = "bytes a second",
  ["tc.hfsc.fsc"] = "TCA_HFSC_FSC",
  ["tc.hfsc.usc.m1"] = "bytes a second",
  ["tc.hfsc.usc.d"] = "us",
  ["tc.hfsc.usc.m2"] = "bytes a second",
  ["tc.hfsc.usc"] = "TCA_HFSC_USC",
  ["tc.hhf.backlog_limit"] = "TCA_HHF_BACKLOG_LIMIT, packets",
  ["tc.hhf.quantum"] = "TCA_HHF_QUANTUM, bytes",
  ["tc.hhf.hh_flows_limit"] = "TCA_HHF_HH_FLOWS_LIMIT",
  ["tc.hhf.reset_timeout"] = "TCA_HHF_RESET_TIMEOUT, us",
  ["tc.hhf.admit_bytes"] = "TCA_HHF_ADMIT_BYTES, bytes",
  ["tc.hhf.evict_timeout"] = "TCA_HHF_EVICT_TIMEOUT, us",
  ["tc.hhf.non_hh_weight"] = "TCA_HHF_NON_HH_WEIGHT",
  ["tc.htb.parms.rate.cell_log"] = "exponent of 2",
  ["tc.htb.parms.rate.overhead"] = "bytes",
  ["tc.htb.parms.rate.mpu"] = "bytes",
  ["tc.htb.parms.rate.rate"] = "bytes a second",
  ["tc.htb.parms.ceil.cell_log"] = "exponent of 2",
  ["tc.htb.parms.ceil.overhead"] = "bytes",
  ["tc.htb.parms.ceil.mpu"] = "bytes",
  ["tc.htb.parms.ceil.rate"] = "bytes a second",
  ["tc.htb.parms.buffer"] = "ticks of 64 ns",
  ["tc.htb.parms.cbuffer"] = "ticks of 64 ns",
  ["tc.htb.parms.quantum"] = "bytes",
  ["tc.htb.parms"] = "TCA_HTB_PARMS",
  ["tc.htb.init"] = "TCA_HTB_INIT",
  ["tc.htb.ctab"] = "TCA_HTB_CTAB, rate table: 256 times u32, ticks",
  ["tc.htb.rtab"] = "TCA_HTB_RTAB, rate table: 256 times u32, ticks",
  ["tc.htb.direct_qlen"] = "TCA_HTB_DIRECT_QLEN, packets",
  ["tc.htb.rate64"] = "TCA_HTB_RATE64, bytes a second",
  ["tc.htb.ceil64"] = "TCA_HTB_CEIL64, bytes a second",
  ["tc.htb.pad"] = "TCA_HTB_PAD",
  ["tc.htb.offload"] = "TCA_HTB_OFFLOAD",
  ["tc.mqprio.mode"] = "TCA_MQPRIO_MODE",
  ["tc.mqprio.shaper"] = "TCA_MQPRIO_SHAPER",
  ["tc.mqprio.min_rate64"] = "TCA_MQPRIO_MIN_RATE64",
  ["tc.mqprio.max_rate64"] = "TCA_MQPRIO_MAX_RATE64",
  ["tc.mqprio.tc_entry"] = "TCA_MQPRIO_TC_ENTRY",
  ["tc.mqprio_min_rate.min_rate64"] = "TCA_MQPRIO_MIN_RATE64, bytes a second",
  ["tc.mqprio_max_rate.max_rate64"] = "TCA_MQPRIO_MAX_RATE64, bytes a second",
  ["tc.mqprio_tc_entry.index"] = "TCA_MQPRIO_TC_ENTRY_INDEX",
  ["tc.mqprio_tc_entry.fp"] = "TCA_MQPRIO_TC_ENTRY_FP",
  ["tc.netem.corr.delay_corr"] = "2^-32 each",
  ["tc.netem.corr.loss_corr"] = "2^-32 each",
  ["tc.netem.corr.dup_corr"] = "2^-32 each",
  ["tc.netem.corr"] = "TCA_NETEM_CORR",
  ["tc.netem.reorder.probability"] = "2^-32 each",
  ["tc.netem.reorder.correlation"] = "2^-32 each",
  ["tc.netem.reorder"] = "TCA_NETEM_REORDER",
  ["tc.netem.corrupt.probability"] = "2^-32 each",
  ["tc.netem.corrupt.correlation"] = "2^-32 each",
  ["tc.netem.corrupt"] = "TCA_NETEM_CORRUPT",
  ["tc.netem.loss_model"] = "TCA_NETEM_LOSS",
  ["tc.netem.rate.rate"] = "bytes a second",
  ["tc.netem.rate.packet_overhead"] = "bytes",
  ["tc.netem.rate.cell_size"] = "bytes",
  ["tc.netem.rate.cell_overhead"] = "bytes",
  ["tc.netem.rate"] = "TCA_NETEM_RATE",
  ["tc.netem.ecn"] = "TCA_NETEM_ECN",
  ["tc.netem.rate64"] = "TCA_NETEM_RATE64, bytes a second",
  ["tc.netem.pad"] = "TCA_NETEM_PAD",
  ["tc.netem.latency64"] = "TCA_NETEM_LATENCY64, ns",
  ["tc.netem.jitter64"] = "TCA_NETEM_JITTER64, ns",
  ["tc.netem.slot.min_delay"] = "ns",
  ["tc.netem.slot.max_delay"] = "ns",
  ["tc.netem.slot.max_packets"] = "packets",
  ["tc.netem.slot.max_bytes"] = "bytes",
  ["tc.netem.slot.dist_delay"] = "ns",
  ["tc.netem.slot.dist_jitter"] = "ns",
  ["tc.netem.slot"] = "TCA_NETEM_SLOT",
  ["tc.netem.prng_seed"] = "TCA_NETEM_PRNG_SEED",
  ["tc.netem_loss.gi.p13"] = "2^-32 each",
  ["tc.netem_loss.gi.p31"] = "2^-32 each",
  ["tc.netem_loss.gi.p32"] = "2^-32 each",
  ["tc.netem_loss.gi.p14"] = "2^-32 each",
  ["tc.netem_loss.gi.p23"] = "2^-32 each",
  ["tc.netem_loss.gi"] = "NETEM_LOSS_GI",
  ["tc.netem_loss.ge.p"] = "2^-32 each",
  ["tc.netem_loss.ge.r"] = "2^-32 each",
  ["tc.netem_loss.ge.h"] = "2^-32 each",
  ["tc.netem_loss.ge.k1"] = "2^-32 each",
  ["tc.netem_loss.ge"] = "NETEM_LOSS_GE",
  ["tc.pie.target"] = "TCA_PIE_TARGET, us",
  ["tc.pie.limit"] = "TCA_PIE_LIMIT, packets",
  ["tc.pie.tupdate"] = "TCA_PIE_TUPDATE, us",
  ["tc.pie.alpha"] = "TCA_PIE_ALPHA",
  ["tc.pie.beta"] = "TCA_PIE_BETA",
  ["tc.pie.ecn"] = "TCA_PIE_ECN",
  ["tc.pie.bytemode"] = "TCA_PIE_BYTEMODE",
  ["tc.pie.dq_rate_estimator"] = "TCA_PIE_DQ_RATE_ESTIMATOR",
  ["tc.prio.options"] = "TCA_OPTIONS, always empty",
  ["tc.qfq.weight"] = "TCA_QFQ_WEIGHT",
  ["tc.qfq.lmax"] = "TCA_QFQ_LMAX, bytes",
  ["tc.red.parms.limit"] = "bytes",
  ["tc.red.parms.qth_min"] = "bytes",
  ["tc.red.parms.qth_max"] = "bytes",
  ["tc.red.parms.wlog"] = "exponent of 2",
  ["tc.red.parms.plog"] = "exponent of 2",
  ["tc.red.parms.scell_log"] = "exponent of 2",
  ["tc.red.parms.flags.ecn"] = "TC_RED_ECN",
  ["tc.red.parms.flags.harddrop"] = "TC_RED_HARDDROP",
  ["tc.red.parms.flags.adaptative"] = "TC_RED_ADAPTATIVE",
  ["tc.red.parms.flags.nodrop"] = "TC_RED_NODROP",
  ["tc.red.parms"] = "TCA_RED_PARMS",
  ["tc.red.stab"] = "TCA_RED_STAB, how far the average falls while idle: 256 times u8",
  ["tc.red.max_p"] = "TCA_RED_MAX_P, 2^-32 each",
  ["tc.red.flags.value.ecn"] = "TC_RED_ECN",
  ["tc.red.flags.value.harddrop"] = "TC_RED_HARDDROP",
  ["tc.red.flags.value.adaptative"] = "TC_RED_ADAPTATIVE",
  ["tc.red.flags.value.nodrop"] = "TC_RED_NODROP",
  ["tc.red.flags.selector.ecn"] = "TC_RED_ECN",
  ["tc.red.flags.selector.harddrop"] = "TC_RED_HARDDROP",
  ["tc.red.flags.selector.adaptative"] = "TC_RED_ADAPTATIVE",
  ["tc.red.flags.selector.nodrop"] = "TC_RED_NODROP",
  ["tc.red.flags"] = "TCA_RED_FLAGS",
  ["tc.red.early_drop_block"] = "TCA_RED_EARLY_DROP_BLOCK",
  ["tc.red.mark_block"] = "TCA_RED_MARK_BLOCK",
  ["tc.sfb.parms.rehash_interval"] = "ms",
  ["tc.sfb.parms.warmup_time"] = "ms",
  ["tc.sfb.parms.max"] = "packets",
  ["tc.sfb.parms.bin_size"] = "packets",
  ["tc.sfb.parms.increment"] = "2^-16 each, as the next",
  ["tc.sfb.parms.limit"] = "packets",
  ["tc.sfb.parms.penalty_rate"] = "packets a second",
  ["tc.sfb.parms.penalty_burst"] = "packets",
  ["tc.sfb.parms"] = "TCA_SFB_PARMS",
  ["tc.taprio.priomap"] = "TCA_TAPRIO_ATTR_PRIOMAP",
  ["tc.taprio.sched_entry_list"] = "TCA_TAPRIO_ATTR_SCHED_ENTRY_LIST",
  ["tc.taprio.sched_base_time"] = "TCA_TAPRIO_ATTR_SCHED_BASE_TIME, ns",
  ["tc.taprio.sched_single_entry"] = "TCA_TAPRIO_ATTR_SCHED_SINGLE_ENTRY",
  ["tc.taprio.sched_clockid"] = "TCA_TAPRIO_ATTR_SCHED_CLOCKID",
  ["tc.taprio.pad"] = "TCA_TAPRIO_PAD",
  ["tc.taprio.admin_sched"] = "TCA_TAPRIO_ATTR_ADMIN_SCHED",
  ["tc.taprio.sched_cycle_time"] = "TCA_TAPRIO_ATTR_SCHED_CYCLE_TIME, ns",
  ["tc.taprio.sched_cycle_time_extension"] = "TCA_TAPRIO_ATTR_SCHED_CYCLE_TIME_EXTENSION, ns",
  ["tc.taprio.flags"] = "TCA_TAPRIO_ATTR_FLAGS",
  ["tc.taprio.flags.txtime_assist"] = "TCA_TAPRIO_ATTR_FLAG_TXTIME_ASSIST",
  ["tc.taprio.flags.full_offload"] = "TCA_TAPRIO_ATTR_FLAG_FULL_OFFLOAD",
  ["tc.taprio.txtime_delay"] = "TCA_TAPRIO_ATTR_TXTIME_DELAY, ns",
  ["tc.taprio.tc_entry"] = "TCA_TAPRIO_ATTR_TC_ENTRY",
  ["tc.taprio_entry_list.entry"] = "TCA_TAPRIO_SCHED_ENTRY",
  ["tc.taprio_entry.index"] = "TCA_TAPRIO_SCHED_ENTRY_INDEX",
  ["tc.taprio_entry.cmd"] = "TCA_TAPRIO_SCHED_ENTRY_CMD",
  ["tc.taprio_entry.gate_mask"] = "TCA_TAPRIO_SCHED_ENTRY_GATE_MASK",
  ["tc.taprio_entry.interval"] = "TCA_TAPRIO_SCHED_ENTRY_INTERVAL, ns",
  ["tc.taprio_tc_entry.index"] = "TCA_TAPRIO_TC_ENTRY_INDEX",
  ["tc.taprio_tc_entry.max_sdu"] = "TCA_TAPRIO_TC_ENTRY_MAX_SDU, bytes",
  ["tc.taprio_tc_entry.fp"] = "TCA_TAPRIO_TC_ENTRY_FP",
  ["tc.taprio_stats.pad"] = "TCA_TAPRIO_OFFLOAD_STATS_PAD",
  ["tc.taprio_stats.window_drops"] = "TCA_TAPRIO_OFFLOAD_STATS_WINDOW_DROPS, packets",
  ["tc.taprio_stats.tx_overruns"] = "TCA_TAPRIO_OFFLOAD_STATS_TX_OVERRUNS, packets",
  ["tc.tbf.parms.rate.cell_log"] = "exponent of 2",
  ["tc.tbf.parms.rate.overhead"] = "bytes",
  ["tc.tbf.parms.rate.mpu"] = "bytes",
  ["tc.tbf.parms.rate.rate"] = "bytes a second",
  ["tc.tbf.parms.peakrate.cell_log"] = "exponent of 2",
  ["tc.tbf.parms.peakrate.overhead"] = "bytes",
  ["tc.tbf.parms.peakrate.mpu"] = "bytes",
  ["tc.tbf.parms.peakrate.rate"] = "bytes a second",
  ["tc.tbf.parms.limit"] = "bytes",
  ["tc.tbf.parms.buffer"] = "ticks of 64 ns",
  ["tc.tbf.parms.mtu"] = "ticks of 64 ns",
  ["tc.tbf.parms"] = "TCA_TBF_PARMS",
  ["tc.tbf.rtab"] = "TCA_TBF_RTAB, rate table: 256 times u32, ticks",
  ["tc.tbf.ptab"] = "TCA_TBF_PTAB, rate table: 256 times u32, ticks",
  ["tc.tbf.rate64"] = "TCA_TBF_RATE64, bytes a second",
  ["tc.tbf.prate64"] = "TCA_TBF_PRATE64, bytes a second",
  ["tc.tbf.burst"] = "TCA_TBF_BURST, bytes",
  ["tc.tbf.pburst"] = "TCA_TBF_PBURST, bytes",
  ["tc.tbf.pad"] = "TCA_TBF_PAD",
  ["tc.stab.base.cell_log"] = "exponent of 2",
  ["tc.stab.base.size_log"] = "exponent of 2",
  ["tc.stab.base.overhead"] = "bytes",
  ["tc.stab.base.mpu"] = "bytes",
  ["tc.stab.base.mtu"] = "bytes",
  ["tc.stab.base"] = "TCA_STAB_BASE",
  ["tc.stats.basic.bytes"] = "bytes",
  ["tc.stats.basic.packets"] = "packets",
  ["tc.stats.basic"] = "TCA_STATS_BASIC",
  ["tc.stats.rate_est.bps"] = "bytes a second",
  ["tc.stats.rate_est.pps"] = "packets a second",
  ["tc.stats.rate_est"] = "TCA_STATS_RATE_EST",
  ["tc.stats.queue.qlen"] = "packets",
  ["tc.stats.queue.backlog"] = "bytes",
  ["tc.stats.queue.drops"] = "packets",
  ["tc.stats.queue.requeues"] = "packets",
  ["tc.stats.queue"] = "TCA_STATS_QUEUE",
  ["tc.stats.app"] = "TCA_STATS_APP",
  ["tc.stats.rate_est64.bps"] = "bytes a second",
  ["tc.stats.rate_est64.pps"] = "packets a second",
  ["tc.stats.rate_est64"] = "TCA_STATS_RATE_EST64",
  ["tc.stats.pad"] = "TCA_STATS_PAD",
  ["tc.stats.basic_hw.bytes"] = "bytes",
  ["tc.stats.basic_hw.packets"] = "packets",
  ["tc.stats.basic_hw"] = "TCA_STATS_BASIC_HW",
  ["tc.stats.pkt64"] = "TCA_STATS_PKT64, packets",
  ["tc.msg.type"] = "nlmsg_type",
  ["tc.msg.flags"] = "nlmsg_flags",
  ["tc.msg.seq"] = "nlmsg_seq",
  ["tc.msg.port"] = "nlmsg_pid",
  ["tc.nla.len"] = "nla_len",
  ["tc.nla.type"] = "nla_type, with its flags",
  ["tc.nla.pad"] = "padding of an attribute, if it isn't zeros or is missing",
  ["tc.raw"] = "bytes that don't follow their form",
  ["tc.rest"] = "bytes after the last field of a record",
  ["tc.other"] = "the payload of an attribute that isn't in the tables, or bytes of no known form",
  ["tc.pref"] = "the priority of a filter or a chain, in tcm_info",
  ["tc.protocol"] = "the protocol of a filter or a chain, in tcm_info",
  ["tc.verb"] = "what the message does, in the words of tcshow: add, is, gone, refused",
  ["tc.dev"] = "the name of the interface, or its number if the capture has no name",
  ["tc.request"] = "the message is a request",
  ["tc.answer"] = "the message is the kernel's answer to a request",
  ["tc.refused"] = "of an answer: the kernel refused the request",
  ["tc.refusal"] = "of a request that the kernel refused: why",
  ["tc.error"] = "of an answer: the number of the error, 0 of an acknowledgement",
  ["tc.quoted"] = "of an answer: the request that it quotes",
  ["tc.quoted.type"] = "of an answer: nlmsg_type of the request",
  ["tc.quoted.flags"] = "of an answer: nlmsg_flags of the request",
  ["tc.quoted.seq"] = "of an answer: nlmsg_seq of the request",
  ["tc.quoted.port"] = "of an answer: nlmsg_pid of the request",
  ["tc.request_in"] = "of an answer: the frame of the request",
  ["tc.answer_in"] = "of a request: the frame of the answer",
  ["tc.codel.xstats.ldelay"] = "us",
  ["tc.codel.xstats.drop_next"] = "us",
  ["tc.dualpi2.xstats.delay_c"] = "us",
  ["tc.dualpi2.xstats.delay_l"] = "us",
  ["tc.dualpi2.xstats.packets_in_c"] = "packets",
  ["tc.dualpi2.xstats.packets_in_l"] = "packets",
  ["tc.dualpi2.xstats.maxq"] = "packets",
  ["tc.dualpi2.xstats.ecn_mark"] = "packets",
  ["tc.dualpi2.xstats.step_marks"] = "packets",
  ["tc.dualpi2.xstats.memory_used"] = "bytes",
  ["tc.dualpi2.xstats.max_memory_used"] = "bytes",
  ["tc.dualpi2.xstats.memory_limit"] = "bytes",
  ["tc.pfifo.limit"] = "packets",
  ["tc.bfifo.limit"] = "bytes",
  ["tc.fq.xstats.time_next_delayed_flow"] = "ns",
  ["tc.fq.xstats.unthrottle_latency_ns"] = "ns",
  ["tc.fq_codel.xstats.qdisc.maxpacket"] = "bytes",
  ["tc.fq_codel.xstats.qdisc.drop_overlimit"] = "packets",
  ["tc.fq_codel.xstats.qdisc.ecn_mark"] = "packets",
  ["tc.fq_codel.xstats.qdisc.ce_mark"] = "packets",
  ["tc.fq_codel.xstats.qdisc.memory_usage"] = "bytes",
  ["tc.fq_codel.xstats.qdisc.drop_overmemory"] = "packets",
  ["tc.fq_codel.xstats.class.deficit"] = "bytes",
  ["tc.fq_codel.xstats.class.ldelay"] = "us",
  ["tc.fq_codel.xstats.class.drop_next"] = "us",
  ["tc.hfsc.xstats.work"] = "bytes",
  ["tc.hfsc.xstats.rtwork"] = "bytes",
  ["tc.htb.xstats.tokens"] = "ticks of 64 ns",
  ["tc.htb.xstats.ctokens"] = "ticks of 64 ns",
  ["tc.netem.latency"] = "ticks of 64 ns",
  ["tc.netem.limit"] = "packets",
  ["tc.netem.loss"] = "2^-32 each",
  ["tc.netem.gap"] = "packets",
  ["tc.netem.duplicate"] = "2^-32 each",
  ["tc.netem.jitter"] = "ticks of 64 ns",
  ["tc.netem.xstats.delayed"] = "packets",
  ["tc.netem.xstats.dropped"] = "packets",
  ["tc.netem.xstats.corrupted"] = "packets",
  ["tc.netem.xstats.duplicated"] = "packets",
  ["tc.netem.xstats.reordered"] = "packets",
  ["tc.netem.xstats.ecn_marked"] = "packets",
  ["tc.pie.xstats.delay"] = "us",
  ["tc.pie.xstats.avg_dq_rate"] = "bytes a second",
  ["tc.plug.limit"] = "bytes",
  ["tc.qfq.xstats.lmax"] = "bytes",
  ["tc.red.xstats.early"] = "packets",
  ["tc.red.xstats.pdrop"] = "packets",
  ["tc.red.xstats.other"] = "packets",
  ["tc.red.xstats.marked"] = "packets",
  ["tc.sfb.xstats.maxqlen"] = "packets",
  ["tc.sfq.qopt.quantum"] = "bytes",
  ["tc.sfq.qopt.perturb_period"] = "s",
  ["tc.sfq.qopt.limit"] = "packets",
  ["tc.sfq.qopt_v1.v0.quantum"] = "bytes",
  ["tc.sfq.qopt_v1.v0.perturb_period"] = "s",
  ["tc.sfq.qopt_v1.v0.limit"] = "packets",
  ["tc.sfq.qopt_v1.depth"] = "packets",
  ["tc.sfq.qopt_v1.limit"] = "bytes",
  ["tc.sfq.qopt_v1.qth_min"] = "bytes",
  ["tc.sfq.qopt_v1.qth_max"] = "bytes",
  ["tc.sfq.qopt_v1.wlog"] = "exponent of 2",
  ["tc.sfq.qopt_v1.plog"] = "exponent of 2",
  ["tc.sfq.qopt_v1.scell_log"] = "exponent of 2",
  ["tc.sfq.qopt_v1.flags.ecn"] = "TC_RED_ECN",
  ["tc.sfq.qopt_v1.flags.harddrop"] = "TC_RED_HARDDROP",
  ["tc.sfq.qopt_v1.flags.adaptative"] = "TC_RED_ADAPTATIVE",
  ["tc.sfq.qopt_v1.flags.nodrop"] = "TC_RED_NODROP",
  ["tc.sfq.qopt_v1.max_p"] = "2^-32 each",
  ["tc.sfq.qopt_v1.stats.prob_drop"] = "packets",
  ["tc.sfq.qopt_v1.stats.forced_drop"] = "packets",
  ["tc.sfq.qopt_v1.stats.prob_mark"] = "packets",
  ["tc.sfq.qopt_v1.stats.forced_mark"] = "packets",
  ["tc.sfq.qopt_v1.stats.prob_mark_head"] = "packets",
  ["tc.sfq.qopt_v1.stats.forced_mark_head"] = "packets",
  ["tc.sfq.xstats.allot"] = "bytes",
  ["tc.skbprio.limit"] = "packets",
  ["tc.index"] = "interface",
  ["tc.handle.number"] = "the same as a number",
  ["tc.parent.number"] = "the same as a number",
  ["tc.info"] = "of a filter: priority in the upper half, ETH_P_* below, big-endian",
}

-- ---- Values as text: printable ASCII, in the units and with the names of outlines. Numbers are decimal digits, since those of Lua 5.2 have 53 bits.

-- True for valid UTF-8: sequences of these forms, which leave out overlong ones, surrogates and what is above U+10FFFF.
local SEQUENCES = {"[\194-\223][\128-\191]", "\224[\160-\191][\128-\191]", "[\225-\236\238\239][\128-\191][\128-\191]", "\237[\128-\159][\128-\191]",
  "\240[\144-\191][\128-\191][\128-\191]", "[\241-\243][\128-\191][\128-\191][\128-\191]", "\244[\128-\143][\128-\191][\128-\191]"}
local function is_utf8(s)
  for _, sequence in ipairs(s:find("[\128-\255]") and SEQUENCES or {}) do s = s:gsub(sequence, "?") end
  return not s:find("[\128-\255]")
end

-- Bytes as printable ASCII: what is none is escaped, such as \x1b.
local function clean(s) return (s:gsub("[^ -~]", function(c) return ("\\x%02x"):format(c:byte()) end)) end

-- A text as an outline has it: in quotes unless it is a word.
local function quoted(s)
  if s:find("^[%w.:_-]+$") then return s end
  return '"' .. clean((s:gsub('["\\]', "\\%0"))) .. '"'
end

-- Bytes in hex; for a line as many as it has room for.
local function hex(s) return (s:gsub(".", function(c) return ("%02x"):format(c:byte()) end)) end
local function hex_quoted(s) return s == "" and '""' or hex(s:sub(1, 120)) end

-- Digits, multiplied by a small number, and another added.
local function times(digits, by, plus)
  if #digits < 10 then return ("%.0f"):format(tonumber(digits) * by + (plus or 0)) end
  local out, carry = "", plus or 0
  while #digits > 0 do
    local part = tonumber(digits:sub(-9)) * by + carry
    carry = math.floor(part / 1e9)
    out, digits = ("%09.0f"):format(part - carry * 1e9) .. out, digits:sub(1, -10)
  end
  out = (("%.0f"):format(carry) .. out):gsub("^0+", "")
  return out == "" and "0" or out
end

-- Digits, divided by a number of at most 1e10: the quotient and the remainder.
local function divide(digits, by)
  local out, rest = "", 0
  digits = ("0"):rep(-#digits % 5) .. digits
  for part in digits:gmatch("%d%d%d%d%d") do
    local n = rest * 1e5 + tonumber(part)
    local whole = math.floor(n / by)
    out, rest = out .. ("%05.0f"):format(whole), n - whole * by
  end
  out = out:gsub("^0+", "")
  return out == "" and "0" or out, rest
end

-- Nanoseconds in the longest of s, ms, us and ns that counts them exactly.
local function time(ns)
  if ns == "0" then return "0s" end
  for _, unit in ipairs({{9, "s"}, {6, "ms"}, {3, "us"}}) do
    if #ns > unit[1] and ns:sub(-unit[1]) == ("0"):rep(unit[1]) then return ns:sub(1, -unit[1] - 1) .. unit[2] end
  end
  return ns .. "ns"
end

-- Bytes a second in bits, as tc writes them.
local function bits(rate)
  local n = times(rate, 8)
  for _, unit in ipairs({"bit", "Kbit", "Mbit", "Gbit"}) do
    if #n <= 3 or #n <= 6 and n:sub(-3) ~= "000" then return n .. unit end
    n = n:sub(1, -4)
  end
  return n .. "Tbit"
end

-- Thousandths of a percent of a number in units of 2^-32, rounded.
local function percent(n)
  local thousandths = math.floor((tonumber(n) * 100000 + 2 ^ 31) / 2 ^ 32)
  local whole = math.floor(thousandths / 1000)
  return ("%.0f.%03.0f"):format(whole, thousandths - whole * 1000):gsub("%.?0+$", "") .. "%"
end

local function u32_handle(n)
  if n == 0 then return "none" end
  local hash, bucket, item = math.floor(n / 2 ^ 20), math.floor(n / 2 ^ 12) % 256, n % 4096
  return (hash > 0 and ("%x:"):format(hash) or "") .. (bucket > 0 and ("%x"):format(bucket) or "") .. (item > 0 and (":%x"):format(item) or "")
end

-- A handle as tc writes it.
local function handle(n)
  if n == 0xffffffff or n == 0 then return n == 0 and "0:0" or "root" end
  local major, minor = math.floor(n / 65536), n % 65536
  return (major > 0 and ("%x"):format(major) or "") .. ":" .. (minor > 0 and ("%x"):format(minor) or "")
end

-- Units: functions of digits and a sign. Those in UNSIGNED make no sense below zero.
local function counted(name) return function(n, sign) return sign .. n .. name end end
local function span(name, zeros)
  return function(n, sign) return sign .. n .. name .. (n ~= "0" and n:sub(-3) == "000" and (" (%s%s)"):format(sign, time(n .. zeros)) or "") end
end
local SIGNED = {bytes = counted("B"), packets = counted("p"), s = counted("s"), ns = span("ns", ""), us = span("us", "000"), ms = span("ms", "000000"),
  ticks = function(n, sign) return ("%s%s ticks (%s%s)"):format(sign, n, sign, time(times(n, 64))) end}
local UNSIGNED = {["packets/s"] = counted(" p/s"), ["kbit/s"] = counted(" kbit/s"), percent = counted("%"),
  ["bytes/s"] = function(n) return n .. " B/s (" .. bits(n) .. ")" end,
  clock_t = function(n) return n .. " clock_t (" .. time(n == "0" and n or n .. "0000000") .. ")" end,
  probability = function(n) return n .. " (" .. percent(n) .. ")" end,
  log2 = function(n) return tonumber(n) < 64 and ("%s (%.0f)"):format(n, 2 ^ tonumber(n)) or n end,
  u32_handle = function(n) return u32_handle(tonumber(n)) end}

-- What an action says of a packet.
local VERDICTS = {[-1] = "continue", [0] = "pass", [1] = "reclassify", [2] = "drop", [3] = "pipe", [4] = "stolen", [5] = "queued", [6] = "repeat",
  [7] = "redirect", [8] = "trap"}
local function verdict(v)
  local low = v % 2 ^ 28
  if v - low == 2 ^ 28 then return ("jump %.0f"):format(low) end
  if v - low == 2 ^ 29 then return ("goto chain %.0f"):format(low) end
  return VERDICTS[v] or ("%.0f"):format(v)
end

-- The names of the bits that are set, and what has no name in hex; in brackets the number. It comes as its upper and its lower 32 bits.
local function flags(names, upper, n, hexed)
  local out, rest = {}, n
  for _, bit in ipairs(names) do
    if math.floor(n / bit[1]) % 2 == 1 then out[#out + 1], rest = bit[2], rest - bit[1] end
  end
  if #out == 0 then return hexed end
  if upper > 0 then out[#out + 1] = ("0x%x%08x"):format(upper, rest) elseif rest > 0 then out[#out + 1] = ("0x%x"):format(rest) end
  return table.concat(out, " ") .. " (" .. hexed .. ")"
end

-- The length of the prefix that a mask has; nil if it is the mask of none.
local function prefix(mask)
  local len, ended = 0, false
  for i = 1, #mask do
    local b, ones = mask:byte(i), 0
    while b >= 128 do b, ones = b * 2 % 256, ones + 1 end
    if b > 0 or ended and ones > 0 then return nil end
    len, ended = len + ones, ended or ones < 8
  end
  return len
end

-- A number of up to 32 bits, the most significant byte first.
local byte, floor = string.byte, math.floor
local function unsigned(s)
  local a, b, c, d = byte(s, 1, 4)
  if d then return ((a * 256 + b) * 256 + c) * 256 + d end
  return c and (a * 256 + b) * 256 + c or b and a * 256 + b or a or 0
end

-- The digits of a number and its sign, from its bytes, the most significant first.
local function decimal(s, is_signed)
  local upper, lower, sign = #s > 4 and unsigned(s:sub(1, -5)) or 0, unsigned(s:sub(-4)), ""
  if is_signed and byte(s) >= 128 then
    sign, lower = "-", 256 ^ math.min(#s, 4) - lower
    if #s == 8 then upper, lower = 2 ^ 32 - (lower < 2 ^ 32 and 1 or 0) - upper, lower % 2 ^ 32 end
  end
  if upper < 2 ^ 20 then return ("%.0f"):format(upper * 2 ^ 32 + lower), sign end
  return times(times(("%.0f"):format(upper), 65536), 65536, lower), sign
end

-- A number in a unit: exact, and in brackets what it is to people. `raw` has its bytes as the message has them.
local function in_unit(unit, s, is_signed, raw, digits, sign)
  if unit == "net_hex" then s = raw end
  if SIGNED[unit] then return SIGNED[unit](digits, sign) end
  if sign == "-" then return "-" .. digits end
  if unit == "hex" or unit == "net_hex" then return "0x" .. hex(s):gsub("^0+(.)", "%1") end
  return UNSIGNED[unit] and UNSIGNED[unit](digits, "") or digits
end

-- ---- Forms: what the tables say of bytes. What doesn't follow its form is shown raw, as in the JSON and the outlines of tcshow.

local tc = Proto("tc", "Linux Traffic Control")
local NESTED, TYPE, DEEPEST = 0x8000, 0x4000, 16 -- NLA_F_NESTED; above the bits of an attribute's type; so deep forms nest, what is deeper is raw
local WIDTHS = {u8 = 1, u16 = 2, u32 = 4, u64 = 8, s8 = 1, s16 = 2, s32 = 4, s64 = 8, be16 = 2, be32 = 4, be64 = 8, handle = 4, mac = 6, ipv4 = 4, ipv6 = 16,
  flag = 0, bool = 1}
local SORTS = {u8 = "uint8", u16 = "uint16", u32 = "uint32", u64 = "uint64", s8 = "int8", s16 = "int16", s32 = "int32", s64 = "int64", be16 = "uint16",
  be32 = "uint32", be64 = "uint64", mac = "ether", ipv4 = "ipv4", ipv6 = "ipv6", handle = "string", text = "string", bare = "string", kind = "string",
  hex = "bytes", bytes = "bytes", pad = "bytes", flag = "bool", bool = "bool", frame = "framenum"}

local X = {form = {"Bytes that don't follow their form", "MALFORMED", "ERROR"}, cut = {"Message is cut", "MALFORMED", "ERROR"},
  unknown = {"Not in the tables", "UNDECODED", "NOTE"}, refused = {"Refused", "RESPONSE_CODE", "ERROR"}, warning = {"Warning", "RESPONSE_CODE", "WARN"}}
for name, it in pairs(X) do X[name] = ProtoExpert.new("tc.expert." .. name, it[1], expert.group[it[2]], expert.severity[it[3]]) end

-- Fields are declared once for each name.
local declared, fields = {}, {}
local function declare(name, sort, ...)
  if not declared[name] then
    declared[name] = ProtoField[sort](name, ...)
    fields[#fields + 1] = declared[name]
  end
  return declared[name]
end

local function declare_number(n)
  local names = n.enum == "tc_act" and VERDICTS or ENUMS[n.enum] or NAMES[n.names]
  local is_hex = (n.bits or n.unit == "hex" or n.unit == "net_hex" or n.unit == "u32_handle") and n[1]:sub(1, 1) ~= "s"
  n.names_of = names
  n.field = declare(n[2], SORTS[n[1]], n[3], is_hex and base.HEX or base.DEC, names, nil, ABOUT[n[2]])
  for i, bit in ipairs(n.bits and not n.no_bits and BITS[n.bits] or {}) do
    n.flags = n.flags or {}
    local name = n[2] .. "." .. bit[2]
    n.flags[i] = declare(name, "bool", bit[2], n.width * 8, nil, bit[1], ABOUT[name])
  end
end

-- Forms of which any bytes of their length are.
local ANY = {handle = true, mac = true, ipv4 = true, ipv6 = true}

-- Gives a form its field and its width, and those in it; `always` is the length if any bytes of that length are of the form.
local function prepare(n)
  local sort = SORTS[n[1]]
  n.width, n.is_leaf = n.width or WIDTHS[n[1]], sort ~= nil
  n.is_number, n.is_signed, n.is_big = sort ~= nil and sort:find("int") ~= nil, n[1]:sub(1, 1) == "s", n[1]:sub(1, 2) == "be"
  for _, inner in ipairs(n.parts or {n.inner or n.other}) do prepare(inner) end
  if n.is_number or ANY[n[1]] then n.always = n.width end
  if n[1] == "struct" then
    n.always = 0
    for _, x in ipairs(n.parts) do n.always = n.always and x.always and n.always + x.always end
  end
  if n.element then n.element = declare(n.element, "none", n.inner[3], ABOUT[n.element]) end
  if n[2] and n.is_number then declare_number(n)
  elseif n[2] and n.frame then n.field = declare(n[2], sort, n[3], base.NONE, frametype[n.frame], 0, ABOUT[n[2]])
  elseif n[2] and sort == "string" then n.field = declare(n[2], sort, n[3], base.ASCII, ABOUT[n[2]])
  elseif n[2] and sort == "bytes" then n.field = declare(n[2], sort, n[3], base.NONE, ABOUT[n[2]])
  elseif n[2] and sort == "bool" then n.field = declare(n[2], sort, n[3], base.NONE, nil, nil, ABOUT[n[2]])
  elseif n[2] then n.field = declare(n[2], sort or "none", n[3], ABOUT[n[2]]) end
  if n.twin then
    n.twin = declare(n.twin, n[1] == "handle" and "uint32" or SORTS[n[1]], n[3], n[1] == "handle" and base.HEX or base.DEC, nil, nil, ABOUT[n.twin])
  end
end

-- Numbers at places of a message, in its byte order.
local function bytes_of(c, off, len) return c.bytes:sub(off + 1, off + len) end
local function u16(c, off)
  local a, b = byte(c.bytes, off + 1, off + 2)
  return c.little and a + b * 256 or a * 256 + b
end
local function u32(c, off)
  local a, b, e, d = byte(c.bytes, off + 1, off + 4)
  if c.little then a, b, e, d = d, e, b, a end
  return ((a * 256 + b) * 256 + e) * 256 + d
end
local function number_at(c, off, len) return len == 4 and u32(c, off) or u16(c, off) end

-- What a tree has at bytes: an item of a field, with this text if somebody sees it. If nobody does, only fields that a filter names have items; `c.referenced`
-- is true if it names any.
local function set(c, item, label, text) if c.seen then item:set_text(label .. ": " .. text) end end
local function wanted(c, tree, field) return c.seen or c.referenced and tree:referenced(field) end
local function add(c, tree, n, off, len, text)
  local item = c.little and tree:add_le(n.field, c.tvb(off, len)) or tree:add(n.field, c.tvb(off, len))
  if text and c.seen then item:set_text(n[3] .. ": " .. text) end
  return item
end
local function raw(c, off, len, tree, label, why)
  local item = tree:add(F.raw.field, c.tvb(off, len))
  if c.seen then item:set_text((label and label ~= "" and label .. ": raw " or "Raw: ") .. hex_quoted(bytes_of(c, off, len))) end
  item:add_proto_expert_info(X.form, why)
  return item
end

-- A number as text.
local function number_text(c, n, wire)
  local s = (c.little and not n.is_big and #wire > 1) and wire:reverse() or wire
  local digits, sign = decimal(s, n.is_signed)
  local v = tonumber(sign .. digits)
  if n.enum == "tc_act" then return verdict(v) end
  local name = n.names_of and n.names_of[v]
  if not name and not n.unit and not n.bits then return sign .. digits end
  local text = n.unit == "hex" and n.names and #s == 2 and ("0x%04x"):format(v) or in_unit(n.unit, s, n.is_signed, wire, digits, sign)
  if name then return name .. " (" .. text .. ")" end
  if n.bits and not n.names then return flags(BITS[n.bits], unsigned(s:sub(1, -5)), unsigned(s:sub(-4)), in_unit("hex", s, false, wire, digits, sign)) end
  return n.unit == "ifindex" and c.links[v] and text .. " (" .. quoted(c.links[v]) .. ")" or text
end

-- Why bytes aren't of a form that holds no others; nil if they are.
local function fault(n, s)
  local what = n[1]
  if n.width and #s ~= n.width then return ("%d bytes instead of %d"):format(#s, n.width) end
  if n.is_number then return nil end
  if what == "bool" and byte(s) > 1 then return "neither 0 nor 1" end
  if what == "text" and s:sub(-1) ~= "\0" then return "a text without a NUL at its end" end
  if (what == "text" or what == "bare") and not is_utf8(s) then return "a text that isn't UTF-8" end
end

-- The value of a form that holds no others, where Wireshark can't read it, and its text.
local function value_of(c, n, s)
  local what = n[1]
  if what == "handle" then
    local text = handle(unsigned(c.little and s:reverse() or s))
    return text, text
  elseif what == "text" or what == "bare" or what == "kind" then
    s = what == "bare" and s or s:gsub("\0$", "")
    return clean(s), quoted(s)
  elseif what == "flag" or what == "bool" then return s ~= "\0", s ~= "\0" and "true" or "false"
  elseif what == "mac" then return nil, hex(s):gsub("..", "%0:"):sub(1, -2)
  elseif what == "ipv4" then return nil, ("%d.%d.%d.%d"):format(byte(s, 1, 4)) end
  return nil, what ~= "ipv6" and hex_quoted(s) or nil
end

-- A second name of the same value, which filters know and trees don't show.
local function show_twin(c, n, off, len, tree)
  if not wanted(c, tree, n.twin) then return end
  local range = c.tvb(off, len)
  local item = (c.little and not n.is_big) and tree:add_le(n.twin, range) or tree:add(n.twin, range)
  item:set_hidden()
end

-- Shows a number.
local function show_number(c, n, off, len, tree)
  local is_le, item = c.little and not n.is_big, tree
  if c.seen then
    local range = c.tvb(off, len)
    item = is_le and tree:add_le(n.field, range) or tree:add(n.field, range)
    item:set_text(n[3] .. ": " .. number_text(c, n, bytes_of(c, off, len)))
  elseif c.referenced and tree:referenced(n.field) then
    item = is_le and tree:add_le(n.field, c.tvb(off, len)) or tree:add(n.field, c.tvb(off, len))
  end
  if n.flags and (c.bits or not c.seen) and (c.seen or c.referenced) then
    for _, flag in ipairs(n.flags) do
      if wanted(c, tree, flag) then
        local range = c.tvb(off, len)
        if is_le then item:add_le(flag, range) else item:add(flag, range) end
      end
    end
  end
  if n.twin then show_twin(c, n, off, len, tree) end
  return item, true
end

-- Shows a form that holds no others. Returns the item, and true if the bytes are of the form.
local function show_leaf(c, n, off, len, tree, left)
  if n.is_number and len == n.width and left ~= 0 then return show_number(c, n, off, len, tree) end
  local s = bytes_of(c, off, len)
  local why = left == 0 and "nested too deep" or fault(n, s)
  if why then return raw(c, off, len, tree, n[3], why), false end
  if n.twin then show_twin(c, n, off, len, tree) end
  if not wanted(c, tree, n.field) then return tree, true end
  local value, text = value_of(c, n, s)
  local item = value == nil and tree:add(n.field, c.tvb(off, len)) or tree:add(n.field, c.tvb(off, len), value)
  if c.is_flush and n[2] == "tc.action.cookie" and len == 4 then set(c, item, "Count", ("%.0f"):format(number_at(c, off, 4)))
  elseif text then set(c, item, n[3], text) end
  return item, true
end

local show = {}

-- The length and the type of an attribute: `head` has its place, its word, and what the table says of it.
local HEADS = {}
local function show_head(c, item, head)
  if not head or not head.word or not (c.headers or not c.seen) then return end
  if not c.seen and not wanted(c, item, F.length.field) and not wanted(c, item, F.word.field) then return end
  local key = (head.kernel or "") .. head.word .. (head.usual or "")
  local text = HEADS[key]
  if not text then
    text = ("0x%04x"):format(head.word) .. (head.kernel and (" (%s%s)"):format(head.kernel, head.word >= NESTED and ", NLA_F_NESTED" or "") or "")
    text = F.word[3] .. ": " .. text .. (head.usual and head.usual ~= head.word and (", usually 0x%04x"):format(head.usual) or "")
    HEADS[key] = text
  end
  add(c, item, F.length, head.at, 2)
  local word = add(c, item, F.word, head.at + 2, 2)
  if c.seen then word:set_text(text) end
end

-- Shows a form in an item of its own, or without one; of an attribute with its header. Returns the item; true if it is a leaf of its form; a list's kind.
local function member(c, n, off, len, tree, kind, left, head)
  if n.is_leaf then
    local item, plain = show_leaf(c, n, off, len, tree, left)
    show_head(c, item, head)
    return item, plain
  end
  local item = tree
  if n.field then
    if wanted(c, tree, n.field) then
      item = tree:add(n.field, head and c.tvb(head.at, off + len - head.at) or c.tvb(off, len))
      if c.seen then item:set_text(n[3]) end
    end
  elseif n[1] == "array" and c.seen then item = tree:add(head and c.tvb(head.at, off + len - head.at) or c.tvb(off, len), n[3]) end
  if n.field or n[1] == "array" then show_head(c, item, head) end
  if left == 0 then return raw(c, off, len, item, nil, "nested too deep"), false end
  return item, false, show[n[1]](c, n, off, len, item, kind, left - 1)
end

function show.struct(c, n, off, len, tree, kind, left)
  if len < n.least then return raw(c, off, len, tree, nil, ("%d bytes instead of %d"):format(len, n.least)) end
  local stop = off + len
  for _, x in ipairs(n.parts) do
    local size = x.width or stop - off
    if x[1] ~= "pad" or bytes_of(c, off, size):find("[^\0]") then member(c, x, off, size, tree, kind, left) end
    off = off + size
  end
  if off < stop then add(c, tree, F.rest, off, stop - off, hex_quoted(bytes_of(c, off, stop - off))):add_proto_expert_info(X.form, "bytes after the record") end
end

function show.array(c, n, off, len, tree, kind, left)
  local stop, size, texts = off + len, n.inner.width or len, {}
  while off < stop do
    member(c, n.inner, off, math.min(size, stop - off), tree, kind, left)
    if c.seen and n.inner.is_leaf and #texts < 60 then
      local s = bytes_of(c, off, math.min(size, stop - off))
      texts[#texts + 1] = #s == size and number_text(c, n.inner, s) or "raw " .. hex(s)
    end
    off = off + size
  end
  if #texts > 0 then set(c, tree, n[3], table.concat(texts, " ")) end
end

-- The form of a choice that bytes follow, and the length of what they begin with.
local function chosen(c, n, off, len)
  local bytes = bytes_of(c, off, len)
  for _, x in ipairs(n.parts) do
    local start = x.prefix or ""
    if (x.length or len) == len and bytes:sub(1, #start) == start then return x, #start end
  end
end
function show.choice(c, n, off, len, tree, kind, left)
  local x, prefixed = chosen(c, n, off, len)
  if x then return member(c, x, off + prefixed, len - prefixed, tree, kind, left, {at = off}) end
  add(c, tree, F.other, off, len, hex_quoted(bytes_of(c, off, len))):add_proto_expert_info(X.unknown, "a form that isn't in the table")
end

-- Goes through attributes: the type and word of each, the places of header and payload, and its length. If the rest is no attribute, its type is false.
local function attributes(c, off, stop)
  local bytes, little = c.bytes, c.little
  return function()
    if off >= stop then return nil end
    local at, room, size, word = off, stop - off, 0, 0
    if room >= 4 then
      local a, b, e, d = byte(bytes, at + 1, at + 4)
      if little then size, word = a + b * 256, e + d * 256 else size, word = a * 256 + b, e * 256 + d end
    end
    if size < 4 or size > room then
      off = stop
      return false, 0, at, at, room
    end
    off = at + size + -size % 4
    return word % TYPE, word, at, at + 4, size - 4
  end
end

-- Shows attributes, each by `one`, which returns the item. What is no attribute is raw to the end.
local function each(c, off, len, tree, one)
  for ty, word, at, body, size in attributes(c, off, off + len) do
    if not ty then return raw(c, at, size, tree, nil, "no attribute: " .. (size < 4 and "no room for a header" or "a wrong length")) end
    local padding = size % 4 > 0 and bytes_of(c, body + size, math.min(-size % 4, off + len - body - size))
    local is_odd = padding and (#padding < -size % 4 or padding:find("[^\0]") ~= nil) or false
    local item = one(ty, word, at, body, size, is_odd)
    if is_odd then add(c, item, F.padding, body + size, #padding, hex_quoted(padding)) end
  end
end

-- Marks what the kernel's answer to a request is about: the attribute for which it was refused, and the one in which another is missing; `list` is its list.
local function mark(c, at, item, list)
  for _, it in ipairs(c.marks or {}) do
    if c.request + it.at == at then
      local row = it.missing and LISTS[list] and LISTS[list][it.missing]
      local text = it.text .. (row and " (" .. row[1] .. ")" or "")
      if c.seen then item:append_text("   <== " .. text) end
    end
  end
end

-- The text of a kind, without the NUL that may end it; nil if it isn't UTF-8, and then it is none.
local function kind_at(c, off, len)
  local s = bytes_of(c, off, len):gsub("\0$", "")
  return is_utf8(s) and s or nil
end
local function own_kind(c, off, len)
  for ty, _, _, body, size in attributes(c, off, off + len) do
    local kind = ty == 1 and kind_at(c, body, size)
    if kind then return kind end
  end
end

-- The item that a mask or an end is joined with: that of its address or its beginning, if it comes before it and has the usual form.
local function joined(c, n, before, body, size)
  if not before or size ~= n.width or before.name ~= (n.mask or n.upto) then return nil end
  local s = bytes_of(c, body, size)
  local len = n.mask and prefix(s)
  if n.mask and not len then return nil end
  if c.seen then
    local _, text = value_of(c, n, s)
    before.item:append_text(len and "/" .. len or "-" .. (SORTS[n[1]]:find("int") and number_text(c, n, s) or text or tostring(c.tvb(body, size):ipv6())))
  end
  return before.item
end

-- Shows an attribute of the table, by its form or that of the kind. Returns the item, its form, and what a mask or an end may be joined with.
local function show_row(c, n, head, body, size, tree, kind, left, before)
  local own = n[1] == "by" and (KINDS[n.kinds][kind] or {})[n.which]
  if n[1] == "by" and not own then n = n.other end
  head.usual = head.usual + ((own or n).nested and NESTED or 0)
  if own then
    local item = tree
    if wanted(c, tree, n.field) then
      item = tree:add(n.field, c.tvb(head.at, size + 4))
      if c.seen then item:set_text(n[3]) end
    end
    show_head(c, item, head)
    member(c, own, body, size, item, kind, n.which == "statistics" and math.max(left - 1, 0) or left)
    return item, own
  end
  local target = (n.mask or n.upto) and left > 0 and joined(c, n, before, body, size)
  local item, plain = member(c, n, body, size, target or tree, kind, left, head)
  if n[1] == "flag" and n[3] == "pad" then return item, n, before end
  return item, n, plain and not target and head.word == head.usual and not head.is_odd and {name = n[2], item = item} or nil
end

-- Shows a list. A kind in it sets the form of attributes after it, or if it has an own one, the first of all. Returns the kind.
function show.list(c, n, off, len, tree, kind, left)
  local has_kind, before = n[1] ~= "list", nil
  if n[1] == "own" then kind = own_kind(c, off, len) end
  each(c, off, len, tree, function(ty, word, at, body, size, is_odd)
    local row, item, form = LISTS[n.list][ty], nil, {}
    local found = has_kind and ty == 1 and kind_at(c, body, size)
    if not row or found == nil then
      item, before = add(c, tree, F.other, body, size, c.seen and ("word 0x%04x value %s"):format(word, hex_quoted(bytes_of(c, body, size)))), nil
      item:add_proto_expert_info(X.unknown, ("type %d isn't in the table"):format(ty))
      show_head(c, item, {at = at, word = word})
    else
      if found and n[1] == "inforce" then kind = found end
      item, form, before = show_row(c, row[2], {at = at, word = word, kernel = row[1], usual = ty, is_odd = is_odd}, body, size, tree, kind, left, before)
      if found and c.seen and bytes_of(c, body, size):sub(-1) ~= "\0" then item:append_text(" (without a NUL)") end
    end
    mark(c, at, item, form.list)
    return item
  end)
  return kind
end
show.own, show.inforce = show.list, show.list

-- Shows attributes of any type, each with the same form.
function show.indexed(c, n, off, len, tree, kind, left)
  each(c, off, len, tree, function(_, word, at, body, size)
    local item = wanted(c, tree, n.element) and tree:add(n.element, c.tvb(at, size + 4)) or tree
    show_head(c, item, {at = at, word = word})
    local _, _, own = member(c, n.inner, body, size, item, kind, left)
    own = c.seen and n.inner[1] == "own" and own and quoted(own)
    if own and #c.actions < 8 then c.actions[#c.actions + 1] = own end
    if item ~= tree and c.seen then item:set_text(("%s %d"):format(n.inner[3], word) .. (own and ": " .. own or "")) end
    mark(c, at, item)
    return item
  end)
end

-- ---- Lines: a message in the words of `tc`, as `tcshow` prints it without statistics (docs/LINES.md)

-- A word of a line: printable ASCII without blanks, quotes and backslashes. A sentence has blanks.
local function escaped(x) return ("\\x%02x"):format(byte(x)) end
local function sentence(s) return (s:gsub('["\\]', escaped):gsub("[^ -~]", escaped)) end
local function word(s)
  if s == "" then return '""' end
  if not s:find('[^!-~]') and not s:find('["\\]') then return s end
  return (sentence(s):gsub(" ", "\\x20"))
end
local function say(out, text) out[#out + 1] = text end

-- Thousandths of a unit, without zeros at the end.
local function thousandths(digits, unit)
  local part = digits:sub(-3):gsub("0+$", "")
  return digits:sub(1, -4) .. (part ~= "" and "." .. part or "") .. unit
end

-- Digits in the largest of these units, each 1000 of the next, that leaves at most three decimals.
local function in_largest(digits, units)
  if #digits > 9 and digits:sub(-6) == "000000" then return thousandths(digits:sub(1, -7), units[4]) end
  if #digits > 6 and digits:sub(-3) == "000" then return thousandths(digits:sub(1, -4), units[3]) end
  return #digits > 3 and thousandths(digits, units[2]) or digits .. units[1]
end
local RATES, TIMES = {"bit", "kbit", "Mbit", "Gbit"}, {"ns", "us", "ms", "s"}
local function duration(zeros) return function(d) return d == "0" and "0s" or in_largest(d .. zeros, TIMES) end end
local function size_of(digits)
  for _, unit in ipairs(digits == "0" and {} or {{1048576, "MiB"}, {1024, "KiB"}}) do
    local whole, rest = divide(digits, unit[1])
    if rest == 0 then return whole .. unit[2] end
  end
  return digits .. "B"
end

-- The shortest percentage of 2^32 - 1, with at most three decimals, that rounds to the number; else the number.
local function share(digits)
  local n = tonumber(digits)
  local p = floor((n * 200000 + 0xffffffff) / 0x1fffffffe)
  if floor((p * 0x1fffffffe + 100000) / 200000) ~= n then return digits end
  return thousandths(("%04.0f"):format(p), "%")
end
local function ends(unit) return function(d) return d .. unit end end
local IN_LINES = {bytes = size_of, packets = ends("p"), ["packets/s"] = ends("p/s"), percent = ends("%"), probability = share,
  ns = duration(""), us = duration("000"), ms = duration("000000"), s = duration("000000000"), clock_t = duration("0000000"),
  ticks = function(d) return duration("")(times(d, 64)) end, log2 = function(d) return "2^" .. d end,
  ["bytes/s"] = function(d) return in_largest(times(d, 8), RATES) end,
  ["kbit/s"] = function(d) return d == "0" and "0bit" or in_largest(d .. "000", RATES) end}

-- The product of two numbers in digits.
local function product(a, b)
  if #a + #b < 16 then return ("%.0f"):format(tonumber(a) * tonumber(b)) end
  local out = "0"
  b = ("0"):rep(-#b % 4) .. b
  for part in b:gmatch("%d%d%d%d") do
    local more, long = times(a, tonumber(part)), times(out, 10000)
    local sum, carry = "", 0
    while #more > 0 or #long > 0 do
      local n = (tonumber(more:sub(-9)) or 0) + (tonumber(long:sub(-9)) or 0) + carry
      carry = floor(n / 1e9)
      sum, more, long = ("%09.0f"):format(n - carry * 1e9) .. sum, more:sub(1, -10), long:sub(1, -10)
    end
    out = (carry > 0 and ("%.0f"):format(carry) or "") .. sum
  end
  out = out:gsub("^0+", "")
  return out == "" and "0" or out
end

-- The bytes that a rate sends in these ticks.
local function burst(rate, ticks)
  if rate == "0" then return duration("")(times(ticks, 64)) end
  local whole, rest = divide(product(rate, times(ticks, 64)), 1e9)
  return rest == 0 and size_of(whole) or ("~%sB(%st)"):format(whole, ticks)
end

local function ipv6_text(s)
  local parts, best, from = {}, 1, nil
  for i = 1, 16, 2 do
    local a, b = byte(s, i, i + 1)
    parts[#parts + 1] = a * 256 + b
  end
  for i = 1, 8 do
    local n = 0
    while i + n <= 8 and parts[i + n] == 0 do n = n + 1 end
    if n > best then best, from = n, i end
  end
  for i, n in ipairs(parts) do parts[i] = ("%x"):format(n) end
  if not from then return table.concat(parts, ":") end
  return table.concat(parts, ":", 1, from - 1) .. "::" .. table.concat(parts, ":", from + best, 8)
end

-- An unsigned number of at most four bytes.
local function small_at(c, n, off)
  local a, b, e, d = byte(c.bytes, off + 1, off + n.width)
  local little = c.little and not n.is_big
  if d then
    if little then a, b, e, d = d, e, b, a end
    return ((a * 256 + b) * 256 + e) * 256 + d
  end
  return not b and a or little and a + b * 256 or a * 256 + b
end

-- A number: its digits, its sign, and its value, which is nil for a negative one.
local function digits_at(c, n, off)
  if n.width <= 4 and not n.is_signed then
    local v = small_at(c, n, off)
    return ("%d"):format(v), "", v
  end
  local s = bytes_of(c, off, n.width)
  local digits, sign = decimal((c.little and not n.is_big and n.width > 1) and s:reverse() or s, n.is_signed)
  return digits, sign, sign == "" and tonumber(digits) or nil
end

-- Flag words: the names of the bits that are set, and the others in hex.
local function bit_names(names, digits, s)
  local out, rest, upper = {}, unsigned(s:sub(-4)), unsigned(s:sub(1, -5))
  for _, bit in ipairs(names) do
    if floor(rest / bit[1]) % 2 == 1 then out[#out + 1], rest = bit[2], rest - bit[1] end
  end
  if upper > 0 then out[#out + 1] = ("0x%x%08x"):format(upper, rest) elseif rest > 0 then out[#out + 1] = ("0x%x"):format(rest) end
  return out
end
local function bits_at(c, n, off)
  local s = bytes_of(c, off, n.width)
  return bit_names(BITS[n.bits], nil, c.little and not n.is_big and s:reverse() or s)
end

local function number_in_line(c, n, off)
  local digits, sign, v = digits_at(c, n, off)
  if n.enum == "tc_act" then return verdict(tonumber(sign .. digits)) end
  local name = n.names_of and n.names_of[v or tonumber(sign .. digits)]
  if name then return name end
  if n.enum then return sign .. digits end
  if n.bits and not n.names then
    local names = bits_at(c, n, off)
    return #names > 0 and table.concat(names, "|") or "0"
  end
  local unit = n.unit
  if not unit then return sign .. digits end
  if unit == "ifindex" then return c.links[v] and word(c.links[v]) or sign .. digits end
  if IN_LINES[unit] then return sign .. IN_LINES[unit](digits) end
  if sign == "-" then return sign .. digits end
  if unit == "u32_handle" then return u32_handle(v) end
  local s = bytes_of(c, off, n.width)
  if n.names and n.width == 2 then return ("0x%04x"):format(v) end
  return "0x" .. hex((unit == "net_hex" or n.is_big or not c.little) and s or s:reverse()):gsub("^0+(.)", "%1")
end

-- Bytes in hex, or how many there are.
local function bytes_in_line(c, off, len) return len <= 32 and "0x" .. hex(bytes_of(c, off, len)) or ("<%dB>"):format(len) end
local function other(c, w, body, size) return ("attr%s="):format(w < TYPE and ("%d"):format(w) or ("0x%x"):format(w)) .. bytes_in_line(c, body, size) end

-- The value of a form that holds no others, as part of a word; malformed bytes as `{raw=dead}`, and then true.
local function leaf_in_line(c, n, off, len)
  if n.is_number and n.always == len then return number_in_line(c, n, off) end
  local s, what = bytes_of(c, off, len), n[1]
  if fault(n, s) then
    c.odd = true
    return "{raw=" .. hex(s) .. "}", true
  end
  if n.mask then
    local length = prefix(s)
    if length then return ("%d"):format(length) end
  end
  if what == "handle" then return handle(u32(c, off)) end
  if what == "text" or what == "bare" or what == "kind" then return word((what == "bare" and s or s:gsub("\0$", ""))) end
  if what == "flag" then return "true" end
  if what == "bool" then return s == "\0" and "false" or "true" end
  if what == "mac" then return hex(s):gsub("..", "%0:"):sub(1, -2) end
  if what == "ipv4" then return ("%d.%d.%d.%d"):format(byte(s, 1, 4)) end
  if what == "ipv6" then return ipv6_text(s) end
  return hex(s)
end

-- True if the row of a value leaves it out.
local function is_left_out(c, n, off, len)
  local left, below = n.left, n.below
  if not left and not below then return false end
  if left == -1 then return true end
  local v
  if n.is_number then
    if len ~= n.width then return false end
    if n.width <= 4 and not n.is_signed then v = small_at(c, n, off) else v = select(3, digits_at(c, n, off)) end
  elseif n.mask and len == n.width then v = prefix(bytes_of(c, off, len))
  elseif (n[1] == "bool" and len == 1) or (n[1] == "flag" and len == 0) then v = bytes_of(c, off, len) == "\0" and 0 or 1 end
  return v ~= nil and (left and v == left or below and v < below) or false
end

-- True for bytes that follow their form, and all in them. Statistics have no words, and are still looked at.
local sound
local function sound_list(c, n, off, len, kind, left)
  local stop, has_kind = off + len, n[1] ~= "list"
  if n[1] == "own" then kind = own_kind(c, off, len) end
  for ty, _, at, body, size in attributes(c, off, stop) do
    local row = ty and (n[1] == "indexed" and n.inner or n.list and LISTS[n.list][ty] and LISTS[n.list][ty][2])
    if not row then return false end
    if n[1] ~= "indexed" and has_kind and ty == 1 then
      local found = kind_at(c, body, size)
      if not found then return false end
      if n[1] == "inforce" then kind = found end
    end
    if row[1] == "by" then row = (KINDS[row.kinds][kind] or {})[row.which] or row.other end
    if not sound(c, row, body, size, kind, left) then return false end
  end
  return true
end
function sound(c, n, off, len, kind, left)
  if left == 0 then return false end
  if n.always then return len == n.always end
  if n.is_leaf then return not fault(n, bytes_of(c, off, len)) end
  if n[1] == "struct" then
    if len < n.least then return false end
    for _, x in ipairs(n.parts) do
      local size = x.width or len
      if size > len or not sound(c, x, off, size, kind, left - 1) then return false end
      off, len = off + size, len - size
    end
    return len == 0
  elseif n[1] == "array" then
    local size = n.inner.width or len
    while len > 0 do
      if size > len or not sound(c, n.inner, off, size, kind, left - 1) then return false end
      off, len = off + size, len - size
    end
    return true
  elseif n[1] == "choice" then
    local x, prefixed = chosen(c, n, off, len)
    return x and sound(c, x, off + prefixed, len - prefixed, kind, left - 1) or false
  end
  return sound_list(c, n, off, len, kind, left - 1)
end

-- ---- A list or a record as one word

local within
local function assigned(c, n, off, len, out, kind)
  if n[1] == "flag" and len == 0 then return say(out, n.key) end
  if n[1] == "bool" and bytes_of(c, off, len) == "\1" then return say(out, n.key) end
  say(out, n.key .. "=" .. within(c, n, off, len, kind))
end

-- Appends the members of a list or a record.
local function members(c, n, off, len, out, kind)
  if n[1] == "struct" then
    if len < n.least then
      c.odd = true
      return say(out, "raw=" .. hex(bytes_of(c, off, len)))
    end
    local stop = off + len
    for _, x in ipairs(n.parts) do
      local size = x.width or stop - off
      if x[1] == "pad" or is_left_out(c, x, off, size) then -- nothing
      elseif x.s == "Flat" and x.parts or x.key == "attributes" then members(c, x, off, size, out, kind)
      else assigned(c, x, off, size, out, kind) end
      off = off + size
    end
    if off < stop then
      c.odd = true
      say(out, "rest=" .. hex(bytes_of(c, off, stop - off)))
    end
  elseif n[1] == "choice" then
    local x, prefixed = chosen(c, n, off, len)
    if x then return assigned(c, x, off + prefixed, len - prefixed, out, kind) end
    c.odd = true
    say(out, "Other=" .. hex(bytes_of(c, off, len)))
  else
    for ty, w, at, body, size in attributes(c, off, off + len) do
      local row = ty and LISTS[n.list][ty]
      local x = row and row[2]
      if not x then
        c.odd = true
        say(out, ty and other(c, w, body, size) or "raw=" .. hex(bytes_of(c, body, size)))
      elseif not is_left_out(c, x, body, size) then
        if x.s == "Flat" and not x.is_leaf then members(c, x, body, size, out, kind) else assigned(c, x, body, size, out, kind) end
      end
    end
  end
end

function within(c, n, off, len, kind)
  if n.is_leaf then return leaf_in_line(c, n, off, len) end
  local out = {}
  if n[1] == "array" then
    local size, stop = n.inner.width or len, off + len
    if n.inner.is_number and len > 32 * size and len % size == 0 then return ("<%d>"):format(len / size) end
    while off < stop do
      out[#out + 1] = within(c, n.inner, off, math.min(size, stop - off), kind)
      off = off + size
    end
    return "[" .. table.concat(out, ",") .. "]"
  elseif n[1] == "indexed" then
    for _, _, _, body, size in attributes(c, off, off + len) do members(c, n.inner, body, size, out, kind) end
    return "{" .. table.concat(out, ",") .. "}"
  elseif n[1] == "struct" and len < n.least then
    c.odd = true
    return "{raw=" .. hex(bytes_of(c, off, len)) .. "}", true
  end
  members(c, n, off, len, out, kind)
  return "{" .. table.concat(out, ",") .. "}"
end

-- ---- Members as words

local write = {}
local flat, actions_of

-- Writes `word value` or `Name=value`; only the word or the name of what is true.
local function plain(c, n, out, text, is_raw)
  if text == "true" and not is_raw and (n[1] == "flag" or n[1] == "bool") then return say(out, n.w or n.key) end
  if n.w and n.s ~= "Choice" then
    say(out, n.w)
    say(out, text)
  else
    say(out, n.key .. "=" .. text)
  end
end

-- The mask or the end of a range, if it comes next.
local function companion(c, n, after)
  local x, off, len = after()
  if not x or x.key ~= n.a or not x.is_leaf then return nil end
  return x, off, len
end

function write.Mask(c, n, off, len, out, S, after)
  local text = leaf_in_line(c, n, off, len)
  local x, at, size = companion(c, n, after)
  if x and not is_left_out(c, x, at, size) then text = text .. "/" .. leaf_in_line(c, x, at, size) end
  plain(c, n, out, text)
  return x ~= nil
end
function write.Range(c, n, off, len, out, S, after)
  local text = leaf_in_line(c, n, off, len)
  local x, at, size = companion(c, n, after)
  if x then text = text .. "-" .. leaf_in_line(c, x, at, size) end
  plain(c, n, out, text)
  return x ~= nil
end
function write.Alone(c, n, off, len, out)
  local text, is_raw = leaf_in_line(c, n, off, len)
  if is_raw then plain(c, n, out, text, true) else say(out, text) end
end
function write.Choice(c, n, off, len, out)
  local text, is_raw = leaf_in_line(c, n, off, len)
  if is_raw then return say(out, n.key .. "=" .. text) end
  local _, _, v = digits_at(c, n, off)
  if not n.choices then
    n.choices = {}
    for x in (n.w .. "|"):gmatch("([^|]*)|") do n.choices[#n.choices + 1] = x end
  end
  local found = v and v < 64 and n.choices[v + 1] or ""
  say(out, found ~= "" and found or n.key .. "=" .. text)
end
function write.Bits(c, n, off, len, out)
  if len ~= n.width then return say(out, n.key .. "=" .. leaf_in_line(c, n, off, len)) end
  for _, name in ipairs(bits_at(c, n, off)) do say(out, name) end
end
function write.Hardware(c, n, off, len, out, S) write.Bits(c, n, off, len, S.is_action and out or S.hardware) end
function write.Control(c, n, off, len, out, S)
  if c.is_flush and n.key == "Cookie" and len == 4 then
    say(S.control, "count")
    return say(S.control, ("%.0f"):format(unsigned(bytes_of(c, off, 4):reverse())))
  end
  local text, is_raw = leaf_in_line(c, n, off, len)
  if is_raw or n.enum ~= "tc_act" then return plain(c, n, S.control, text, is_raw) end
  say(S.control, text:sub(1, 1) == "-" and n.key .. "=" .. text or text)
end
function write.Head(c, n, off, len, out, S)
  local text = leaf_in_line(c, n, off, len)
  S.chain = S.chain or {text = text, is_left_out = is_left_out(c, n, off, len)}
end
function write.Protocol(c, n, off, len, out, S)
  local text, is_raw = leaf_in_line(c, n, off, len)
  local digits = not is_raw and digits_at(c, n, off)
  if is_raw or tonumber(digits) ~= S.protocol then plain(c, n, out, text, is_raw) end
end
function write.Burst(c, n, off, len, out, S)
  local text, is_raw = leaf_in_line(c, n, off, len)
  if is_raw then return plain(c, n, out, text, true) end
  plain(c, n, out, burst(S.rates[n.a] or "0", (digits_at(c, n, off))))
end
function write.Keys(c, n, off, len, out)
  local stop, key = off + len, n.inner
  while off + key.width <= stop do
    local value, mask = key.parts[2], key.parts[1]
    say(out, "match")
    say(out, hex(bytes_of(c, off + mask.width, 4)) .. "/" .. hex(bytes_of(c, off, 4)))
    say(out, "at")
    local digits, sign = digits_at(c, key.parts[3], off + 8)
    say(out, sign .. digits)
    digits, sign = digits_at(c, key.parts[4], off + 12)
    if digits ~= "0" then say(out, "offmask=" .. sign .. digits) end
    off = off + key.width
  end
  if off < stop then c.odd = true say(out, "{raw=" .. hex(bytes_of(c, off, stop - off)) .. "}") end
end
function write.Statistics(c, n, off, len, out, S) if not sound(c, n, off, len, S.kind, DEEPEST) then c.odd = true end end
function write.Actions(c, n, off, len, out, S)
  if n[1] == "indexed" then return actions_of(c, n, off, len, S) end
  local action = {is_action = true, control = {}, rates = S.rates, long = S.long, protocol = S.protocol, kind = S.kind}
  local words = {"action", n.w}
  flat(c, n, off, len, words, action)
  for _, x in ipairs(action.control) do say(words, x) end
  say(S.actions, table.concat(words, " "))
end

-- A `struct tc_ratespec`: its other members, and the rate, which a 64-bit attribute replaces.
local function rate_of(c, n, off, S)
  for _, x in ipairs(n.parts) do
    if x.key == "rate" then return S.long[n.a] or (digits_at(c, x, off)), (digits_at(c, x, off)) end
    off = off + x.width
  end
end
function write.Rate(c, n, off, len, out, S)
  if len < n.least then
    c.odd = true
    return plain(c, n, out, "{raw=" .. hex(bytes_of(c, off, len)) .. "}", true)
  end
  local rate, own = rate_of(c, n, off, S)
  for _, x in ipairs(n.parts) do
    if x.key == "rate" then
      if not n.left or tonumber(own) ~= n.left then
        say(out, n.w)
        say(out, IN_LINES["bytes/s"](rate))
      end
    elseif x[1] ~= "pad" and not is_left_out(c, x, off, x.width) then
      (write[x.s] or write.Value)(c, x, off, x.width, out, S, function() end)
    end
    off = off + x.width
  end
end
function write.Flat(c, n, off, len, out, S)
  if n[1] == "struct" and len < n.least then
    c.odd = true
    return plain(c, n, out, "{raw=" .. hex(bytes_of(c, off, len)) .. "}", true)
  end
  if n.is_leaf then return write.Bits(c, n, off, len, out) end
  flat(c, n, off, len, out, S)
end
function write.Value(c, n, off, len, out, S)
  if n.is_leaf then return plain(c, n, out, leaf_in_line(c, n, off, len)) end
  local text, is_raw = within(c, n, off, len, S.kind)
  if text == "{}" or text == "[]" and not n.w then return end
  plain(c, n, out, word(text), is_raw)
end
function write.Bytes(c, n, off, len, out, S)
  if not n.is_leaf then return write.Value(c, n, off, len, out, S) end
  plain(c, n, out, bytes_in_line(c, off, len))
end

-- Writes a member, unless it is left out; true if it wrote the next one as well.
local function write_member(c, x, off, len, out, S, after)
  if x.s ~= "Head" and x.s ~= "Rate" and is_left_out(c, x, off, len) then
    if x.always ~= len and (not x.is_leaf or fault(x, bytes_of(c, off, len))) then c.odd = not sound(c, x, off, len, S.kind, DEEPEST) or c.odd end
    return false
  end
  return (write[x.s] or write.Value)(c, x, off, len, out, S, after)
end

-- Writes the members of a record, or of a list, as if they stood in its place.
local function flat_struct(c, n, off, len, out, S)
  local stop, passed, at = off + len, false, off
  for _, x in ipairs(n.parts) do
    if x.s == "Rate" and not S.rates[x.w] then S.rates[x.w] = rate_of(c, x, at, S) end
    at = at + (x.width or 0)
  end
  for i, x in ipairs(n.parts) do
    local size = x.width or stop - off
    local function after() return n.parts[i + 1], off + size, n.parts[i + 1] and (n.parts[i + 1].width or stop - off - size) end
    if x[1] == "pad" then
      if bytes_of(c, off, size):find("[^\0]") then c.odd = true end
    elseif passed then passed = false
    else passed = write_member(c, x, off, size, out, S, after) end
    off = off + size
  end
  if off < stop then
    c.odd = true
    say(out, "rest=" .. hex(bytes_of(c, off, stop - off)))
  end
end

-- 64-bit rates of a list, which replace those in its records.
local function find_long(c, n, off, len, S)
  for ty, _, _, body, size in attributes(c, off, off + len) do
    local row = ty and LISTS[n.list][ty]
    if row and size == 8 and row[2].is_number and row[2].width == 8 and not S.long[row[2].key] then S.long[row[2].key] = (digits_at(c, row[2], body)) end
  end
end

function flat(c, n, off, len, out, S)
  if n[1] == "struct" then return flat_struct(c, n, off, len, out, S) end
  if n[1] == "choice" then
    local x, prefixed = chosen(c, n, off, len)
    if x then return flat(c, x, off + prefixed, len - prefixed, out, S) end
    c.odd = true
    return say(out, "Other=" .. hex(bytes_of(c, off, len)))
  end
  if n[1] == "array" then return say(out, (within(c, n, off, len, S.kind))) end
  if not n.list then return write.Value(c, n, off, len, out, S) end
  if n.has_rates == nil then
    n.has_rates = false
    for _, row in pairs(LISTS[n.list]) do
      for _, x in ipairs(row[2].parts or {}) do n.has_rates = n.has_rates or x.s == "Rate" end
    end
  end
  if n.has_rates then find_long(c, n, off, len, S) end
  local stop, passed = off + len, false
  for ty, w, at, body, size in attributes(c, off, stop) do
    local row = ty and LISTS[n.list][ty]
    if passed then passed = false
    elseif not row then
      c.odd = true
      say(out, ty and other(c, w, body, size) or "raw=" .. hex(bytes_of(c, body, size)))
    else
      local function after()
        for next_ty, _, _, next_body, next_size in attributes(c, body + size + -size % 4, stop) do
          return next_ty and LISTS[n.list][next_ty] and LISTS[n.list][next_ty][2], next_body, next_size
        end
      end
      passed = write_member(c, row[2], body, size, out, S, after)
    end
  end
end

-- Writes the options of a kind, or an attribute that doesn't depend on it, of a message or of an action.
local function write_one(c, ty, w, body, size, list, kind, out, S)
  local row = ty and LISTS[list][ty]
  if not row then
    c.odd = true
    return say(out, ty and other(c, w, body, size) or "raw=" .. hex(bytes_of(c, body, size)))
  end
  local n = row[2]
  if n[1] ~= "by" then return write_member(c, n, body, size, out, S, function() end) end
  local own = (KINDS[n.kinds][kind] or {})[n.which]
  if n.which == "statistics" then
    if not sound(c, own or n.other, body, size, kind, DEEPEST) then c.odd = true end
  elseif own then flat(c, own, body, size, out, S)
  else write_member(c, n.other, body, size, out, S, function() end) end
end

-- An action: its words, and those at its end.
local function action_in(c, off, len, S)
  local action = {is_action = true, control = {}, rates = {}, long = {}, protocol = S.protocol, kind = own_kind(c, off, len)}
  local words, kinds = {}, {}
  for ty, w, _, body, size in attributes(c, off, off + len) do
    if ty == 1 then
      local kind = kind_at(c, body, size)
      if not kind then c.odd = true end
      say(kinds, word(kind or "{raw=" .. hex(bytes_of(c, body, size)) .. "}"))
    else write_one(c, ty, w, body, size, "action", action.kind, words, action) end
  end
  for _, x in ipairs(action.control) do say(words, x) end
  return #kinds > 0 and table.concat(kinds, " ") or "-", words
end
function actions_of(c, n, off, len, S)
  for ty, _, _, body, size in attributes(c, off, off + len) do
    if not ty then
      c.odd = true
      break
    end
    local kind, words = action_in(c, body, size, S)
    if S.own then say(S.own, {kind, words}) else say(S.actions, "action " .. kind .. (#words > 0 and " " .. table.concat(words, " ") or "")) end
  end
end

-- ---- The line of a message, after its verb

local OBJECTS = {[36] = "qdisc", [40] = "class", [44] = "filter", [48] = "action", [100] = "chain"}
local function object_of(ty) return OBJECTS[ty - ty % 4] end

local function place_of(parent)
  if parent == 0 then return nil end
  local named = {[0xffffffff] = "root", [0xfffffff2] = "ingress", [0xfffffff3] = "egress"}
  return named[parent] or "parent " .. handle(parent)
end

local function handle_in(object, kind, n)
  if n == 0 then return "-" end
  if object ~= "filter" then return handle(n) end
  return kind == "u32" and u32_handle(n) or ("0x%x"):format(n)
end

-- The address family, and padding after it that isn't zeros.
local function family_of(c, off, parts)
  local family, padding = byte(c.bytes, off + 1), bytes_of(c, off + 1, 3)
  return (family > 0 and " family " .. (parts.family.names_of[family] or ("%d"):format(family)):gsub("^%l", string.upper) or "") ..
    (padding ~= "\0\0\0" and " padding=" .. hex(padding) or "")
end

-- The lines of a message about actions: one for each.
local function action_lines(c, off, len, verb)
  local S = {own = {}, control = {}, hardware = {}, actions = {}, rates = {}, long = {}, protocol = 0}
  local words, out = {}, {}
  for ty, w, _, body, size in attributes(c, off + 4, off + len) do write_one(c, ty, w, body, size, "action_message", nil, words, S) end
  local head = family_of(c, off, TCAMSG)
  for _, action in ipairs(S.own) do
    for _, x in ipairs(words) do say(action[2], x) end
    say(out, ("%s action %s -%s"):format(verb, action[1], head) .. (#action[2] > 0 and " " .. table.concat(action[2], " ") or ""))
  end
  if #out == 0 then say(out, verb .. " action - -" .. head .. (#words > 0 and " " .. table.concat(words, " ") or "")) end
  return out
end

-- The head of an object: what it is, and where.
local function head_of(c, object, off, kind, S)
  local own, parent, info = u32(c, off + 8), u32(c, off + 12), u32(c, off + 16)
  local index, out = u32(c, off + 4), {object}
  local is_filter = object == "filter" or object == "chain"
  say(out, object == "chain" and (S.chain and S.chain.text or "-") or word(kind or "-"))
  if object ~= "chain" then say(out, handle_in(object, kind, own)) end
  if index == 0xffffffff and is_filter then
    say(out, "block " .. ("%.0f"):format(parent))
  else
    if index > 0 and index ~= 0xffffffff then say(out, "dev " .. (c.links[index] and word(c.links[index]) or ("%.0f"):format(index >= 2 ^ 31 and index - 2 ^ 32 or index))) end
    say(out, place_of(parent))
  end
  if is_filter then
    local pref = floor(info / 65536)
    if pref > 0 then say(out, ("pref %d"):format(pref)) end
    if S.protocol > 0 then say(out, "protocol " .. (NAMES.eth_p[S.protocol] or ("0x%04x"):format(S.protocol))) end
  elseif object == "class" and info > 0 then say(out, "leaf " .. handle(info)) end
  local family = family_of(c, off, TCMSG)
  if object == "chain" then
    if kind then family = family .. " kind " .. word(kind) end
  elseif S.chain and not S.chain.is_left_out then family = family .. " chain " .. S.chain.text end
  return table.concat(out, " ") .. family .. (S.bare and " bare" or "")
end

-- The lines of a message from its header on, each with this verb before it.
local function lines_of(c, ty, off, len, verb)
  local object = object_of(ty)
  if len < (object == "action" and 4 or 20) then
    c.odd = true
    return {verb .. " " .. object .. " - -"}
  end
  if object == "action" then return action_lines(c, off, len, verb) end
  local info = u32(c, off + 16)
  local S = {hardware = {}, actions = {}, control = {}, rates = {}, long = {}, protocol = info % 256 * 256 + floor(info / 256) % 256}
  local words, kind, first = {}, nil, nil
  for t, w, _, body, size in attributes(c, off + 20, off + len) do
    if t == 1 then
      local found = kind_at(c, body, size)
      if not found then c.odd = true end
      if found and bytes_of(c, body, size):sub(-1) ~= "\0" then S.bare = true end
      kind, first = found or kind, first or found
      S.kind = kind
    else write_one(c, t, w, body, size, "tc", kind, words, S) end
  end
  for _, list in ipairs({S.hardware, S.control, S.actions}) do
    for _, x in ipairs(list) do say(words, x) end
  end
  return {verb .. " " .. head_of(c, object, off, first, S) .. (#words > 0 and " " .. table.concat(words, " ") or "")}
end

-- ---- Messages: netlink's header, answers of the kernel, names of interfaces, packets

local NLMSG_ERROR, RTM_NEWLINK, IFLA_IFNAME, ARPHRD_NETLINK, NETLINK_ROUTE = 2, 16, 3, 824, 0
local NLM_F_CAPPED, NLM_F_ACK_TLVS, NLM_F_ROOT = 0x100, 0x200, 0x100
local FLAGS = {{0x01, "request"}, {0x02, "multi"}, {0x04, "ack"}, {0x08, "echo"}, {0x10, "dump_intr"}, {0x20, "dump_filtered"}}
local FLAGS_OF = {NEW = {{0x400, "create"}, {0x200, "excl"}, {0x100, "replace"}, {0x800, "append"}}, DEL = {{0x100, "nonrec"}, {0x200, "bulk"}},
  GET = {{0x100, "root"}, {0x200, "match"}, {0x400, "atomic"}}, FLUSH = {{0x100, "root"}}, ANSWER = {{0x100, "capped"}, {0x200, "ack_tlvs"}}}

local BODIES = {tc = {"inforce", false, "", list = "tc"}, action = {"list", false, "", list = "action_message"}, extack = {"list", false, "", list = "extack"}}
for _, rows in pairs(LISTS) do for _, row in pairs(rows) do prepare(row[2]) end end
for _, of in pairs(KINDS) do for _, kind in pairs(of) do for _, n in pairs(kind) do prepare(n) end end end
for _, all in pairs({F, TCMSG, TCAMSG, BODIES}) do for _, n in pairs(all) do prepare(n) end end
tc.fields = fields
tc.experts = {X.form, X.cut, X.unknown, X.refused, X.warning}
tc.prefs.headers = Pref.bool("Show the length and the type of each attribute", true, "A line for each part of struct nlattr")
tc.prefs.bits = Pref.bool("Show the bits of flag words", true, "A line for each bit that has a name")

-- Of a capture: requests by their netlink headers; by message the answers to requests, and the requests of answers; what messages do; names of interfaces.
local asked, answers, requests, spoken, links, recent, count
local function forget() asked, answers, requests, spoken, links, recent, count = {}, {}, {}, {}, {}, {}, 0 end
tc.init = forget
forget()

-- Keeps the name of an interface in a message of the kernel; the last counts.
local function learn(c, off, stop)
  for ty, _, _, body, size in attributes(c, off + 16, stop) do
    if ty == IFLA_IFNAME then links[number_at(c, off + 4, 4)] = kind_at(c, body, size) end
  end
end

-- A netlink header.
local function header_at(c, at)
  return {length = u32(c, at), type = u16(c, at + 4), flags = u16(c, at + 6), seq = u32(c, at + 8), port = u32(c, at + 12)}
end
local function has(flags, bit) return floor(flags / bit) % 2 == 1 end
local function is_action(ty) return ty >= 48 and ty <= 50 end

-- ---- What a message does

-- The flags that iproute2 gives a command for an object.
local COMMANDS = {qdisc = {[6] = "add", [5] = "replace", [0] = "change"}, class = {[6] = "add", [4] = "replace", [0] = "change"},
  filter = {[6] = "add", [4] = "replace", [0] = "change"}, chain = {[6] = "add"}, action = {[6] = "add", [5] = "replace"}}
local function request_verb(h)
  local modifiers, object, verb = floor(h.flags / 256) % 16, object_of(h.type), nil
  if h.type % 4 == 0 then verb = COMMANDS[object][modifiers]
  elseif h.type % 4 == 1 then verb = modifiers == 0 and "del" or object == "action" and modifiers == 1 and "flush"
  else verb = modifiers == 0 and "get" or modifiers == 3 and "dump" end
  return verb or ("send flags 0x%x"):format(h.flags)
end

-- True if one of the last 1024 requests with the sequence number has this type, and the port id or none; and, if asked, is no dump.
local function was_sent(h, ty, is_no_dump)
  for _, it in ipairs(recent[h.seq] or {}) do
    if count - it.at < 1024 and it.type == ty and (it.port == h.port or it.port == 0) and not (is_no_dump and it.is_dump) then return true end
  end
  return false
end

-- What a message does, whether it is a request, and who caused a notification. Linux copies the flags and the sequence number of a request into some.
local function speech_of(h)
  local get = h.type - h.type % 4 + 2
  if has(h.flags, 1) and (h.port == 0 or not (was_sent(h, h.type) or was_sent(h, get))) then
    count = count + 1
    recent[h.seq] = recent[h.seq] or {}
    table.insert(recent[h.seq], {at = count - 1, type = h.type, port = h.port, is_dump = floor(h.flags / 256) % 16 == 3})
    return {verb = request_verb(h), is_request = true, by = ""}
  end
  local by = h.port > 0 and (" by %.0f"):format(h.port) or ""
  if h.type % 4 == 1 then return {verb = "gone", by = by} end
  if h.type % 4 == 0 and not has(h.flags, 2) and not was_sent(h, get, true) then return {verb = "new", by = by} end
  return {verb = "is", by = ""}
end

-- ---- Trees

local HEADER = {type = {4, 2}, flags = {6, 2}, seq = {8, 4}, port = {12, 4}}
local function flag_words(h)
  local verb, words, rest = h.type == 49 and "FLUSH" or h.type == NLMSG_ERROR and "ANSWER" or TYPES[h.type]:sub(5, 7), "", h.flags
  for _, of in ipairs({FLAGS, FLAGS_OF[verb]}) do
    for _, flag in ipairs(of) do
      if has(h.flags, flag[1]) then words, rest = words .. " " .. flag[2], rest - flag[1] end
    end
  end
  return rest > 0 and ("%s 0x%04x"):format(words, rest) or words
end

-- Shows a netlink header, of the request in an answer as fields of their own; returns its flags, sequence number and port in words.
local function show_netlink(c, h, at, tree, start)
  start = start or ""
  if c.headers or not c.seen then
    for _, name in ipairs({"type", "flags", "seq", "port"}) do
      local n, places = F[start .. name], HEADER[name]
      if wanted(c, tree, n.field) then
        local item = add(c, tree, n, at + places[1], places[2])
        if name == "type" then set(c, item, n[3], NAMES.message_type[h.type] or ("%d"):format(h.type)) end
        if name == "flags" then set(c, item, n[3], ("0x%04x"):format(h.flags) .. flag_words(h)) end
      end
    end
  end
  if not c.seen then return "" end
  return ("%s seq %.0f%s"):format(flag_words(h), h.seq, h.port > 0 and (" port %.0f"):format(h.port) or "")
end

-- Shows the family that both headers begin with, and its padding; returns them in words.
local function show_family(c, parts, off, tree)
  local family, padding = bytes_of(c, off, 1), bytes_of(c, off + 1, 3)
  show_leaf(c, parts.family, off, 1, tree, 1)
  if padding ~= "\0\0\0" then show_leaf(c, parts.padding, off + 1, 3, tree, 1) end
  return c.seen and (family ~= "\0" and " family " .. number_text(c, parts.family, family) or "") .. (padding ~= "\0\0\0" and " padding " .. hex(padding) or "") or ""
end

-- Shows the last number of `struct tcmsg`, by what the message is about; returns it in words.
local function show_info(c, ty, off, tree)
  local v, item, text = u32(c, off), show_leaf(c, TCMSG.info, off, 4, tree, 1), ""
  if ty < 40 then text = ("refcnt %.0f"):format(v)
  elseif ty < 44 then text = "leaf " .. handle(v)
  else
    local upper, lower = c.little and off + 2 or off, c.little and off or off + 2
    local pref, protocol = ("%.0f"):format(u16(c, upper)), number_text({}, F.protocol, bytes_of(c, lower, 2))
    if wanted(c, item, F.pref.field) then add(c, item, F.pref, upper, 2, pref) end
    if wanted(c, item, F.protocol.field) then set(c, item:add(F.protocol.field, c.tvb(lower, 2)), F.protocol[3], protocol) end
    text = "pref " .. pref .. " protocol " .. protocol
  end
  if v > 0 then set(c, item, "Info", text) end
  return v > 0 and " " .. text or ""
end

-- The bytes of the last kind before a malformed attribute, without the NUL that may end them.
local function last_kind(c, off, len)
  local kind
  for ty, _, _, body, size in attributes(c, off, off + len) do
    if ty == 1 then kind = bytes_of(c, body, size):gsub("\0$", "") end
  end
  return kind
end

-- Shows the interface by its name.
local function show_dev(c, off, tree)
  local index = u32(c, off)
  if index > 0 and index < 0xffffffff and wanted(c, tree, F.dev.field) then
    local item = tree:add(F.dev.field, c.tvb(off, 4), c.links[index] and clean(c.links[index]) or ("%.0f"):format(index))
    item:set_generated()
  end
end

-- Shows `struct tcmsg`; returns it in words.
local function show_tcmsg(c, ty, off, len, tree)
  local words, own, parent = show_family(c, TCMSG, off, tree), u32(c, off + 8), u32(c, off + 12)
  show_leaf(c, TCMSG.index, off + 4, 4, tree, 1)
  local is_block, text = bytes_of(c, off + 4, 4) == "\255\255\255\255", handle(own)
  if not is_block then show_dev(c, off + 4, tree) end
  if c.seen and not is_block then words = words .. " index " .. number_text(c, TCMSG.index, bytes_of(c, off + 4, 4)) end
  if ty >= 44 and ty <= 46 then text = last_kind(c, off + 20, len - 20) == "u32" and u32_handle(own) or ("0x%x"):format(own) end
  set(c, show_leaf(c, TCMSG.handle, off + 8, 4, tree, 1), "Handle", text)
  local of = is_block and {"block", ("%.0f"):format(parent)} or {"parent", handle(parent)}
  set(c, show_leaf(c, TCMSG.parent, off + 12, 4, tree, 1), is_block and "Block" or "Parent", of[2])
  return ("%s handle %s %s %s"):format(words, text, of[1], of[2]) .. show_info(c, ty, off + 16, tree)
end

-- Shows a message after its netlink header, marked by the answer to it. Returns its header in words, and its kind and those of its actions.
local function show_body(c, h, at, len, tree, marks)
  local size, off = is_action(h.type) and 4 or 20, at + 16
  if len < size then return "", "", raw(c, off, len, tree, nil, ("%d bytes instead of %d"):format(len, size)) end
  c.is_flush, c.actions, c.marks, c.request = h.type == 49 and has(h.flags, NLM_F_ROOT), {}, marks, at
  local words = size == 4 and show_family(c, TCAMSG, off, tree) or show_tcmsg(c, h.type, off, len, tree)
  local _, _, kind = member(c, size == 4 and BODIES.action or BODIES.tc, off + size, len - size, tree, nil, DEEPEST - 1)
  if not c.seen then return "", "" end
  return words, (size == 20 and kind and " " .. quoted(kind) or "") .. (#c.actions > 0 and " actions " .. table.concat(c.actions, " ") or "")
end

-- What an extended acknowledgement says: its text, and marks at places of the request.
local function extack_of(c, off, stop, errno)
  local name, said, found = errno == 0 and "ok" or NAMES.errno[errno] or ("%.0f"):format(errno), nil, {}
  local plain_said
  for ty, _, _, body, size in attributes(c, off, stop) do
    if ty == 1 then
      plain_said = kind_at(c, body, size) or hex(bytes_of(c, body, size))
      said = clean(plain_said)
    elseif ty and size == 4 then found[ty] = number_at(c, body, 4) end
  end
  local it = {errno = errno, name = name, said = said, text_said = plain_said, place = found[2], text = errno == 0 and said or name .. (said and ": " .. said or ""), marks = {},
    expert = errno > 0 and X.refused or X.warning}
  if found[2] then it.marks[1] = {at = found[2], text = (errno > 0 and "refused: " or "") .. it.text} end
  if found[5] then
    table.insert(it.marks, {at = found[6] or 0, text = ("attribute %.0f is missing"):format(found[5]), missing = found[5]})
  end
  return it
end

-- The names of the attributes on the way to a place, as in the JSON of tcshow; nil if there is no attribute.
local function names_to(c, list, off, stop, place, kind)
  for ty, _, at, body, size in attributes(c, off, stop) do
    local row = ty and LISTS[list][ty]
    if not row then return nil end
    if ty == 1 and (list == "tc" or list == "action") then kind = kind_at(c, body, size) or kind end
    local n, names = row[2], row[2].key
    local inner = n[1] == "by" and ((KINDS[n.kinds][kind] or {})[n.which] or n.other) or n
    if at == place then return names end
    if place > at and place < body + size then
      if inner[1] == "indexed" then
        for index, _, where, payload, len in attributes(c, body, body + size) do
          if where == place then return names .. ("/%d"):format(index or 0) end
          local rest = place > where and place < payload + len and inner.inner.list and names_to(c, inner.inner.list, payload, payload + len, place)
          if rest then return names .. ("/%d/"):format(index) .. rest end
        end
        return nil
      end
      local rest = inner.list and names_to(c, inner.list, body, body + size, place, kind)
      return rest and names .. "/" .. (inner.layer and inner.layer .. "/" or "") .. rest
    end
  end
end

-- The line of an answer: what the kernel says, and the line of the request.
local function answer_line(c, ack, quote, at, whole)
  local refused = ack.errno > 0
  local said = refused and "refused " .. ack.name or ack.said and "warned" or "ok"
  if ack.said then said = said .. ' "' .. sentence(ack.text_said) .. '"' end
  if ack.place then
    local size = is_action(quote.type) and 4 or 20
    local names = whole > 16 and names_to(c, is_action(quote.type) and "action_message" or "tc", at + 16 + size, at + whole, at + ack.place)
    ack.names = names or ack.names
    said = said .. (ack.names and (" at %s (byte %.0f)"):format(ack.names, ack.place - 16) or (" at byte %.0f"):format(ack.place - 16))
  end
  if whole > 16 then
    c.is_flush = false
    return lines_of(c, quote.type, at + 16, whole - 16, said .. " " .. request_verb(quote))
  end
  return {said .. " " .. (ack.line and ack.line() or request_verb(quote) .. " " .. object_of(quote.type) .. " - -")}
end

-- What is known of an answer to a request of traffic control. An answer that is read for the first time is joined with its request.
local function answer_at(c, h, at, len, number, key)
  local it = {off = at + 16, quoted_at = at + 20}
  it.quote = header_at(c, it.quoted_at)
  local errno, asking = -u32(c, it.off) % 2 ^ 32, bytes_of(c, it.quoted_at, 16)
  it.whole = has(h.flags, NLM_F_CAPPED) and 16 or math.max(16, math.min(it.quote.length, len - 20))
  it.from = math.min(it.quoted_at + it.whole + -it.whole % 4, at + len)
  it.stop = has(h.flags, NLM_F_ACK_TLVS) and at + len or it.from
  it.ack = extack_of(c, it.from, it.stop, errno)
  local request = asked[asking]
  if request and not c.visited then
    it.ack.frame, requests[key], answers[request.key] = number, request, it.ack
    asked[asking] = nil
  end
  it.request = requests[key]
  if it.request then it.ack.line, it.ack.names = it.request.line, it.request.names and it.ack.place and it.request.names(it.ack.place) end
  return it
end

-- Shows an answer; returns what it says, and what of.
local function show_answer(c, h, it, tree)
  local ack, quote, at = it.ack, it.quote, it.quoted_at
  if wanted(c, tree, F.answer.field) then tree:add(F.answer.field, c.tvb(it.off, 4)):set_hidden() end
  if ack.errno > 0 and wanted(c, tree, F.refused.field) then tree:add(F.refused.field, c.tvb(it.off, 4)):set_hidden() end
  set(c, tree:add(F.error.field, c.tvb(it.off, 4), ack.errno), F.error[3], ack.name)
  if it.request then tree:add(F.request_in.field, it.request.frame):set_generated() end
  local item, header, about = tree:add(F.quoted.field, c.tvb(at, it.whole)), "", ""
  local words = show_netlink(c, quote, at, item, "quoted_")
  if it.whole > 16 then header, about = show_body(c, quote, at, it.whole - 16, item, ack.marks) end
  set(c, item, F.quoted[3], TYPES[quote.type] .. words .. header .. about)
  c.marks, c.request = ack.marks, at
  mark(c, at, item, is_action(quote.type) and "action_message" or "tc")
  c.marks = nil
  if it.stop > it.from then
    member(c, BODIES.extack, it.from, it.stop - it.from, c.seen and tree:add(c.tvb(it.from, it.stop - it.from), "Extended acknowledgement") or tree, nil, DEEPEST)
  end
  return ack.errno > 0 and ack.text or ack.said and "warning: " .. ack.text or "acknowledgement"
end

-- Shows a request, marked by the answer to it, or a message of the kernel; returns its words.
local function show_message(c, h, at, len, tree, answer, speech)
  if speech.is_request and wanted(c, tree, F.request.field) then tree:add(F.request.field, c.tvb(at, 16)):set_hidden() end
  if answer then tree:add(F.answer_in.field, answer.frame):set_generated() end
  if answer and answer.errno > 0 and wanted(c, tree, F.refusal.field) then
    tree:add(F.refusal.field, c.tvb(at, 16), answer.text):set_generated()
  end
  return show_body(c, h, at, len - 16, tree, answer and answer.marks)
end

-- A request as answers refer to it. One that is capped has neither its line nor its attributes.
local function keep(c, h, at, len, number, key, verb)
  local names
  local copy = {bytes = c.bytes, little = c.little, links = c.links, is_flush = c.is_flush}
  if len > 40 then
    local list, size = is_action(h.type) and "action_message" or "tc", is_action(h.type) and 4 or 20
    names = function(place) return names_to(copy, list, at + 16 + size, at + len, at + place) end
  end
  local function line() return lines_of(copy, h.type, at + 16, len - 16, verb)[1] end
  asked[bytes_of(c, at, 16)] = {frame = number, key = key, line = line, names = names}
end

-- True if all bytes of a message follow their forms, so that a tree which nobody sees has nothing to report.
local function is_sound(c, h, at, len)
  local size = is_action(h.type) and 4 or 20
  return len == h.length and len >= 16 + size and bytes_of(c, at + 17, 3) == "\0\0\0"
    and sound(c, size == 4 and BODIES.action or BODIES.tc, at + 16 + size, len - 16 - size, nil, DEEPEST)
end

-- The netlink message at a place: a tree of its own if it is traffic control, or answers it. Returns its lines for the list of packets.
local function show_one(c, h, at, len, root, pinfo, key)
  if h.type == RTM_NEWLINK and h.flags % 2 == 0 and not c.visited then learn(c, at + 16, at + len) end
  local is_answer = h.type == NLMSG_ERROR and len >= 36 and TYPES[u16(c, at + 24)]
  if not TYPES[h.type] and not is_answer then return nil end
  local speech, lines, it = spoken[key], nil, nil
  c.odd, c.is_flush = len < h.length, h.type == 49 and has(h.flags, NLM_F_ROOT)
  if is_answer then
    it = answer_at(c, h, at, len, pinfo.number, key)
    speech = {verb = it.ack.errno > 0 and "refused" or it.ack.said and "warned" or "ok"}
    if c.listed then lines = answer_line(c, it.ack, it.quote, it.quoted_at, it.whole) end
  else
    if not speech then
      speech = speech_of(h)
      spoken[key] = speech
    end
    if c.listed then lines = lines_of(c, h.type, at + 16, len - 16, speech.verb) end
    if speech.is_request and not c.visited then keep(c, h, at, len, pinfo.number, key, speech.verb) end
    for i, line in ipairs(lines or {}) do lines[i] = line .. (speech.by or "") end
  end
  local tree = root:add(tc, c.tvb(at, len))
  if wanted(c, tree, F.verb.field) then tree:add(F.verb.field, c.tvb(at, math.min(len, 16)), speech.verb):set_generated() end
  if c.seen or c.referenced or c.odd or not c.listed and (is_answer or not is_sound(c, h, at, len)) then
    if len < h.length then tree:add_proto_expert_info(X.cut, ("%d bytes of %.0f are there"):format(len, h.length)) end
    local words = show_netlink(c, h, at, tree)
    if is_answer then
      local said = show_answer(c, h, it, tree)
      if c.seen then tree:set_text("Linux Traffic Control: NLMSG_ERROR " .. said .. words) end
    else
      local first, second = show_message(c, h, at, len, tree, answers[key], speech)
      if c.seen then tree:set_text("Linux Traffic Control: " .. TYPES[h.type] .. words .. first .. second) end
      mark(c, at, tree, is_action(h.type) and "action_message" or "tc")
    end
    c.marks = nil
  end
  if is_answer and (it.ack.errno > 0 or it.ack.said) then tree:add_proto_expert_info(it.ack.expert, it.ack.text) end
  return lines or {}
end

-- A line that is one of several, shortened to its first words.
local function shortened(line)
  if #line <= 80 then return line end
  return line:sub(1, 77):gsub(" [^ ]*$", "") .. " .."
end

-- Shows the netlink messages of a packet. The byte order is the one in which the length of a message fits.
local this
local function show_packet(tvb, pinfo, root, at)
  local cols = pinfo.cols
  this = this or Dissector.get("tc")
  local c = {tvb = tvb, bytes = tvb:raw(), seen = root.visible, links = links, visited = pinfo.visited, headers = tc.prefs.headers, bits = tc.prefs.bits,
    listed = tostring(cols.protocol) ~= "(protocol)", referenced = root:referenced(this)}
  local lines, room, found, base_key = {}, #c.bytes - at, false, pinfo.number * 65536
  while room >= 16 do
    local first = c.bytes:sub(at + 1, at + 4)
    local big, little = unsigned(first), unsigned(first:reverse())
    c.little = little >= 16 and little <= room or not (big >= 16 and big <= room)
    local h = header_at(c, at)
    if h.length < 16 then break end
    local shown = show_one(c, h, at, math.min(h.length, room), root, pinfo, base_key + at)
    found = found or shown ~= nil
    for _, line in ipairs(shown or {}) do lines[#lines + 1] = line end
    at = at + h.length + -h.length % 4
    room = #c.bytes - at
  end
  if not found or not c.listed then return end
  cols.protocol = "TC"
  if #lines > 1 then
    for i = 1, math.min(#lines, 3) do lines[i] = shortened(lines[i]) end
  end
  cols.info = table.concat(lines, " | ", 1, math.min(#lines, 3)) .. (#lines > 3 and (" | and %d more"):format(#lines - 3) or "")
end

-- Where the messages of route netlink begin in a packet with a cooked header: of LINKTYPE_NETLINK and LINKTYPE_LINUX_SLL, or of SLL2.
local function messages_in(tvb)
  if tvb:len() < 32 then return nil end
  if tvb(2, 2):uint() == ARPHRD_NETLINK and tvb(14, 2):uint() == NETLINK_ROUTE then return 16 end
  return tvb(8, 2):uint() == ARPHRD_NETLINK and tvb(0, 2):uint() == NETLINK_ROUTE and 20 or nil
end

-- A post-dissector is called for every packet, which costs even where it does nothing. So it becomes one at the first packet of these link types: until then it
-- is in the place of their dissectors; it calls the one that was there, and puts them back.
local link_types, built_in = DissectorTable.get("wtap_encap"), {}
for _, number in ipairs({wtap_encaps.NETLINK or 158, wtap_encaps.SLL or 25, wtap_encaps.SLL2 or 210}) do built_in[number] = link_types:get_dissector(number) end
function tc.dissector(tvb, pinfo, root)
  if not built_in then
    local at = messages_in(tvb)
    return at and show_packet(tvb, pinfo, root, at)
  end
  local first = built_in[pinfo.match]
  for number, dissector in pairs(built_in) do link_types:add(number, dissector) end
  built_in = nil
  register_postdissector(tc)
  if first then pcall(first.call, first, tvb, pinfo, root) end
  return tvb:len()
end
for number in pairs(built_in) do link_types:add(number, tc) end
