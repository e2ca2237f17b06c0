// Writes messages with what no captured message has, in lines LABEL MODE HEX of model/labelled. Numbers, names and records are
// those of the headers of Linux 6.1; what is newer is defined below. The bytes of a value, and of all values of a message, differ in every place as
// far as 250 of them reach; flags, named numbers and texts are what they have to be.
#include <arpa/inet.h>
#include <linux/atm.h>
#include <linux/can.h>
#include <linux/gen_stats.h>
#include <linux/ife.h>
#include <linux/pkt_cls.h>
#include <linux/pkt_sched.h>
#include <linux/rtnetlink.h>
#include <linux/tc_act/tc_ct.h>
#include <linux/tc_act/tc_gact.h>
#include <linux/tc_act/tc_ife.h>
#include <linux/tc_act/tc_ipt.h>
#include <linux/tc_act/tc_mirred.h>
#include <linux/tc_act/tc_skbedit.h>
#include <linux/tc_act/tc_tunnel_key.h>
#include <linux/tc_act/tc_vlan.h>
#include <linux/tc_ematch/tc_em_cmp.h>
#include <linux/tc_ematch/tc_em_ipt.h>
#include <linux/tc_ematch/tc_em_meta.h>
#include <linux/tc_ematch/tc_em_nbyte.h>
#include <linux/tc_ematch/tc_em_text.h>
#include <stdint.h>
#include <stdio.h>
#include <string.h>
#include <sys/socket.h>

// of Linux 6.12: tc_ct.h, tc_mirred.h, tc_tunnel_key.h, pkt_cls.h, pkt_sched.h
enum { CT_HELPER_NAME = 16, CT_HELPER_FAMILY, CT_HELPER_PROTO };
enum { MIRRED_BLOCKID = 4, TUNNEL_KEY_NO_FRAG = 14 };
enum { FLOWER_L2_MISS = 106, FLOWER_KEY_CFM, FLOWER_KEY_SPI, FLOWER_KEY_SPI_MASK, FLOWER_KEY_ENC_FLAGS, FLOWER_KEY_ENC_FLAGS_MASK };
enum { ENC_OPTS_PFCP = 5, ENC_OPT_PFCP_TYPE = 1, ENC_OPT_PFCP_SEID, CFM_MD_LEVEL = 1, CFM_OPCODE };
enum { MQPRIO_TC_ENTRY = 5, MQPRIO_TC_ENTRY_INDEX = 1, MQPRIO_TC_ENTRY_FP, TAPRIO_TC_ENTRY_FP, FP_EXPRESS = 1, FP_PREEMPTIBLE };

// of Linux 7.3: pkt_sched.h
enum { FQ_OFFLOAD_HORIZON = 18, CAKE_STATS_ACTIVE_QUEUES = 17 };
enum { DUALPI2_LIMIT = 1, DUALPI2_MEMORY_LIMIT, DUALPI2_TARGET, DUALPI2_TUPDATE, DUALPI2_ALPHA, DUALPI2_BETA, DUALPI2_STEP_THRESH_PKTS, DUALPI2_STEP_THRESH_US };
enum { DUALPI2_MIN_QLEN_STEP = 9, DUALPI2_COUPLING, DUALPI2_DROP_OVERLOAD, DUALPI2_DROP_EARLY, DUALPI2_C_PROTECTION, DUALPI2_ECN_MASK, DUALPI2_SPLIT_GSO };
enum { DUALPI2_PAD = 16, ECN_MASK_L4S_ECT = 1, ECN_MASK_ANY_ECT = 3 };
struct dualpi2_xstats {
    __u32 prob, delay_c, delay_l, packets_in_c, packets_in_l, maxq, ecn_mark, step_marks;
    __s32 credit;
    __u32 memory_used, max_memory_used, memory_limit;
};
struct netem_xstats {
    __u64 delayed, dropped, corrupted, duplicated, reordered, ecn_marked, allocation_errors;
};

// ---- Bytes

static unsigned char bytes[1 << 16], last;
static size_t end;
static int families[] = {AF_UNIX, AF_BRIDGE, AF_INET6, AF_NETLINK, AF_PACKET, AF_MPLS}, family;

// A number of so many bytes, the next ones of 1 to 250.
static uint64_t next(size_t width) {
    uint64_t number = 0;
    while (width--)
        number = number << 8 | (last = last % 250 + 1);
    return number;
}

static void put(const void *data, size_t length) {
    memcpy(bytes + end, data, length);
    end += length;
}

static size_t begin(int type) {
    size_t at = end;
    put(&(struct nlattr){.nla_type = type}, sizeof(struct nlattr));
    return at;
}

static void finish(size_t at) {
    ((struct nlattr *)(bytes + at))->nla_len = end - at;
    end = (end + 3) & ~(size_t)3;
}

static void attribute(int type, const void *data, size_t length) {
    size_t at = begin(type);
    put(data, length);
    finish(at);
}

#define FIELD(name) (it.name = next(sizeof it.name))
// a record, its fields set one after the other
#define RECORD(record, ...)            \
    do {                               \
        record it;                     \
        memset(&it, 0, sizeof it);     \
        (void)(__VA_ARGS__);           \
        put(&it, sizeof it);           \
    } while (0)
#define IN(type, ...)                  \
    do {                               \
        size_t at_##type = begin(type); \
        __VA_ARGS__;                   \
        finish(at_##type);             \
    } while (0)
#define NEST(type, ...)                \
    do {                               \
        size_t nest_##type = begin(type | NLA_F_NESTED); \
        __VA_ARGS__;                   \
        finish(nest_##type);           \
    } while (0)

static void any(size_t length) {
    while (length--)
        put(&(unsigned char){next(1)}, 1);
}

static void some(int type, size_t length) {
    size_t at = begin(type);
    any(length);
    finish(at);
}

static void flag(int type) { attribute(type, "", 0); }
static void text(int type, const char *it) { attribute(type, it, strlen(it) + 1); }
static void n8(int type) { attribute(type, &(uint8_t){next(1)}, 1); }
static void n16(int type) { attribute(type, &(uint16_t){next(2)}, 2); }
static void n32(int type) { attribute(type, &(uint32_t){next(4)}, 4); }
static void n64(int type) { attribute(type, &(uint64_t){next(8)}, 8); }
static void be16(int type) { attribute(type, &(uint16_t){htons(next(2))}, 2); }
static void be32(int type) { attribute(type, &(uint32_t){htonl(next(4))}, 4); }
static void is8(int type, uint8_t number) { attribute(type, &number, 1); }
static void is16(int type, uint16_t number) { attribute(type, &number, 2); }
static void is32(int type, uint32_t number) { attribute(type, &number, 4); }

// ---- Messages

static void start(const char *label, const char *mode) {
    printf("header.%s %s ", label, mode);
    memset(bytes, 0, sizeof bytes);
    end = last = 0;
}

static void done(void) {
    for (size_t i = 0; i < end; i++)
        printf("%02x", bytes[i]);
    putchar('\n');
}

// a message of a kind, up to the attributes after TCA_KIND
static void of(const char *label, const char *kind) {
    start(label, "tc");
    RECORD(struct tcmsg, it.tcm_family = families[family++ % 6], FIELD(tcm_ifindex), FIELD(tcm_handle), FIELD(tcm_parent), FIELD(tcm_info));
    text(TCA_KIND, kind);
}

#define MESSAGE(kind, ...) do { of(kind, kind); __VA_ARGS__; done(); } while (0)

// an action message with one action of a kind
#define ACTION(kind, ...)                                  \
    do {                                                   \
        start("act_" kind, "action");                      \
        RECORD(struct tcamsg, it.tca_family = families[family++ % 6]); \
        IN(TCA_ROOT_TAB, IN(1, text(TCA_ACT_KIND, kind); NEST(TCA_ACT_OPTIONS, __VA_ARGS__))); \
        done();                                            \
    } while (0)

static void qdiscs(void) {
    MESSAGE("pie",
        IN(TCA_OPTIONS, n32(TCA_PIE_TARGET); n32(TCA_PIE_LIMIT); n32(TCA_PIE_TUPDATE); n32(TCA_PIE_ALPHA); n32(TCA_PIE_BETA); n32(TCA_PIE_ECN);
            n32(TCA_PIE_BYTEMODE); n32(TCA_PIE_DQ_RATE_ESTIMATOR));
        IN(TCA_XSTATS, RECORD(struct tc_pie_xstats, FIELD(prob), FIELD(delay), FIELD(avg_dq_rate), FIELD(dq_rate_estimating), FIELD(packets_in),
            FIELD(dropped), FIELD(overlimit), FIELD(maxq), FIELD(ecn_mark))));
    MESSAGE("htb",
        IN(TCA_OPTIONS, n64(TCA_HTB_RATE64); n64(TCA_HTB_CEIL64); flag(TCA_HTB_PAD); flag(TCA_HTB_OFFLOAD));
        IN(TCA_XSTATS, RECORD(struct tc_htb_xstats, FIELD(lends), FIELD(borrows), FIELD(giants), FIELD(tokens), FIELD(ctokens))));
    MESSAGE("tbf", IN(TCA_OPTIONS, n64(TCA_TBF_RATE64); n64(TCA_TBF_PRATE64); flag(TCA_TBF_PAD)));
    for (int mode = TC_MQPRIO_MODE_DCB; mode <= TC_MQPRIO_MODE_CHANNEL; mode++)
        MESSAGE("mqprio",
            IN(TCA_OPTIONS,
                RECORD(struct tc_mqprio_qopt, FIELD(num_tc), memcpy(it.prio_tc_map, "\1\2\3\4\5\6\7\10\11\12\13\14\15\16\17\20", 16), FIELD(hw));
                for (int i = 0; i < 16; i++) {
                    ((struct tc_mqprio_qopt *)(bytes + end - sizeof(struct tc_mqprio_qopt)))->count[i] = next(2);
                    ((struct tc_mqprio_qopt *)(bytes + end - sizeof(struct tc_mqprio_qopt)))->offset[i] = next(2);
                }
                put("\0", 2);
                is16(TCA_MQPRIO_MODE, mode); is16(TCA_MQPRIO_SHAPER, mode ? TC_MQPRIO_SHAPER_BW_RATE : TC_MQPRIO_SHAPER_DCB);
                NEST(TCA_MQPRIO_MIN_RATE64, n64(TCA_MQPRIO_MIN_RATE64); n64(TCA_MQPRIO_MIN_RATE64));
                NEST(TCA_MQPRIO_MAX_RATE64, n64(TCA_MQPRIO_MAX_RATE64); n64(TCA_MQPRIO_MAX_RATE64));
                NEST(MQPRIO_TC_ENTRY, n32(MQPRIO_TC_ENTRY_INDEX); is32(MQPRIO_TC_ENTRY_FP, mode ? FP_EXPRESS : FP_PREEMPTIBLE))));
    MESSAGE("netem",
        IN(TCA_OPTIONS,
            RECORD(struct tc_netem_qopt, FIELD(latency), FIELD(limit), FIELD(loss), FIELD(gap), FIELD(duplicate), FIELD(jitter));
            some(TCA_NETEM_DELAY_DIST, 12); n32(TCA_NETEM_ECN); n64(TCA_NETEM_RATE64);
            NEST(TCA_NETEM_LOSS, IN(NETEM_LOSS_GI, RECORD(struct tc_netem_gimodel, FIELD(p13), FIELD(p31), FIELD(p32), FIELD(p14), FIELD(p23))))));
    MESSAGE("cake",
        IN(TCA_OPTIONS,
            flag(TCA_CAKE_PAD); is32(TCA_CAKE_DIFFSERV_MODE, CAKE_DIFFSERV_PRECEDENCE); is32(TCA_CAKE_ATM, CAKE_ATM_PTM);
            is32(TCA_CAKE_FLOW_MODE, CAKE_FLOW_NONE); is32(TCA_CAKE_FLOW_MODE, CAKE_FLOW_SRC_IP); is32(TCA_CAKE_FLOW_MODE, CAKE_FLOW_DST_IP);
            is32(TCA_CAKE_FLOW_MODE, CAKE_FLOW_HOSTS); is32(TCA_CAKE_FLOW_MODE, CAKE_FLOW_FLOWS); is32(TCA_CAKE_FLOW_MODE, CAKE_FLOW_DUAL_SRC);
            is32(TCA_CAKE_FLOW_MODE, CAKE_FLOW_DUAL_DST); is32(TCA_CAKE_ACK_FILTER, CAKE_ACK_FILTER); is32(TCA_CAKE_ACK_FILTER, CAKE_ACK_AGGRESSIVE));
        IN(TCA_STATS2, IN(TCA_STATS_APP,
            flag(TCA_CAKE_STATS_PAD); n32(TCA_CAKE_STATS_DROP_NEXT_US); n32(TCA_CAKE_STATS_BLUE_TIMER_US);
            IN(TCA_CAKE_STATS_TIN_STATS, IN(1,
                n64(TCA_CAKE_TIN_STATS_DROPPED_BYTES64); n64(TCA_CAKE_TIN_STATS_ACKS_DROPPED_BYTES64); n64(TCA_CAKE_TIN_STATS_ECN_MARKED_BYTES64);
                n32(TCA_CAKE_TIN_STATS_BACKLOG_PACKETS))))));
    MESSAGE("cbq",
        IN(TCA_OPTIONS,
            IN(TCA_CBQ_LSSOPT, RECORD(struct tc_cbq_lssopt, FIELD(change), FIELD(flags), FIELD(ewma_log), FIELD(level), FIELD(maxidle), FIELD(minidle),
                FIELD(offtime), FIELD(avpkt)));
            IN(TCA_CBQ_WRROPT, RECORD(struct tc_cbq_wrropt, FIELD(flags), FIELD(priority), FIELD(cpriority), FIELD(allot), FIELD(weight)));
            IN(TCA_CBQ_FOPT, RECORD(struct tc_cbq_fopt, FIELD(split), FIELD(defmap), FIELD(defchange)));
            IN(TCA_CBQ_OVL_STRATEGY, RECORD(struct tc_cbq_ovl, FIELD(strategy), FIELD(priority2), FIELD(penalty)));
            IN(TCA_CBQ_RATE, RECORD(struct tc_ratespec, FIELD(cell_log), it.linklayer = TC_LINKLAYER_ATM, FIELD(overhead), FIELD(cell_align), FIELD(mpu),
                FIELD(rate)));
            some(TCA_CBQ_RTAB, 16);
            IN(TCA_CBQ_POLICE, RECORD(struct tc_cbq_police, FIELD(police))));
        IN(TCA_XSTATS, RECORD(struct tc_cbq_xstats, FIELD(borrows), FIELD(overactions), FIELD(avgidle), FIELD(undertime))));
    MESSAGE("choke", IN(TCA_OPTIONS, some(TCA_CHOKE_STAB, 16)));
    MESSAGE("drr", IN(TCA_OPTIONS, n32(TCA_DRR_QUANTUM)); IN(TCA_XSTATS, RECORD(struct tc_drr_stats, FIELD(deficit))));
    MESSAGE("dsmark",
        IN(TCA_OPTIONS, n16(TCA_DSMARK_INDICES); n16(TCA_DSMARK_DEFAULT_INDEX); flag(TCA_DSMARK_SET_TC_INDEX); n8(TCA_DSMARK_MASK);
            n8(TCA_DSMARK_VALUE)));
    MESSAGE("ets", NEST(TCA_OPTIONS, n8(TCA_ETS_PRIOMAP_BAND)));
    MESSAGE("fq", IN(TCA_OPTIONS, n32(TCA_FQ_FLOW_DEFAULT_RATE)));
    MESSAGE("gred", IN(TCA_OPTIONS, IN(TCA_GRED_VQ_LIST, IN(TCA_GRED_VQ_ENTRY, flag(TCA_GRED_VQ_PAD); n32(TCA_GRED_VQ_STAT_OTHER)))));
    MESSAGE("prio",
        IN(TCA_OPTIONS, RECORD(struct tc_prio_qopt, FIELD(bands), memcpy(it.priomap, "\1\2\3\4\5\6\7\10\11\12\13\14\15\16\17\20", 16));
            IN(TCA_OPTIONS, )));
    MESSAGE("red", IN(TCA_OPTIONS, n32(TCA_RED_EARLY_DROP_BLOCK); n32(TCA_RED_MARK_BLOCK)));
    MESSAGE("sfq",
        IN(TCA_OPTIONS, RECORD(struct tc_sfq_qopt, FIELD(quantum), FIELD(perturb_period), FIELD(limit), FIELD(divisor), FIELD(flows)));
        IN(TCA_XSTATS, RECORD(struct tc_sfq_xstats, FIELD(allot))));
    MESSAGE("taprio",
        IN(TCA_OPTIONS,
            IN(TCA_TAPRIO_ATTR_SCHED_SINGLE_ENTRY, n32(TCA_TAPRIO_SCHED_ENTRY_INDEX); is8(TCA_TAPRIO_SCHED_ENTRY_CMD, TC_TAPRIO_CMD_SET_AND_HOLD);
                is8(TCA_TAPRIO_SCHED_ENTRY_CMD, TC_TAPRIO_CMD_SET_AND_RELEASE));
            n32(TCA_TAPRIO_ATTR_TXTIME_DELAY);
            NEST(TCA_TAPRIO_ATTR_TC_ENTRY, n32(TCA_TAPRIO_TC_ENTRY_INDEX); is32(TAPRIO_TC_ENTRY_FP, FP_PREEMPTIBLE))));
    for (int action = TCQ_PLUG_BUFFER; action <= TCQ_PLUG_LIMIT; action++)
        MESSAGE("plug", IN(TCA_OPTIONS, RECORD(struct tc_plug_qopt, it.action = action, FIELD(limit))));
    MESSAGE("atm",
        IN(TCA_OPTIONS, n32(TCA_ATM_FD); some(TCA_ATM_PTR, 8); some(TCA_ATM_HDR, 8); n32(TCA_ATM_EXCESS); some(TCA_ATM_ADDR, sizeof(struct sockaddr_atmpvc));
            n32(TCA_ATM_STATE)));
    MESSAGE("noqueue",
        IN(TCA_RATE, RECORD(struct tc_estimator, FIELD(interval), FIELD(ewma_log)));
        n32(TCA_FCNT); n32(TCA_INGRESS_BLOCK); n32(TCA_EGRESS_BLOCK);
        IN(TCA_DUMP_FLAGS, RECORD(struct nla_bitfield32, FIELD(value), FIELD(selector)));
        IN(TCA_STAB,
            IN(TCA_STAB_BASE, RECORD(struct tc_sizespec, FIELD(cell_log), FIELD(size_log), FIELD(cell_align), FIELD(overhead), it.linklayer = TC_LINKLAYER_ATM,
                FIELD(mpu), FIELD(mtu), FIELD(tsize)));
            some(TCA_STAB_DATA, 12));
        IN(TCA_STATS2, IN(TCA_STATS_RATE_EST64, RECORD(struct gnet_stats_rate_est64, FIELD(bps), FIELD(pps))); n64(TCA_STATS_PKT64)));
}

// ---- Filters

// a match of a kind, with its header
#define MATCH(number, match, ...) IN(number, RECORD(struct tcf_ematch_hdr, it.kind = match, FIELD(flags)); __VA_ARGS__)
#define POLICE(type) IN(type, n64(TCA_POLICE_RATE64); n64(TCA_POLICE_PEAKRATE64))
#define GACT(type) \
    IN(type, IN(1, text(TCA_ACT_KIND, "gact"); NEST(TCA_ACT_OPTIONS, IN(TCA_GACT_PARMS, RECORD(struct tc_gact, FIELD(index), FIELD(capab), \
        it.action = TC_ACT_TRAP, FIELD(refcnt), FIELD(bindcnt))))))
#define PINFO(type)                                                                                                                             \
    IN(type, RECORD(struct tc_rsvp_pinfo, FIELD(dpi.key), FIELD(dpi.mask), FIELD(dpi.offset), FIELD(spi.key), FIELD(spi.mask), FIELD(spi.offset), \
        FIELD(protocol), FIELD(tunnelid), FIELD(tunnelhdr)))
#define ENC_OPTS(type)                                                                                                                          \
    NEST(type,                                                                                                                                  \
        NEST(TCA_FLOWER_KEY_ENC_OPTS_GENEVE, be16(TCA_FLOWER_KEY_ENC_OPT_GENEVE_CLASS); n8(TCA_FLOWER_KEY_ENC_OPT_GENEVE_TYPE);                  \
            some(TCA_FLOWER_KEY_ENC_OPT_GENEVE_DATA, 8));                                                                                       \
        NEST(TCA_FLOWER_KEY_ENC_OPTS_VXLAN, n32(TCA_FLOWER_KEY_ENC_OPT_VXLAN_GBP));                                                              \
        NEST(TCA_FLOWER_KEY_ENC_OPTS_ERSPAN, n8(TCA_FLOWER_KEY_ENC_OPT_ERSPAN_VER); be32(TCA_FLOWER_KEY_ENC_OPT_ERSPAN_INDEX);                   \
            n8(TCA_FLOWER_KEY_ENC_OPT_ERSPAN_DIR); n8(TCA_FLOWER_KEY_ENC_OPT_ERSPAN_HWID));                                                      \
        NEST(TCA_FLOWER_KEY_ENC_OPTS_GTP, n8(TCA_FLOWER_KEY_ENC_OPT_GTP_PDU_TYPE); n8(TCA_FLOWER_KEY_ENC_OPT_GTP_QFI));                          \
        NEST(ENC_OPTS_PFCP, n8(ENC_OPT_PFCP_TYPE); some(ENC_OPT_PFCP_SEID, 8)))

static void filters(void) {
    MESSAGE("basic",
        IN(TCA_OPTIONS,
            POLICE(TCA_BASIC_POLICE);
            flag(TCA_BASIC_PAD);
            IN(TCA_BASIC_EMATCHES,
                IN(TCA_EMATCH_TREE_HDR, RECORD(struct tcf_ematch_tree_hdr, FIELD(nmatches), FIELD(progid)));
                IN(TCA_EMATCH_TREE_LIST,
                    MATCH(1, TCF_EM_CONTAINER, any(4));
                    MATCH(2, TCF_EM_CMP, RECORD(struct tcf_em_cmp, FIELD(val), FIELD(mask), FIELD(off), it.align = TCF_EM_ALIGN_U16,
                        it.flags = TCF_EM_CMP_TRANS, it.layer = TCF_LAYER_TRANSPORT, it.opnd = TCF_EM_OPND_LT));
                    MATCH(3, TCF_EM_NBYTE, RECORD(struct tcf_em_nbyte, FIELD(off), it.len = 6, it.layer = TCF_LAYER_NETWORK); any(6));
                    for (int op = TCF_EM_OPND_EQ; op <= TCF_EM_OPND_LT; op++)
                        MATCH(4, TCF_EM_META,
                            IN(TCA_EM_META_HDR, RECORD(struct tcf_meta_hdr, FIELD(left.kind), FIELD(left.shift), it.left.op = op, FIELD(right.kind),
                                FIELD(right.shift), it.right.op = (op + 1) % 3));
                            some(TCA_EM_META_LVALUE, 4); some(TCA_EM_META_RVALUE, 8));
                    MATCH(5, TCF_EM_TEXT, RECORD(struct tcf_em_text, strcpy(it.algo, "kmp"), FIELD(from_offset), FIELD(to_offset), FIELD(pattern_len),
                        it.from_layer = TCF_LAYER_NETWORK, it.to_layer = TCF_LAYER_TRANSPORT); any(6));
                    MATCH(6, TCF_EM_CANID, RECORD(struct can_filter, FIELD(can_id), FIELD(can_mask)));
                    MATCH(7, TCF_EM_IPSET, any(4));
                    MATCH(8, TCF_EM_IPT, n32(TCA_EM_IPT_HOOK); text(TCA_EM_IPT_MATCH_NAME, "policy"); n8(TCA_EM_IPT_MATCH_REVISION);
                        n8(TCA_EM_IPT_NFPROTO); some(TCA_EM_IPT_MATCH_DATA, 8))))));
    MESSAGE("bpf", IN(TCA_OPTIONS, POLICE(TCA_BPF_POLICE)));
    MESSAGE("cgroup", IN(TCA_OPTIONS, POLICE(TCA_CGROUP_POLICE)));
    MESSAGE("flow",
        IN(TCA_OPTIONS, is32(TCA_FLOW_MODE, FLOW_MODE_MAP); n32(TCA_FLOW_RSHIFT); n32(TCA_FLOW_ADDEND); n32(TCA_FLOW_MASK); n32(TCA_FLOW_XOR);
            POLICE(TCA_FLOW_POLICE); n32(TCA_FLOW_PERTURB)));
    MESSAGE("fw", IN(TCA_OPTIONS, POLICE(TCA_FW_POLICE); text(TCA_FW_INDEV, "eth0")));
    MESSAGE("route", IN(TCA_OPTIONS, n32(TCA_ROUTE4_IIF); POLICE(TCA_ROUTE4_POLICE)));
    MESSAGE("rsvp",
        IN(TCA_OPTIONS, n32(TCA_RSVP_CLASSID); some(TCA_RSVP_DST, 4); some(TCA_RSVP_SRC, 4); PINFO(TCA_RSVP_PINFO); POLICE(TCA_RSVP_POLICE);
            GACT(TCA_RSVP_ACT)));
    MESSAGE("rsvp6",
        IN(TCA_OPTIONS, n32(TCA_RSVP_CLASSID); some(TCA_RSVP_DST, 16); some(TCA_RSVP_SRC, 16); PINFO(TCA_RSVP_PINFO); POLICE(TCA_RSVP_POLICE);
            GACT(TCA_RSVP_ACT)));
    MESSAGE("tcindex",
        IN(TCA_OPTIONS, n32(TCA_TCINDEX_HASH); n16(TCA_TCINDEX_MASK); n32(TCA_TCINDEX_SHIFT); n32(TCA_TCINDEX_FALL_THROUGH); n32(TCA_TCINDEX_CLASSID);
            POLICE(TCA_TCINDEX_POLICE); GACT(TCA_TCINDEX_ACT)));
    MESSAGE("flower",
        IN(TCA_OPTIONS,
            some(TCA_FLOWER_KEY_IPV6_SRC, 16); some(TCA_FLOWER_KEY_IPV6_SRC_MASK, 16); some(TCA_FLOWER_KEY_IPV6_DST, 16);
            some(TCA_FLOWER_KEY_IPV6_DST_MASK, 16); n16(TCA_FLOWER_KEY_VLAN_ID); n8(TCA_FLOWER_KEY_VLAN_PRIO); be16(TCA_FLOWER_KEY_VLAN_ETH_TYPE);
            be16(TCA_FLOWER_KEY_ENC_UDP_SRC_PORT); be16(TCA_FLOWER_KEY_ENC_UDP_SRC_PORT_MASK);
            n8(TCA_FLOWER_KEY_ICMPV4_CODE); n8(TCA_FLOWER_KEY_ICMPV4_CODE_MASK); n8(TCA_FLOWER_KEY_ICMPV4_TYPE); n8(TCA_FLOWER_KEY_ICMPV4_TYPE_MASK);
            n8(TCA_FLOWER_KEY_ICMPV6_CODE); n8(TCA_FLOWER_KEY_ICMPV6_CODE_MASK); n8(TCA_FLOWER_KEY_ICMPV6_TYPE); n8(TCA_FLOWER_KEY_ICMPV6_TYPE_MASK);
            some(TCA_FLOWER_KEY_ARP_SIP, 4); some(TCA_FLOWER_KEY_ARP_SIP_MASK, 4); some(TCA_FLOWER_KEY_ARP_TIP, 4); some(TCA_FLOWER_KEY_ARP_TIP_MASK, 4);
            n8(TCA_FLOWER_KEY_ARP_OP); n8(TCA_FLOWER_KEY_ARP_OP_MASK);
            some(TCA_FLOWER_KEY_ARP_SHA, 6); some(TCA_FLOWER_KEY_ARP_SHA_MASK, 6); some(TCA_FLOWER_KEY_ARP_THA, 6); some(TCA_FLOWER_KEY_ARP_THA_MASK, 6);
            n8(TCA_FLOWER_KEY_MPLS_TTL); n8(TCA_FLOWER_KEY_MPLS_TC); n32(TCA_FLOWER_KEY_MPLS_LABEL);
            n16(TCA_FLOWER_KEY_CVLAN_ID); n8(TCA_FLOWER_KEY_CVLAN_PRIO); be16(TCA_FLOWER_KEY_CVLAN_ETH_TYPE));
        IN(TCA_OPTIONS,
            ENC_OPTS(TCA_FLOWER_KEY_ENC_OPTS); ENC_OPTS(TCA_FLOWER_KEY_ENC_OPTS_MASK);
            some(TCA_FLOWER_KEY_CT_LABELS, 16); some(TCA_FLOWER_KEY_CT_LABELS_MASK, 16); n32(TCA_FLOWER_KEY_HASH); n32(TCA_FLOWER_KEY_HASH_MASK);
            n8(TCA_FLOWER_KEY_NUM_OF_VLANS); be32(TCA_FLOWER_KEY_L2TPV3_SID); n8(FLOWER_L2_MISS);
            NEST(FLOWER_KEY_CFM, n8(CFM_MD_LEVEL); n8(CFM_OPCODE));
            be32(FLOWER_KEY_SPI); be32(FLOWER_KEY_SPI_MASK); be32(FLOWER_KEY_ENC_FLAGS); be32(FLOWER_KEY_ENC_FLAGS_MASK)));
}

// ---- Actions

#define IPT                                                                                                           \
    text(TCA_IPT_TABLE, "mangle"); n32(TCA_IPT_HOOK); n32(TCA_IPT_INDEX);                                             \
    IN(TCA_IPT_CNT, RECORD(struct tc_cnt, FIELD(refcnt), FIELD(bindcnt)));                                            \
    IN(TCA_IPT_TM, RECORD(struct tcf_t, FIELD(install), FIELD(lastuse), FIELD(expires), FIELD(firstuse)));            \
    some(TCA_IPT_TARG, 8); flag(TCA_IPT_PAD)

static void actions(void) {
    ACTION("ct", text(CT_HELPER_NAME, "ftp"); n8(CT_HELPER_FAMILY); n8(CT_HELPER_PROTO));
    ACTION("ife", IN(TCA_IFE_METALST, n32(IFE_META_HASHID); n16(IFE_META_QMAP); flag(IFE_META_SKBMARK)));
    ACTION("ipt", IPT);
    ACTION("xt", IPT);
    ACTION("mirred", n32(MIRRED_BLOCKID));
    ACTION("skbedit", n16(TCA_SKBEDIT_QUEUE_MAPPING_MAX));
    ACTION("tunnel_key",
        flag(TUNNEL_KEY_NO_FRAG);
        IN(TCA_TUNNEL_KEY_ENC_OPTS,
            NEST(TCA_TUNNEL_KEY_ENC_OPTS_ERSPAN, n8(TCA_TUNNEL_KEY_ENC_OPT_ERSPAN_VER); be32(TCA_TUNNEL_KEY_ENC_OPT_ERSPAN_INDEX);
                n8(TCA_TUNNEL_KEY_ENC_OPT_ERSPAN_DIR); n8(TCA_TUNNEL_KEY_ENC_OPT_ERSPAN_HWID))));
    for (int what = TCA_VLAN_ACT_POP_ETH; what <= TCA_VLAN_ACT_PUSH_ETH; what++)
        ACTION("vlan",
            IN(TCA_VLAN_PARMS, RECORD(struct tc_vlan, FIELD(index), FIELD(capab), it.action = TC_ACT_QUEUED + what - TCA_VLAN_ACT_POP_ETH, FIELD(refcnt),
                FIELD(bindcnt), it.v_action = what));
            some(TCA_VLAN_PUSH_ETH_DST, 6); some(TCA_VLAN_PUSH_ETH_SRC, 6));
    for (int type = PGACT_NONE; type <= PGACT_NETRAND; type++)
        ACTION("gact",
            IN(TCA_GACT_PARMS, RECORD(struct tc_gact, FIELD(index), FIELD(capab), it.action = TC_ACT_REDIRECT + type, FIELD(refcnt), FIELD(bindcnt)));
            IN(TCA_GACT_PROB, RECORD(struct tc_gact_p, it.ptype = type, FIELD(pval), it.paction = TC_ACT_REPEAT)));
}

// ---- What is newer than Linux 6.12

static void newer(void) {
    MESSAGE("fq", IN(TCA_OPTIONS, n32(FQ_OFFLOAD_HORIZON)));
    MESSAGE("cake", IN(TCA_STATS2, IN(TCA_STATS_APP, n32(CAKE_STATS_ACTIVE_QUEUES))));
    MESSAGE("cake_mq", IN(TCA_OPTIONS, n64(TCA_CAKE_BASE_RATE64); is32(TCA_CAKE_DIFFSERV_MODE, CAKE_DIFFSERV_BESTEFFORT); n32(TCA_CAKE_MEMORY)));
    MESSAGE("netem",
        IN(TCA_XSTATS, RECORD(struct netem_xstats, FIELD(delayed), FIELD(dropped), FIELD(corrupted), FIELD(duplicated), FIELD(reordered), FIELD(ecn_marked),
            FIELD(allocation_errors))));
    for (int mask = ECN_MASK_L4S_ECT; mask <= ECN_MASK_ANY_ECT; mask++)
        MESSAGE("dualpi2",
            IN(TCA_OPTIONS,
                n32(DUALPI2_LIMIT); n32(DUALPI2_MEMORY_LIMIT); n32(DUALPI2_TARGET); n32(DUALPI2_TUPDATE); n32(DUALPI2_ALPHA); n32(DUALPI2_BETA);
                n32(DUALPI2_STEP_THRESH_PKTS); n32(DUALPI2_STEP_THRESH_US); n32(DUALPI2_MIN_QLEN_STEP); n8(DUALPI2_COUPLING);
                is8(DUALPI2_DROP_OVERLOAD, mask % 2); is8(DUALPI2_DROP_EARLY, mask % 2); n8(DUALPI2_C_PROTECTION); is8(DUALPI2_ECN_MASK, mask);
                is8(DUALPI2_SPLIT_GSO, mask % 2); flag(DUALPI2_PAD));
            IN(TCA_XSTATS, RECORD(struct dualpi2_xstats, FIELD(prob), FIELD(delay_c), FIELD(delay_l), FIELD(packets_in_c), FIELD(packets_in_l), FIELD(maxq),
                FIELD(ecn_mark), FIELD(step_marks), FIELD(credit), FIELD(memory_used), FIELD(max_memory_used), FIELD(memory_limit))));
}

int main(void) {
    qdiscs();
    filters();
    actions();
    newer();
    return 0;
}
