// The first process of a guest: it sends the requests of $DIR/script over route netlink, writes to $DIR/answers what
// comes back, and powers the guest off. Each try of the script gets a process and a network namespace of its own. The
// kernel's modules are below $MODULES, its tc is that of $IPROUTE2 if that is set; time limits are $SLOWNESS times as
// long. In qemu it begins in an initial file system, and first goes on to the machine's files.
//
// script:   try NAME                    what follows up to the next try belongs to NAME
//           link NUMBER [QUEUES]        makes the dummy link dNUMBER, which stays down, so that no packet is counted
//           send TYPE FLAGS PAYLOAD     a request: message type and flags in decimal, the payload after nlmsghdr in hex
//           dump NUMBER,NUMBER..        asks for all that the links dNUMBER have, and for all actions (see `dump_link`)
//           into FILE                   what comes back from here on is written to FILE too, as a netlink stream
//           run COMMAND                 runs a command by the shell
//           watch FILE                  writes all messages of route netlink, in both directions, that processes of the try exchange with
//                                       the kernel from here on
//           unwatch                     the end of that
//           call FILE COMMAND           runs a program without a shell, by its path; its output goes to FILE, `-` for none
//           kill FILE PART COMMAND      runs a program, and kills it before it sends a request that makes, changes or deletes something: the
//                                       one at this part of those in a file that `watch` wrote
//           spoil FILE PART COMMAND     the same, but that request is sent with a kind or a type that no kernel has
//           stop FILE PART COMMAND      the same, but that request is sent, and SIGTERM comes meanwhile
// answers:  try NAME
//           got TYPE PAYLOAD            a message that came back, masked (see `mask`)
//           ack ERRNO OFFSET SENTENCE   how the request ended: offset is that of the attribute at fault in the
//                                       payload, or -
//           end ERRNO                   the end of a dump
//           said LINE                   a line that a command wrote, to either stream
//           status NUMBER               how the command ended
//           died STATUS                 the process of the try ended otherwise than by exit
// The last line is `finished`. One eBPF program, which lets every packet through, is open as descriptor 100 in all
// tries.
#define _GNU_SOURCE
#include <errno.h>
#include <fcntl.h>
#include <linux/bpf.h>
#include <linux/if.h>
#include <linux/if_ether.h>
#include <linux/if_packet.h>
#include <linux/netlink.h>
#include <linux/pkt_cls.h>
#include <linux/rtnetlink.h>
#include <arpa/inet.h>
#include <sched.h>
#include <signal.h>
#include <stdio.h>
#include <stdlib.h>
#include <string.h>
#include <sys/mount.h>
#include <sys/ptrace.h>
#include <sys/reboot.h>
#include <sys/socket.h>
#include <sys/syscall.h>
#include <sys/time.h>
#include <sys/user.h>
#include <sys/utsname.h>
#include <sys/wait.h>
#include <unistd.h>

enum { PROGRAM = 100, ANSWERS = 101 };

static FILE *answers;

// ---- Modules

static char modules[512];
static int slowness = 1;

static void insert(const char *folder, const char *file) {
    char path[1024];

    snprintf(path, sizeof path, "%s/%s", folder, file);
    int fd = open(path, O_RDONLY | O_CLOEXEC);
    if (fd < 0)
        return;
    syscall(SYS_finit_module, fd, "", 0);
    close(fd);
}

// Loads each module whose path starts as one of `wanted`, what it depends on first. A line of modules.dep is
// `FILE: FILE FILE ..`, the dependencies from the last to be loaded to the first. A module that is already there
// fails quietly.
static void load_each(const char *const *wanted, size_t wanted_count) {
    char path[1024], *line = NULL;
    size_t room = 0;

    snprintf(path, sizeof path, "%s/modules.dep", modules);
    FILE *list = fopen(path, "r");
    while (list && getline(&line, &room, list) > 0) {
        char *words[64], *word;
        int count = 0, is_wanted = 0;
        for (size_t i = 0; i < wanted_count; i++)
            is_wanted |= !strncmp(line, wanted[i], strlen(wanted[i]));
        for (word = strtok(line, ": \n"); is_wanted && word && count < 64; word = strtok(NULL, ": \n"))
            words[count++] = word;
        while (count)
            insert(modules, words[--count]);
    }
    free(line);
    if (list)
        fclose(list);
}

// The checksum that libcrc32c, and by it csum, ct, connmark and ctinfo need first isn't among their dependencies.
static void load_modules(void) {
    static const char *const first[] = {"kernel/crypto/crc32c"};
    static const char *const wanted[] = {"kernel/drivers/net/dummy.ko", "kernel/drivers/net/ifb.ko", "kernel/drivers/net/nlmon.ko",
                                         "kernel/drivers/net/veth.ko",  "kernel/drivers/net/netdevsim/", "kernel/net/sched/sch_",
                                         "kernel/net/sched/cls_",       "kernel/net/sched/act_",     "kernel/net/sched/em_"};

    load_each(first, sizeof first / sizeof *first);
    load_each(wanted, sizeof wanted / sizeof *wanted);
}

// Nothing looks for modules from here on: those that a guest may need are there, and for each kind that a kernel lacks it would start a program.
static void load_no_more(void) {
    int fd = open("/proc/sys/kernel/modprobe", O_WRONLY | O_CLOEXEC);

    if (fd < 0 || write(fd, "\n", 1) != 1)
        fputs("guest: modules are still looked for\n", stderr);
    close(fd);
}

// What shells look for in /dev.
static void link_descriptors(void) {
    if ((symlink("/proc/self/fd", "/dev/fd") || symlink("fd/0", "/dev/stdin") || symlink("fd/1", "/dev/stdout") || symlink("fd/2", "/dev/stderr")) && errno != EEXIST)
        fprintf(stderr, "guest: no /dev/fd: %s\n", strerror(errno));
}

// Programs are the machine's, but for those of the folder $IPROUTE2.
static void set_path(void) {
    const char *own = getenv("IPROUTE2");
    char text[1024];

    snprintf(text, sizeof text, "%s%s%s%s/usr/sbin:/usr/bin:/sbin:/bin", own ? own : "", own ? "/sbin:" : "", own ? own : "", own ? "/usr/sbin:" : "");
    setenv("PATH", text, 1);
}

// ---- The machine's files, in qemu

static void share(const char *tag, const char *place, const char *how) {
    char options[200];

    snprintf(options, sizeof options, "trans=virtio,version=9p2000.L,msize=512000,cache=%s", how);
    if (mount(tag, place, "9p", 0, options))
        fprintf(stderr, "guest: %s isn't mounted: %s\n", tag, strerror(errno));
}

// Loads the modules of the initial file system, mounts the machine's files as the guest's, and the folder below which $DIR is, where others read what is written.
static void go_to_machine(const char *out) {
    char number[8];

    for (int i = 0; i < 100; i++) {
        snprintf(number, sizeof number, "%02d", i);
        insert("/first", number);
    }
    share("machine", "/host", "loose");
    if (chdir("/host") || mount(".", "/", NULL, MS_MOVE, NULL) || chroot(".") || chdir("/"))
        fprintf(stderr, "guest: no machine's files: %s\n", strerror(errno));
    share("out", out, "mmap");
    mount("devtmpfs", "/dev", "devtmpfs", 0, NULL);
    mount("sysfs", "/sys", "sysfs", 0, NULL);
}

// ---- What differs from one run to the next is set to 0 before it is written

// Returns the attribute at `p`, of at most `left` bytes, or NULL if there is none.
static struct nlattr *attribute(unsigned char *p, int left) {
    struct nlattr *a = (struct nlattr *)p;

    return left >= NLA_HDRLEN && a->nla_len >= NLA_HDRLEN && a->nla_len <= left ? a : NULL;
}

#define FOR_EACH(a, p, n)                                                                                          \
    for (struct nlattr * a; (a = attribute(p, n)); n -= NLA_ALIGN(a->nla_len), p += NLA_ALIGN(a->nla_len))
#define TYPE(a) ((a)->nla_type & NLA_TYPE_MASK)
#define PAYLOAD(a) ((unsigned char *)(a) + NLA_HDRLEN)
#define LENGTH(a) ((a)->nla_len - NLA_HDRLEN)

// The times of an action are the attribute of 32 bytes among its options (`struct tcf_t`), whatever its kind.
static void mask_times(unsigned char *p, int n) {
    FOR_EACH(option, p, n)
        if (LENGTH(option) == 32)
            memset(PAYLOAD(option), 0, 32);
}

static void mask_actions(unsigned char *p, int n) {
    FOR_EACH(action, p, n) {
        unsigned char *q = PAYLOAD(action);
        int left = LENGTH(action);
        FOR_EACH(a, q, left)
            if (TYPE(a) == TCA_ACT_OPTIONS)
                mask_times(PAYLOAD(a), LENGTH(a));
    }
}

// The options of a filter that hold actions, and the options of an action of the kind police alone.
static void mask_filter(unsigned char *p, int n) {
    static const struct {
        const char *kind;
        int actions, police;
    } filters[] = {{"flower", TCA_FLOWER_ACT, 0},
                   {"u32", TCA_U32_ACT, TCA_U32_POLICE},
                   {"matchall", TCA_MATCHALL_ACT, 0},
                   {"bpf", TCA_BPF_ACT, TCA_BPF_POLICE},
                   {"basic", TCA_BASIC_ACT, TCA_BASIC_POLICE}};
    int actions = 0, police = 0;

    FOR_EACH(a, p, n) {
        unsigned char *q = PAYLOAD(a);
        int left = LENGTH(a);
        if (TYPE(a) == TCA_KIND)
            for (size_t i = 0; i < sizeof filters / sizeof *filters; i++)
                if (!strncmp((char *)q, filters[i].kind, left))
                    actions = filters[i].actions, police = filters[i].police;
        if (TYPE(a) != TCA_OPTIONS)
            continue;
        FOR_EACH(option, q, left) {
            if (actions && TYPE(option) == actions)
                mask_actions(PAYLOAD(option), LENGTH(option));
            if (police && TYPE(option) == police)
                mask_times(PAYLOAD(option), LENGTH(option));
        }
    }
}

// Handles that the kernel chose for a qdisc are 8000: and more, counted over all namespaces.
static void mask_handle(__u32 *handle) {
    if (*handle >> 16 >= 0x8000 && *handle >> 16 < 0xffff)
        *handle = 0;
}

static void mask(int type, unsigned char *p, int n) {
    struct tcmsg *header = (struct tcmsg *)p;

    if (type >= RTM_NEWACTION && type <= RTM_GETACTION && n >= (int)sizeof(struct tcamsg)) {
        p += sizeof(struct tcamsg), n -= sizeof(struct tcamsg);
        FOR_EACH(a, p, n)
            if (TYPE(a) == TCA_ACT_TAB)
                mask_actions(PAYLOAD(a), LENGTH(a));
    } else if (n >= (int)sizeof *header) {
        mask_handle(&header->tcm_parent);
        if (type >= RTM_NEWQDISC && type <= RTM_GETQDISC)
            mask_handle(&header->tcm_handle);
        mask_filter(p + sizeof *header, n - sizeof *header);
    }
}

// ---- Requests

static int netlink;
static unsigned char request[1 << 17], reply[1 << 19];
static FILE *stream; // that of `into`

static void write_ack(struct nlmsghdr *h) {
    struct nlmsgerr *e = NLMSG_DATA(h);
    unsigned char *p = (unsigned char *)(e + 1);
    int left = h->nlmsg_len - NLMSG_LENGTH(sizeof *e);
    const char *sentence = "";
    long offset = -1;

    if (h->nlmsg_flags & NLM_F_ACK_TLVS)
        FOR_EACH(a, p, left) {
            if (TYPE(a) == NLMSGERR_ATTR_MSG)
                sentence = (char *)PAYLOAD(a);
            if (TYPE(a) == NLMSGERR_ATTR_OFFS)
                offset = *(__u32 *)PAYLOAD(a) - NLMSG_HDRLEN;
        }
    fprintf(answers, "ack %d ", -e->error);
    fprintf(answers, offset < 0 ? "-" : "%ld", offset);
    fprintf(answers, " %s\n", sentence);
}

// Writes a message that came back.
static void write_got(struct nlmsghdr *h) {
    unsigned char *p = NLMSG_DATA(h);
    int length = h->nlmsg_len - NLMSG_HDRLEN;

    fprintf(answers, "got %d ", h->nlmsg_type);
    while (length-- > 0)
        fprintf(answers, "%02x", *p++);
    fputc('\n', answers);
}

static void write_masked(struct nlmsghdr *h) {
    if (stream)
        fwrite(h, 1, NLMSG_ALIGN(h->nlmsg_len), stream);
    mask(h->nlmsg_type, NLMSG_DATA(h), h->nlmsg_len - NLMSG_HDRLEN);
    write_got(h);
}

static void ignore(struct nlmsghdr *h) { (void)h; }

// Sends a request, and passes on what comes back. Returns the message that ends it: NLMSG_ERROR or NLMSG_DONE; NULL,
// with errno, where none comes.
static struct nlmsghdr *ask(int type, int flags, const void *payload, int n, void (*each)(struct nlmsghdr *)) {
    struct nlmsghdr *h = (struct nlmsghdr *)request;

    *h = (struct nlmsghdr){.nlmsg_len = NLMSG_LENGTH(n), .nlmsg_type = type, .nlmsg_flags = flags, .nlmsg_seq = 1};
    memcpy(NLMSG_DATA(h), payload, n);
    if (send(netlink, h, h->nlmsg_len, 0) < 0)
        return NULL;
    for (;;) {
        ssize_t got = recv(netlink, reply, sizeof reply, 0);
        if (got < 0)
            return NULL;
        for (h = (struct nlmsghdr *)reply; NLMSG_OK(h, got); h = NLMSG_NEXT(h, got)) {
            if (h->nlmsg_type == NLMSG_ERROR || h->nlmsg_type == NLMSG_DONE)
                return h;
            each(h);
        }
    }
}

// Writes what comes back of a request, and how it ended.
static void talk(int type, int flags, const void *payload, int n) {
    struct nlmsghdr *last = ask(type, flags, payload, n, write_masked);

    if (!last)
        fprintf(answers, "ack %d - no answer\n", errno);
    else if (last->nlmsg_type == NLMSG_ERROR)
        write_ack(last);
    else
        fprintf(answers, "end %d\n", -*(int *)NLMSG_DATA(last));
}

// ---- All of a link

static int asked_link;
static __u32 asked_parent;
static unsigned char tree[1 << 19]; // the link's qdiscs and classes, whole messages
static size_t tree_length;
static struct {
    struct tcmsg header;
    __u32 chain;
} priorities[1024]; // of u32, that were dumped last
static size_t priority_count;

static int is_of_kind(struct nlmsghdr *h, const char *kind) {
    unsigned char *p = (unsigned char *)NLMSG_DATA(h) + sizeof(struct tcmsg);
    int left = h->nlmsg_len - NLMSG_LENGTH(sizeof(struct tcmsg));

    FOR_EACH(a, p, left)
        if (TYPE(a) == TCA_KIND)
            return !strncmp((char *)PAYLOAD(a), kind, LENGTH(a));
    return 0;
}

// Keeps a priority of u32, which is dumped without a handle before its filters.
static void keep_priority(struct nlmsghdr *h) {
    unsigned char *p = (unsigned char *)NLMSG_DATA(h) + sizeof(struct tcmsg);
    int left = h->nlmsg_len - NLMSG_LENGTH(sizeof(struct tcmsg));
    __u32 chain = 0;

    FOR_EACH(a, p, left)
        if (TYPE(a) == TCA_CHAIN)
            memcpy(&chain, PAYLOAD(a), sizeof chain);
    if (is_of_kind(h, "u32") && priority_count < sizeof priorities / sizeof *priorities) {
        priorities[priority_count].header = *(struct tcmsg *)NLMSG_DATA(h);
        priorities[priority_count++].chain = chain;
    }
}

// Writes what belongs to the link, or to a shared block, as it came, and keeps its qdiscs and classes. A chain's dump names the
// qdisc; the parent that was asked for distinguishes the sides of clsact.
static void write_of_link(struct nlmsghdr *h) {
    struct tcmsg *header = NLMSG_DATA(h);

    if (header->tcm_ifindex != asked_link && header->tcm_ifindex != (int)TCM_IFINDEX_MAGIC_BLOCK)
        return;
    if (h->nlmsg_type == RTM_NEWCHAIN && header->tcm_ifindex == asked_link)
        header->tcm_parent = asked_parent;
    if ((h->nlmsg_type == RTM_NEWQDISC || h->nlmsg_type == RTM_NEWTCLASS) && tree_length + h->nlmsg_len < sizeof tree) {
        memcpy(tree + tree_length, h, h->nlmsg_len);
        tree_length += NLMSG_ALIGN(h->nlmsg_len);
    }
    if (h->nlmsg_type == RTM_NEWTFILTER && !header->tcm_handle)
        keep_priority(h);
    write_got(h);
}

// Writes the root table of a priority of u32, with the type of the request.
static void write_root(struct nlmsghdr *h) {
    h->nlmsg_type = RTM_GETTFILTER;
    write_got(h);
}

// Asks for the root table of each priority that was dumped: a dump shows the tables of the same priority elsewhere below the qdisc too.
static void ask_for_roots(void) {
    for (size_t i = 0; i < priority_count; i++) {
        struct {
            struct tcmsg header;
            struct nlattr kind;
            char text[4];
            struct nlattr chain;
            __u32 number;
        } m = {.header = priorities[i].header,
               .kind = {NLA_HDRLEN + 4, TCA_KIND},
               .text = "u32",
               .chain = {NLA_HDRLEN + 4, TCA_CHAIN},
               .number = priorities[i].chain};
        m.header.tcm_handle = TC_U32_ROOT;
        ask(RTM_GETTFILTER, NLM_F_REQUEST | NLM_F_ACK, &m, sizeof m, write_root);
    }
}

// A qdisc without classes refuses to be asked for them, and what can't have filters for those. Default qdiscs are dumped too.
static void dump_tc(int type, __u32 parent) {
    struct {
        struct tcmsg header;
        struct nlattr defaults;
    } m = {.header = {.tcm_ifindex = asked_link, .tcm_parent = parent}, .defaults = {NLA_HDRLEN, TCA_DUMP_INVISIBLE}};

    asked_parent = parent;
    ask(type, NLM_F_REQUEST | NLM_F_DUMP, &m, type == RTM_GETQDISC ? sizeof m : sizeof m.header, write_of_link);
}

static void dump_actions(void) {
    static const char *kinds[] = {"bpf",     "connmark", "csum", "ct",     "ctinfo", "gact",    "gate",   "ife",        "mirred", "mpls",
                                  "nat",     "pedit",    "police", "sample", "simple", "skbedit", "skbmod", "tunnel_key", "vlan",   "xt"};

    for (size_t i = 0; i < sizeof kinds / sizeof *kinds; i++) {
        struct {
            struct tcamsg header;
            struct nlattr table, first, kind;
            char text[16];
            struct nlattr flags;
            struct nla_bitfield32 large;
        } m = {.table = {3 * NLA_HDRLEN + 16, TCA_ACT_TAB},
               .first = {2 * NLA_HDRLEN + 16, 1},
               .kind = {NLA_HDRLEN + 16, TCA_ACT_KIND},
               .flags = {NLA_HDRLEN + 8, TCA_ROOT_FLAGS},
               .large = {TCA_FLAG_LARGE_DUMP_ON, TCA_FLAG_LARGE_DUMP_ON}};
        snprintf(m.text, sizeof m.text, "%s", kinds[i]);
        ask(RTM_GETACTION, NLM_F_REQUEST | NLM_F_DUMP, &m, sizeof m, write_got);
    }
}

static void dump_block(__u32 parent) {
    dump_tc(RTM_GETCHAIN, parent);
    priority_count = 0;
    dump_tc(RTM_GETTFILTER, parent);
    ask_for_roots();
}

// Writes the qdiscs and classes of a link, and the chains and filters of each of these.
// Classes are asked for by qdisc: a dump of all classes ends at netem without a child and at sfb.
static void dump_link(int number) {
    struct nlmsghdr *h;

    asked_link = number, tree_length = 0;
    dump_tc(RTM_GETQDISC, 0);
    for (size_t at = 0, end = tree_length; at < end; at += NLMSG_ALIGN(h->nlmsg_len)) {
        h = (struct nlmsghdr *)(tree + at);
        __u32 handle = ((struct tcmsg *)NLMSG_DATA(h))->tcm_handle;
        if (handle)
            dump_tc(RTM_GETTCLASS, handle);
    }
    for (size_t at = 0; at < tree_length; at += NLMSG_ALIGN(h->nlmsg_len)) {
        h = (struct nlmsghdr *)(tree + at);
        __u32 handle = ((struct tcmsg *)NLMSG_DATA(h))->tcm_handle;
        if (h->nlmsg_type == RTM_NEWTCLASS && !TC_H_MIN(handle))
            continue; // a root class, whose filters are the qdisc's
        if (h->nlmsg_type == RTM_NEWQDISC && is_of_kind(h, "clsact")) {
            dump_block(TC_H_MAKE(TC_H_CLSACT, TC_H_MIN_INGRESS));
            dump_block(TC_H_MAKE(TC_H_CLSACT, TC_H_MIN_EGRESS));
        } else if (handle)
            dump_block(handle);
    }
}

// Writes all actions of the namespace, and what some links have. They are numbers, with a comma between two.
static void dump_links(const char *numbers) {
    dump_actions();
    for (const char *it = numbers; it; it = strchr(it, ',') ? strchr(it, ',') + 1 : NULL)
        dump_link(atoi(it));
    fputs("end 0\n", answers);
}

// ---- Links

static void make_link(int number, const char *kind, int flags, int queues) {
    struct {
        struct ifinfomsg header;
        struct nlattr name;
        char text[16];
        struct nlattr queues;
        __u32 count;
        struct nlattr info, kind;
        char kind_text[8];
    } m = {.header = {.ifi_index = number, .ifi_flags = flags, .ifi_change = flags},
           .name = {NLA_HDRLEN + 16, IFLA_IFNAME},
           .queues = {NLA_HDRLEN + 4, IFLA_NUM_TX_QUEUES},
           .count = queues,
           .info = {2 * NLA_HDRLEN + 8, IFLA_LINKINFO},
           .kind = {NLA_HDRLEN + 8, IFLA_INFO_KIND}};

    snprintf(m.text, sizeof m.text, "d%d", number);
    snprintf(m.kind_text, sizeof m.kind_text, "%s", kind);
    ask(RTM_NEWLINK, NLM_F_REQUEST | NLM_F_ACK | NLM_F_CREATE | NLM_F_EXCL, &m, sizeof m, ignore);
}

// ---- What others say

enum { MONITOR = 99 }; // the link by which the kernel passes on what goes through netlink sockets
static pid_t watcher;
static volatile sig_atomic_t is_over;

static void end_watching(int signal) { is_over = signal; }

static void write_watched(int s, FILE *file) {
    static unsigned char frame[1 << 17] __attribute__((aligned(NLMSG_ALIGNTO)));
    struct sockaddr_ll from;

    signal(SIGTERM, end_watching);
    for (;;) {
        socklen_t size = sizeof from;
        ssize_t got = recvfrom(s, frame, sizeof frame, 0, (struct sockaddr *)&from, &size);
        if (got < 0 && is_over)
            break;
        if (got > 0 && from.sll_protocol == htons(NETLINK_ROUTE))
            fwrite(frame, 1, got, file);
    }
    fclose(file);
    _exit(0);
}

static void watch(const char *path) {
    int size = 1 << 23;
    struct timeval wait = {.tv_usec = 20000};
    struct sockaddr_ll monitor = {.sll_family = AF_PACKET, .sll_protocol = htons(ETH_P_ALL), .sll_ifindex = MONITOR};

    make_link(MONITOR, "nlmon", IFF_UP, 1);
    int s = socket(AF_PACKET, SOCK_RAW, htons(ETH_P_ALL));
    setsockopt(s, SOL_SOCKET, SO_RCVBUFFORCE, &size, sizeof size);
    setsockopt(s, SOL_SOCKET, SO_RCVTIMEO, &wait, sizeof wait);
    FILE *file = fopen(path, "w");
    if (!file || bind(s, (struct sockaddr *)&monitor, sizeof monitor))
        fprintf(answers, "ack %d - not watched\n", errno);
    fflush(answers);
    watcher = fork();
    if (!watcher)
        write_watched(s, file);
    fclose(file);
    close(s);
}

static void unwatch(void) {
    if (watcher <= 0)
        return;
    kill(watcher, SIGTERM);
    waitpid(watcher, NULL, 0);
    watcher = 0;
}

// ---- Programs that are cut

// True for a message that makes, changes or deletes something of traffic control.
static int is_request(struct nlmsghdr *h) {
    int is_tc = (h->nlmsg_type >= RTM_NEWQDISC && h->nlmsg_type <= RTM_DELACTION) || h->nlmsg_type == RTM_NEWCHAIN || h->nlmsg_type == RTM_DELCHAIN;

    return is_tc && h->nlmsg_type % 4 < 2;
}

// True for a request that is sent again.
static int is_again(struct nlmsghdr *h, struct nlmsghdr *last) {
    int is_alike = h->nlmsg_type == last->nlmsg_type && h->nlmsg_len == last->nlmsg_len;

    return is_alike && !memcmp(NLMSG_DATA(h), NLMSG_DATA(last), h->nlmsg_len - NLMSG_HDRLEN);
}

// The number of the request at this part of those in a file that `watch` wrote; 0 if there is none. A notification has the number of its request.
static int request_at(const char *path, double part) {
    static unsigned char bytes[1 << 23] __attribute__((aligned(NLMSG_ALIGNTO)));
    FILE *file = fopen(path, "r");
    ssize_t left = file ? fread(bytes, 1, sizeof bytes, file) : 0;
    struct nlmsghdr *last = NULL;
    __u32 newest = 0;
    int count = 0;

    for (struct nlmsghdr *h = (struct nlmsghdr *)bytes; NLMSG_OK(h, left); h = NLMSG_NEXT(h, left)) {
        int is_new = h->nlmsg_pid && h->nlmsg_seq > newest;
        if (is_new)
            newest = h->nlmsg_seq;
        if (is_new && is_request(h) && !(last && is_again(h, last))) {
            last = h;
            count++;
        }
    }
    if (file)
        fclose(file);
    return count ? 1 + (int)(part * count) : 0;
}

// Reads what a stopped process is about to send, if that is a request, and returns its place in the process; 0 if it is none, or the one of the time
// before again.
static unsigned long about_to_send(pid_t child, int memory, unsigned char *bytes, size_t size) {
    static unsigned char last[1 << 17] __attribute__((aligned(NLMSG_ALIGNTO)));
    struct user_regs_struct registers;
    struct nlmsghdr *h = (struct nlmsghdr *)bytes;

    if (ptrace(PTRACE_GETREGS, child, NULL, &registers) || registers.orig_rax != SYS_sendto || registers.rdx > size)
        return 0;
    if (pread(memory, bytes, registers.rdx, registers.rsi) < (ssize_t)sizeof *h || h->nlmsg_len != registers.rdx)
        return 0;
    if (!is_request(h) || is_again(h, (struct nlmsghdr *)last))
        return 0;
    memcpy(last, bytes, h->nlmsg_len);
    return registers.rsi;
}

// Gives a request a kind that no kernel has; a type, if it deletes something or is of a class or of actions.
static void spoil(int memory, unsigned char *bytes, unsigned long place) {
    struct nlmsghdr *h = (struct nlmsghdr *)bytes;
    unsigned char *p = (unsigned char *)NLMSG_DATA(h) + sizeof(struct tcmsg);
    int left = h->nlmsg_len - NLMSG_LENGTH(sizeof(struct tcmsg));

    if (h->nlmsg_type == RTM_NEWQDISC || h->nlmsg_type == RTM_NEWTFILTER || h->nlmsg_type == RTM_NEWCHAIN)
        FOR_EACH(a, p, left)
            if (TYPE(a) == TCA_KIND && LENGTH(a) > 1) {
                if (pwrite(memory, "?", 1, place + (PAYLOAD(a) - bytes)) == 1)
                    return;
            }
    h->nlmsg_type = 0xfff;
    if (pwrite(memory, h, sizeof *h, place) != sizeof *h)
        fprintf(answers, "ack %d - not spoilt\n", errno);
}

// Goes with a process up to its request of this number, and there does what the word says: kills it, stops it, or spoils the request. Returns how it ended.
static int traced(pid_t child, const char *word, int number) {
    static unsigned char bytes[1 << 17] __attribute__((aligned(NLMSG_ALIGNTO)));
    char path[40];
    int status, signal = 0, count = 0, is_entry = 0;
    unsigned long place;

    waitpid(child, &status, 0);
    snprintf(path, sizeof path, "/proc/%d/mem", child);
    int memory = open(path, O_RDWR | O_CLOEXEC);
    ptrace(PTRACE_SETOPTIONS, child, NULL, PTRACE_O_TRACESYSGOOD | PTRACE_O_EXITKILL);
    while (WIFSTOPPED(status) && count < number && !ptrace(PTRACE_SYSCALL, child, NULL, signal) && waitpid(child, &status, 0) == child) {
        if (!WIFSTOPPED(status))
            break;
        signal = WSTOPSIG(status) & 0x80 ? 0 : WSTOPSIG(status);
        if (signal || !(is_entry = !is_entry) || !(place = about_to_send(child, memory, bytes, sizeof bytes)))
            continue;
        if (++count < number)
            continue;
        if (!strcmp(word, "spoil"))
            spoil(memory, bytes, place);
        else
            kill(child, !strcmp(word, "kill") ? SIGKILL : SIGTERM);
    }
    close(memory);
    if (WIFSTOPPED(status)) {
        ptrace(PTRACE_DETACH, child, NULL, 0);
        waitpid(child, &status, 0);
    }
    return status;
}

// Starts a program without a shell, and returns its process. What it writes to standard error, and to standard output too if no file is named, is to be read
// from `said`.
static pid_t start(char *command, const char *to, int is_traced, FILE **said) {
    char *words[16] = {strtok(command, " ")};
    int ends[2];

    for (int i = 0; i < 14 && words[i]; i++)
        words[i + 1] = strtok(NULL, " ");
    fflush(answers);
    if (pipe(ends))
        return -1;
    pid_t child = fork();
    if (!child) {
        dup2(to ? open(to, O_WRONLY | O_CREAT | O_TRUNC, 0644) : ends[1], 1), dup2(ends[1], 2);
        close(ends[0]), close(ends[1]);
        alarm(100 * slowness);
        if (is_traced)
            ptrace(PTRACE_TRACEME, 0, NULL, NULL);
        execv(words[0], words);
        _exit(127);
    }
    close(ends[1]);
    *said = fdopen(ends[0], "r");
    return child;
}

static void write_said(FILE *said) {
    char *line = NULL;
    size_t room = 0;

    while (said && getline(&line, &room, said) > 0)
        fprintf(answers, "said %.*s\n", (int)strcspn(line, "\n"), line);
    if (said)
        fclose(said);
    free(line);
}

static void write_status(int status) { fprintf(answers, "status %d\n", WIFEXITED(status) ? WEXITSTATUS(status) : 128 + WTERMSIG(status)); }

static void call(const char *to, char *command) {
    FILE *said = NULL;
    int status = -1;
    pid_t child = start(command, strcmp(to, "-") ? to : NULL, 0, &said);

    write_said(said);
    waitpid(child, &status, 0);
    write_status(status);
}

static void cut(const char *word, int number, char *command) {
    FILE *said = NULL;
    int status = traced(start(command, NULL, 1, &said), word, number);

    write_said(said);
    write_status(status);
}

// ---- Namespaces

static void open_namespace(void) {
    int one = 1, size = 1 << 21;
    struct timeval wait = {.tv_sec = 5 * slowness};

    if (unshare(CLONE_NEWNET | CLONE_NEWNS))
        fprintf(answers, "ack %d - no namespace\n", errno);
    mount("sysfs", "/sys", "sysfs", 0, NULL); // the links of this namespace, not those of the host
    netlink = socket(AF_NETLINK, SOCK_RAW, NETLINK_ROUTE);
    setsockopt(netlink, SOL_NETLINK, NETLINK_EXT_ACK, &one, sizeof one);
    setsockopt(netlink, SOL_NETLINK, NETLINK_CAP_ACK, &one, sizeof one);
    setsockopt(netlink, SOL_SOCKET, SO_RCVBUFFORCE, &size, sizeof size);
    setsockopt(netlink, SOL_SOCKET, SO_RCVTIMEO, &wait, sizeof wait);
}

static void open_program(void) {
    struct bpf_insn code[] = {{.code = BPF_ALU64 | BPF_MOV | BPF_K}, {.code = BPF_JMP | BPF_EXIT}};
    union bpf_attr a = {.prog_type = BPF_PROG_TYPE_SCHED_CLS,
                        .insn_cnt = 2,
                        .insns = (unsigned long)code,
                        .license = (unsigned long)"GPL"};
    int fd = syscall(SYS_bpf, BPF_PROG_LOAD, &a, sizeof a);

    if (fd >= 0) {
        dup2(fd, PROGRAM);
        close(fd);
    }
}

// ---- The script

static int from_hex(const char *text, unsigned char *bytes) {
    int n = 0, byte, taken;

    while (sscanf(text, "%2x%n", &byte, &taken) == 1 && taken == 2)
        bytes[n++] = byte, text += 2;
    return n;
}

static void run(const char *command) {
    char whole[4096], *line = NULL;
    size_t room = 0;

    snprintf(whole, sizeof whole, "{ %s\n} 2>&1", command);
    fflush(answers);
    FILE *said = popen(whole, "r");
    while (said && getline(&line, &room, said) > 0)
        fprintf(answers, "said %.*s\n", (int)strcspn(line, "\n"), line);
    int status = said ? pclose(said) : -1;
    fprintf(answers, "status %d\n", WIFEXITED(status) ? WEXITSTATUS(status) : 128);
    free(line);
}

static void try(char *line) {
    static unsigned char payload[1 << 16];
    char *rest;

    open_namespace();
    for (line = strtok_r(line, "\n", &rest); line; line = strtok_r(NULL, "\n", &rest)) {
        char path[1024], word[10];
        int type, flags, at, number, queues = 1;
        double part;
        if (sscanf(line, "link %d %d", &number, &queues) >= 1)
            make_link(number, "dummy", 0, queues);
        else if (sscanf(line, "send %d %d %n", &type, &flags, &at) == 2)
            talk(type, flags, payload, from_hex(line + at, payload));
        else if (!strncmp(line, "dump ", 5))
            dump_links(line + 5);
        else if (sscanf(line, "call %1023s %n", path, &at) == 1)
            call(path, line + at);
        else if (!strncmp(line, "into ", 5))
            stream = fopen(line + 5, "w");
        else if (!strncmp(line, "run ", 4))
            run(line + 4);
        else if (sscanf(line, "watch %1023s", path) == 1)
            watch(path);
        else if (!strcmp(line, "unwatch"))
            unwatch();
        else if (sscanf(line, "%9s %1023s %lf %n", word, path, &part, &at) == 3)
            cut(word, request_at(path, part), line + at);
        else
            fprintf(answers, "%s\n", line);
        if (stream)
            fflush(stream);
    }
    unwatch();
}

static char *whole_file(const char *folder, const char *name) {
    char path[1024], *text = NULL;
    size_t room = 0;

    snprintf(path, sizeof path, "%s/%s", folder, name);
    FILE *file = fopen(path, "r");
    if (!file || getdelim(&text, &room, 0, file) < 0)
        return NULL;
    fclose(file);
    return text;
}

int main(void) {
    const char *folder = getenv("DIR");
    char path[1024], *from, *to;
    struct utsname system;

    if (getpid() != 1 || !folder || !getenv("MODULES")) {
        fputs("guest: this is the first process of a guest, and nothing else\n", stderr);
        return 1;
    }
    if (getenv("SLOWNESS"))
        slowness = atoi(getenv("SLOWNESS"));
    if (!access("/first", F_OK))
        go_to_machine(getenv("OUT"));
    uname(&system);
    snprintf(modules, sizeof modules, "%s/%s", getenv("MODULES"), system.release);
    snprintf(path, sizeof path, "%s/answers", folder);
    int fd = open(path, O_WRONLY | O_CREAT | O_TRUNC, 0644);
    answers = fdopen(dup2(fd, ANSWERS), "w");
    char *script = whole_file(folder, "script");
    if (answers && script) {
        fprintf(answers, "kernel %s\n", system.release);
        set_path();
        mount("proc", "/proc", "proc", 0, NULL);
        mount("tmpfs", "/run", "tmpfs", 0, "mode=755"); // what programs keep there is not of the machine
        link_descriptors();
        load_modules();
        load_no_more();
        open_program();
        for (from = script; *from; from = to) {
            int status;
            to = strstr(from, "\ntry ");
            if (to)
                *to++ = 0;
            else
                to = from + strlen(from);
            fflush(answers);
            pid_t child = fork();
            if (!child) {
                try(from);
                fflush(answers);
                _exit(0);
            }
            if (waitpid(child, &status, 0) != child || status)
                fprintf(answers, "died %d\n", status);
        }
        fprintf(answers, "finished\n");
        fclose(answers);
    }
    sync();
    reboot(RB_POWER_OFF);
}
