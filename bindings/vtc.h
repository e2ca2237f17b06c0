/* vtc.h: messages of Linux traffic control (rtnetlink), checked, rewritten, shown and made by proved code.
 *
 * `bytes` are a message without the 16 bytes of its netlink header (struct nlmsghdr). vtc_* are for the types
 * RTM_*QDISC, RTM_*TCLASS, RTM_*TFILTER and RTM_*CHAIN, which begin with struct tcmsg; vtc_action_* for RTM_*ACTION,
 * which begin with struct tcamsg. All lengths, offsets and counts are in bytes, except those of slots, which are in
 * slots. Numbers in the structs below are the host's, which is little-endian.
 *
 * Every call returns, whatever the bytes are. No call reads or writes beyond the lengths that it is given, keeps a
 * pointer or has static state, so calls may run in several threads at once.
 *
 * The caller must ensure this, which no call can test:
 *  - No pointer is NULL, but that a pointer whose length is 0 may be.
 *  - A pointer and the length after it are of one object, of at most PTRDIFF_MAX bytes, that may be read for the
 *    whole call; one that isn't `const` may be written too. Pointers are aligned for their type.
 *  - What a call writes overlaps nothing else that it is given, and nothing else reads or writes it meanwhile. What
 *    a call reads is not written meanwhile.
 */
#ifndef VTC_H
#define VTC_H

#include <stddef.h>
#include <stdint.h>

#ifdef __cplusplus
extern "C" {
#endif

/* The version of this header. */
#define VTC_VERSION UINT32_C(0x000300) /* 0.3.0 */

/* In the version of a library that was built from plain Rust, made of the proved sources. If memory runs out, its
 * vtc_json, vtc_make, vtc_make_as_given and their vtc_action_* abort the program (SIGABRT), where a proved library
 * returns VTC_OUT_OF_MEMORY. All other calls return it too. A program that has to go on bounds the lengths that it
 * hands to these, or runs them in a process of their own. */
#define VTC_PLAIN_RUST UINT32_C(0x80000000)

/* The version of the library: major * 65536 + minor * 256 + patch, plus VTC_PLAIN_RUST if it was built so. */
uint32_t vtc_version(void);

/* 1 if the library that runs is one for this header, 0 if not: of the same major version, and not older. */
static inline int vtc_matches(void) {
    uint32_t library = vtc_version() & ~VTC_PLAIN_RUST;
    return library >> 16 == VTC_VERSION >> 16 && library >= VTC_VERSION;
}

/* How a call ended. 1 to 10 are the first fault of the bytes, in the order of reading. */
enum vtc_status {
    VTC_OK = 0,
    VTC_BUFFER_TOO_SMALL = 1,   /* a header or a record has `first` bytes, and takes `second` */
    VTC_FRAME_HEADER_SHORT = 2, /* `first` bytes, 1 to 3, are left where an attribute should begin */
    VTC_FRAME_TOO_LONG = 3,     /* an attribute's length is `first`, and `second` bytes are left */
    VTC_FRAME_TOO_SHORT = 4,    /* an attribute's length is `first`, which is less than 4 */
    VTC_WRONG_LENGTH = 5,       /* a value's type takes `first` bytes, and it has `second` */
    VTC_NOT_UTF8 = 6,           /* a text isn't UTF-8 */
    VTC_SELECTOR_SHORT = 7,     /* a selector of u32 has `first` bytes, and takes `second` */
    VTC_XSTATS_SHORT = 8,       /* statistics of fq_codel have `first` bytes, and take 4 at least */
    VTC_MISSING_KIND = 9,       /* an action has no kind */
    VTC_DUPLICATE_KIND = 10,    /* an action has two kinds or more */
    VTC_OUT_OF_MEMORY = 11,     /* malloc or realloc failed; but see VTC_PLAIN_RUST */
    VTC_DOES_NOT_FIT = 12,      /* what was read can't be written: a value would have more than 65531 bytes */
    VTC_NO_ROOM = 13,           /* the buffer is too small; it is unchanged, and *length is how many bytes are needed */
    VTC_END = 14,               /* no attribute is left */
    VTC_NOT_JSON = 15,          /* a text isn't JSON */
    VTC_NO_MESSAGE = 16         /* no bytes are made of the JSON, or an object of it has a name twice */
};

/* ---- Calls that take no memory. A program that uses no others needs no allocator. */

/* 1 if the bytes are a canonical message, 0 if not: one in the form that is written, with zeros for padding, exact
 * lengths, and the flags of each type. */
uint8_t vtc_is_canonical(const uint8_t *bytes, size_t len);
uint8_t vtc_action_is_canonical(const uint8_t *bytes, size_t len);

/* The tables that give an attribute's type its meaning. */
enum vtc_table {
    VTC_TABLE_MESSAGE = 0,        /* TCA_* */
    VTC_TABLE_ACTION_MESSAGE = 1, /* TCA_ROOT_* */
    VTC_TABLE_STATS2 = 2,         /* TCA_STATS_* */
    VTC_TABLE_ACTIONS = 3,        /* an action; its type is its place among them */
    VTC_TABLE_ACTION = 4,         /* TCA_ACT_* */
    VTC_TABLE_ACTION_OPTIONS = 5, /* options of an action of a kind that isn't known */
    VTC_TABLE_MIRROR = 6,         /* TCA_MIRRED_* */
    VTC_TABLE_NAT = 7,            /* TCA_NAT_* */
    VTC_TABLE_TUNNEL_KEY = 8,     /* TCA_TUNNEL_KEY_* */
    VTC_TABLE_OPTIONS = 9,        /* of no attribute: the options of a message have the table of its kind */
    VTC_TABLE_FQ_CODEL = 10,      /* TCA_FQ_CODEL_* */
    VTC_TABLE_INGRESS = 11,       /* options of ingress */
    VTC_TABLE_FLOWER = 12,        /* TCA_FLOWER_* */
    VTC_TABLE_U32 = 13,           /* TCA_U32_* */
    VTC_TABLE_MATCHALL = 14,      /* TCA_MATCHALL_* */
    VTC_TABLE_BPF = 15,           /* TCA_BPF_* */
    VTC_TABLE_MPLS = 16,          /* TCA_FLOWER_KEY_MPLS_OPTS_* */
    VTC_TABLE_LSE = 17            /* TCA_FLOWER_KEY_MPLS_OPT_LSE_* */
};

/* An attribute of a message. Its value is bytes[offset .. offset + len], without padding. */
struct vtc_node {
    size_t offset;
    size_t len;
    uint16_t word; /* nla_type: the type, and the flags NLA_F_NESTED (0x8000) and NLA_F_NET_BYTEORDER (0x4000) */
    uint8_t table; /* enum vtc_table */
    uint8_t depth; /* in how many other attributes it is, 4 at most */
};

/* Writes the attributes of a message, each before those in it, into as many slots as there are, and returns how many
 * attributes there are: those before the first broken one, and none if the message is shorter than its header.
 * Slots beyond that number stay unchanged. len / 4 slots suffice. */
size_t vtc_index(const uint8_t *bytes, size_t len, struct vtc_node *slots, size_t count);
size_t vtc_action_index(const uint8_t *bytes, size_t len, struct vtc_node *slots, size_t count);

/* An attribute of a list. Its value is bytes[offset .. offset + len], without padding. */
struct vtc_attr {
    size_t offset;
    size_t len;
    uint16_t word; /* nla_type */
};

/* Takes the attribute at *at, an offset in a list of attributes. VTC_OK: *attr is the attribute, and *at the offset
 * after its padding. VTC_END: *at is len or more. VTC_FRAME_HEADER_SHORT, VTC_FRAME_TOO_LONG or VTC_FRAME_TOO_SHORT:
 * no whole attribute is there. Unless it is VTC_OK, *at and *attr stay unchanged. `bytes` may be a message: its list
 * begins at 20, that of an action message at 4. */
uint32_t vtc_next(const uint8_t *bytes, size_t len, size_t *at, struct vtc_attr *attr);

/* ---- Calls that read or make a whole message. They call malloc, realloc and free of the program, which have to be of one
 * allocator and align a block to each power of two up to 16 that divides its size; what they take, they free. They
 * are not for signal handlers, nor for the child that a process of several threads forked. */

/* The verdict on a message. Each of the three is 1 or 0. */
struct vtc_verdict {
    size_t length;     /* the length of its encoding; 0 if it doesn't fit */
    uint8_t fits;      /* it can be encoded */
    uint8_t settled;   /* if it fits: its encoding reads as the same message */
    uint8_t canonical; /* the bytes are its encoding */
};

/* The first fault of bytes. */
struct vtc_fault {
    size_t first;  /* its numbers, as in enum vtc_status; 0 for those that it doesn't have */
    size_t second;
    size_t offset; /* where it is: of a short header and a broken attribute its first byte, of a value the value's */
};

/* VTC_OK: *verdict is that of the message. 1 to 11: *fault is why it can't be read. The other struct stays unchanged. */
uint32_t vtc_check(const uint8_t *bytes, size_t len, struct vtc_verdict *verdict, struct vtc_fault *fault);
uint32_t vtc_action_check(const uint8_t *bytes, size_t len, struct vtc_verdict *verdict, struct vtc_fault *fault);

/* The following write into `buffer`, which has `room` bytes. VTC_OK: the result is in its first *length bytes.
 * VTC_NO_ROOM: *length is how many bytes are needed; so NULL and 0 ask only for that. Else why there is no result: 1
 * to 11, or VTC_DOES_NOT_FIT. Unless it is VTC_OK, the buffer stays unchanged, and unless it is that or VTC_NO_ROOM,
 * *length too. */

/* Reads the bytes as a message, and encodes it. */
uint32_t vtc_rewrite(const uint8_t *bytes, size_t len, uint8_t *buffer, size_t room, size_t *length);
uint32_t vtc_action_rewrite(const uint8_t *bytes, size_t len, uint8_t *buffer, size_t room, size_t *length);

/* The canonical bytes that repeated rewriting leads to, after *rewrites rewrites: 0 if the bytes are canonical.
 * *rewrites is set with *length. */
uint32_t vtc_settle(const uint8_t *bytes, size_t len, uint8_t *buffer, size_t room, size_t *length, size_t *rewrites);
uint32_t vtc_action_settle(const uint8_t *bytes, size_t len, uint8_t *buffer, size_t room, size_t *length, size_t *rewrites);

/* The JSON of the bytes, whatever they are, in UTF-8, without a NUL at its end. Bytes that aren't a message have one
 * too: what isn't in its format is shown as {"raw":".."}, in hex. It is VTC_OK, VTC_NO_ROOM or VTC_OUT_OF_MEMORY,
 * which is any failure to make the text. */
uint32_t vtc_json(const uint8_t *bytes, size_t len, uint8_t *buffer, size_t room, size_t *length);
uint32_t vtc_action_json(const uint8_t *bytes, size_t len, uint8_t *buffer, size_t room, size_t *length);

/* The other way: bytes of JSON, a text in UTF-8 of `len` bytes. The buffer is as above. VTC_NOT_JSON and VTC_NO_MESSAGE:
 * why, as a text in UTF-8 without a NUL, is in the first *why_length bytes of `why`, which has `why_room` bytes: as many
 * characters as have room. It names a place by a JSON pointer: "/attributes/1/Options/0/FqCodel/Limit: found -1, wanted
 * a number from 0 to 4294967295". Else it is VTC_OK, VTC_NO_ROOM or VTC_OUT_OF_MEMORY, and *why_length is 0. No more of
 * `why` is written. The JSON has to be what vtc_json shows of some bytes, up to the order of members and to blanks: a
 * member that it wouldn't show, as one that is misspelt, is VTC_NO_MESSAGE. */

/* The bytes that have this JSON, whatever they are. */
uint32_t vtc_make_as_given(const char *json, size_t len, uint8_t *buffer, size_t room, size_t *length,
                           char *why, size_t why_room, size_t *why_length);
uint32_t vtc_action_make_as_given(const char *json, size_t len, uint8_t *buffer, size_t room, size_t *length,
                                  char *why, size_t why_room, size_t *why_length);

/* The canonical bytes of the message that the JSON describes: the bytes above, read as a message, which is encoded.
 * Flags that a type does not have ("word"), padding other than zeros ("pad"), bytes after a record ("rest") and a kind without
 * its NUL ("bare") go, if reading drops them. It is VTC_NO_MESSAGE if those bytes can't be read, with the place of the
 * first fault; if what is read can't be encoded; and if a value would change, with the place, the value and what it
 * would become. Everything else is a value: also the padding of a header or a record ("padding"), and an action's place
 * with its flags ("tab"). */
uint32_t vtc_make(const char *json, size_t len, uint8_t *buffer, size_t room, size_t *length,
                  char *why, size_t why_room, size_t *why_length);
uint32_t vtc_action_make(const char *json, size_t len, uint8_t *buffer, size_t room, size_t *length,
                         char *why, size_t why_room, size_t *why_length);

#ifdef __cplusplus
}
#endif
#endif
