// Times calls of libtc_ffi.a and libtc_bench.a on messages: those of files of lines `NAME MODE HEX`, and longer ones that are made here.
#define _GNU_SOURCE
#include <malloc.h>
#include <math.h>
#include <stdbool.h>
#include <stdint.h>
#include <stdio.h>
#include <stdlib.h>
#include <string.h>
#include <time.h>

// The exports that are timed: two of crates/tc_ffi, which bindings/vtc.h has too, and those of crates/tc_bench with the program's allocator. A slice is a
// pointer and a length. A status of 0 is success.
#define DECLARE(OLD, VTC, TYPE)                                                                                                 \
    uint32_t OLD##bench_##TYPE##_parse(const uint8_t *bytes, size_t len);                                                       \
    uint32_t OLD##bench_##TYPE##_length(const uint8_t *bytes, size_t len, size_t *lengths, size_t count);                       \
    uint32_t OLD##bench_##TYPE##_fits(const uint8_t *bytes, size_t len, uint8_t *verdicts, size_t count);                       \
    uint32_t OLD##bench_##TYPE##_emit(const uint8_t *bytes, size_t len, uint8_t *buffer, size_t room, size_t again);            \
    uint8_t OLD##bench_##TYPE##_canonical(const uint8_t *bytes, size_t len);                                                    \
    uint32_t OLD##VTC##_rewrite(const uint8_t *bytes, size_t len, uint8_t *buffer, size_t room, size_t *length);                \
    uint32_t OLD##VTC##_settle(const uint8_t *bytes, size_t len, uint8_t *buffer, size_t room, size_t *length, size_t *rewrites);

DECLARE(, vtc, tc)
DECLARE(, vtc_action, action)

// Those of crates/tc_bench in an arena: once and then `again` times. It is emptied in between.
#define DECLARE_ARENA(TYPE)                                                                                                     \
    uint32_t bench_arena_##TYPE##_parse(const uint8_t *bytes, size_t len, size_t again);                                        \
    uint32_t bench_arena_##TYPE##_rewrite(const uint8_t *bytes, size_t len, uint8_t *buffer, size_t room, size_t again);        \
    uint32_t bench_arena_##TYPE##_settle(const uint8_t *bytes, size_t len, uint8_t *buffer, size_t room, size_t again);

DECLARE_ARENA(tc)
DECLARE_ARENA(action)

typedef uint32_t Write(const uint8_t *bytes, size_t len, uint8_t *buffer, size_t room, size_t again);

// The calls in an arena for a type of message.
typedef struct {
    uint32_t (*parse)(const uint8_t *, size_t, size_t);
    Write *rewrite, *settle;
} Arena;

#define ARENA_CALLS(TYPE) bench_arena_##TYPE##_parse, bench_arena_##TYPE##_rewrite, bench_arena_##TYPE##_settle

static const Arena TC_ARENA = {ARENA_CALLS(tc)}, ACTION_ARENA = {ARENA_CALLS(action)};

// A type of message: the size of its header, and its calls.
typedef struct {
    const char *name;
    size_t header;
    uint32_t (*parse)(const uint8_t *, size_t);
    uint32_t (*length)(const uint8_t *, size_t, size_t *, size_t);
    uint32_t (*fits)(const uint8_t *, size_t, uint8_t *, size_t);
    uint32_t (*emit)(const uint8_t *, size_t, uint8_t *, size_t, size_t);
    uint8_t (*canonical)(const uint8_t *, size_t);
    uint32_t (*rewrite)(const uint8_t *, size_t, uint8_t *, size_t, size_t *);
    uint32_t (*settle)(const uint8_t *, size_t, uint8_t *, size_t, size_t *, size_t *);
    const Arena *arena; // of the first library alone
} Mode;

#define CALLS(OLD, VTC, TYPE)                                                                                                   \
    OLD##bench_##TYPE##_parse, OLD##bench_##TYPE##_length, OLD##bench_##TYPE##_fits, OLD##bench_##TYPE##_emit,                  \
        OLD##bench_##TYPE##_canonical, OLD##VTC##_rewrite, OLD##VTC##_settle

static const Mode TC = {"tc", 20, CALLS(, vtc, tc), &TC_ARENA};
static const Mode ACTION = {"action", 4, CALLS(, vtc_action, action), &ACTION_ARENA};

// A second library, whose exports `run` renamed, to be timed by turns with the first.
#ifdef BESIDE
DECLARE(old_, vtc, tc)
DECLARE(old_, vtc_action, action)

static const Mode OLD_TC = {"tc", 20, CALLS(old_, vtc, tc), NULL};
static const Mode OLD_ACTION = {"action", 4, CALLS(old_, vtc_action, action), NULL};
#endif

enum { PASSES = 8, SAMPLES = 10, MOST_TIMES = 1 << 20, MOST_MESSAGES = 512, MOST_BYTES = 2 << 20, ACTIONS = 31 };

// After how many times an arena has grown to what a message takes: each time it keeps its last block, and the next is twice as large.
enum { GROWING = 3 };

// How long one sample takes at least.
static const double SAMPLE_NS = 300e3;

static void fail(const char *name, const char *what) {
    fprintf(stderr, "bench: %s: %s\n", name, what);
    exit(1);
}

// ---- What operations write to. The first length is watched: what is freed once it is written, a message owned.

static uint8_t *buffer, *in_arena;
static size_t *lengths;
static uint8_t *verdicts;

// ---- Allocations, counted by the linker's --wrap.

// Blocks that were asked for, that were asked to grow, and that were freed after the first length was written.
typedef struct {
    size_t taken, grown, owned;
} Blocks;

static Blocks blocks;

void *__real_malloc(size_t size);
void *__real_realloc(void *block, size_t size);
void __real_free(void *block);

void *__wrap_malloc(size_t size) {
    blocks.taken++;
    return __real_malloc(size);
}

void *__wrap_realloc(void *block, size_t size) {
    blocks.grown++;
    return __real_realloc(block, size);
}

void __wrap_free(void *block) {
    blocks.owned += block && lengths[0];
    __real_free(block);
}

// ---- Messages.

typedef struct {
    const char *name;
    const Mode *mode;
    uint8_t *bytes;
    size_t len;
    bool is_canonical;
    size_t rewrites; // that settle it
    size_t owned;    // blocks that it owns once it is read
} Message;

static int digit(char c) {
    const char *digits = "0123456789abcdef", *at = c ? strchr(digits, c) : NULL;
    return at ? (int)(at - digits) : -1;
}

static Message read_line(char *line) {
    char *name = strtok(line, " "), *mode = strtok(NULL, " "), *hex = strtok(NULL, " ");
    if (!hex) fail(line, "a line is NAME MODE HEX");
    Message m = {strdup(name), strcmp(mode, TC.name) == 0 ? &TC : &ACTION, malloc(strlen(hex) / 2), strlen(hex) / 2, 0, 0, 0};
    for (size_t i = 0; i < m.len; i++) {
        int high = digit(hex[2 * i]), low = digit(hex[2 * i + 1]);
        if (high < 0 || low < 0) fail(name, "bad hex");
        m.bytes[i] = (uint8_t)(high << 4 | low);
    }
    return m;
}

static uint8_t *put_attribute(uint8_t *at, uint16_t word, const void *value, size_t len) {
    size_t padded = (len + 3) & ~(size_t)3;
    uint16_t head[2] = {(uint16_t)(len + 4), word};
    memcpy(at, head, 4);
    memset(at + 4, 0, padded);
    if (len > 0) memcpy(at + 4, value, len);
    return at + 4 + padded;
}

// A chain, an offload byte, statistics and a type outside the table by turns.
static uint8_t *put_mixed(uint8_t *at, size_t i) {
    uint8_t value[40];
    memset(value, (int)(i & 0x7f), sizeof value);
    memset(value + 36, 0, 4);
    static const struct {
        uint16_t word;
        size_t len;
    } TURNS[] = {{11, 4}, {12, 1}, {3, 40}, {100, 18}};
    return put_attribute(at, TURNS[i % 4].word, value, TURNS[i % 4].len);
}

// An option of fq_codel.
static uint8_t *put_option(uint8_t *at, size_t i) {
    uint32_t value = (uint32_t)(i * 2654435761u);
    return put_attribute(at, (uint16_t)(1 + i % 9), &value, 4);
}

// An action of the kind nat: its kind, and its options, which are its parameters. Its type is its place.
static uint8_t *put_action(uint8_t *at, size_t i) {
    uint8_t value[52], options[40], parameters[36] = {(uint8_t)i};
    put_attribute(options, 1, parameters, sizeof parameters);
    put_attribute(put_attribute(value, 1, "nat", 4), 0x8002, options, sizeof options);
    return put_attribute(at, (uint16_t)(1 + i % ACTIONS), value, sizeof value);
}

// An attribute of actions: 125 attributes, if those in it are counted.
static uint8_t *put_actions(uint8_t *at, size_t i) {
    (void)i;
    uint8_t value[ACTIONS * 56], *end = value;
    for (size_t k = 0; k < ACTIONS; k++) end = put_action(end, k);
    return put_attribute(at, 1, value, sizeof value);
}

// So many attributes, or fewer where there are so many bytes before, after a header.
static Message make_list(const char *name, const Mode *mode, uint8_t *(*put)(uint8_t *, size_t), size_t most, size_t len) {
    uint8_t *bytes = calloc(1, len + 4096), *at = bytes + mode->header;
    for (size_t i = 0; i < most && (size_t)(at - bytes) < len; i++) at = put(at, i);
    return (Message){name, mode, bytes, (size_t)(at - bytes), 0, 0, 0};
}

// A kind, and so many of its options; where `list` isn't 0, they stand in one option of that type.
static Message make_options(const char *name, const char *kind, uint16_t list, uint8_t *(*put)(uint8_t *, size_t), size_t count) {
    uint8_t *bytes = calloc(1, MOST_BYTES), *options = put_attribute(bytes + 20, 1, kind, strlen(kind) + 1);
    uint8_t *inner = options + 4, *at = inner + (list ? 4 : 0);
    for (size_t i = 0; i < count; i++) at = put(at, i);
    uint16_t head[2] = {(uint16_t)(at - inner), list}, outer[2] = {(uint16_t)(at - options), 2};
    if (list) memcpy(inner, head, 4);
    memcpy(options, outer, 4);
    return (Message){name, &TC, bytes, (size_t)(at - bytes), 0, 0, 0};
}

// ---- Operations. Each does one thing to a message so many times.

static void done(const Message *m, uint32_t status) {
    if (status != 0) fail(m->name, status <= 10 ? "refused" : status == 11 ? "no memory" : "no room");
}

static void parse(const Message *m, size_t times) {
    for (size_t i = 0; i < times; i++) done(m, m->mode->parse(m->bytes, m->len));
}

static void length(const Message *m, size_t times) { done(m, m->mode->length(m->bytes, m->len, lengths, times)); }

static void fits(const Message *m, size_t times) { done(m, m->mode->fits(m->bytes, m->len, verdicts, times)); }

static void emit(const Message *m, size_t times) { done(m, m->mode->emit(m->bytes, m->len, buffer, MOST_BYTES, times)); }

static void rewrite(const Message *m, size_t times) {
    size_t written;
    for (size_t i = 0; i < times; i++) done(m, m->mode->rewrite(m->bytes, m->len, buffer, MOST_BYTES, &written));
}

static void settle(const Message *m, size_t times) {
    size_t written, rewrites;
    for (size_t i = 0; i < times; i++) done(m, m->mode->settle(m->bytes, m->len, buffer, MOST_BYTES, &written, &rewrites));
}

static void canonical(const Message *m, size_t times) {
    for (size_t i = 0; i < times; i++) verdicts[0] = m->mode->canonical(m->bytes, m->len);
}

static void parse_in_arena(const Message *m, size_t times) { done(m, m->mode->arena->parse(m->bytes, m->len, GROWING + times)); }

static void rewrite_in_arena(const Message *m, size_t times) {
    done(m, m->mode->arena->rewrite(m->bytes, m->len, in_arena, MOST_BYTES, GROWING + times));
}

static void settle_in_arena(const Message *m, size_t times) {
    done(m, m->mode->arena->settle(m->bytes, m->len, in_arena, MOST_BYTES, GROWING + times));
}

static void copy(const Message *m, size_t times) {
    for (size_t i = 0; i < times; i++) {
        memcpy(buffer, m->bytes, m->len);
        __asm__ volatile("" : : "r"(buffer), "r"(m->bytes) : "memory");
    }
}

static void allocate(const Message *m, size_t times) {
    (void)m;
    for (size_t i = 0; i < times; i++) {
        void *volatile block = __real_malloc(64);
        __real_free(block);
    }
}

// How many blocks the values of an operation own.
static size_t none(const Message *m) { return (void)m, 0; }

static size_t of_message(const Message *m) { return m->owned; }

// Those of the bytes, and of the message where these aren't canonical as they came.
static size_t of_settling(const Message *m) { return 1 + (m->is_canonical ? 0 : m->owned); }

// An operation. Where it does something once, whatever the times, as reading the message or growing an arena, that is measured by no times at all and
// taken off.
typedef struct {
    const char *name;
    void (*run)(const Message *, size_t);
    bool begins;
    size_t (*owned)(const Message *);
} Operation;

static const Operation OPERATIONS[] = {
    {"parse", parse, false, of_message}, {"length", length, true, none},
    {"fits", fits, true, none},          {"emit", emit, true, none},
    {"rewrite", rewrite, false, of_message}, {"settle", settle, false, of_settling},
    {"canonical", canonical, false, none},   {"memcpy", copy, false, none},
    {"malloc+free", allocate, false, none},
    {"parse", parse_in_arena, true, none}, {"rewrite", rewrite_in_arena, true, none},
    {"settle", settle_in_arena, true, none},
};

// The last three are those in an arena, and the two before them what the others are compared to.
enum { OPERATION_COUNT = sizeof OPERATIONS / sizeof OPERATIONS[0], IN_ARENA = OPERATION_COUNT - 3, TIMED = IN_ARENA - 2, COPY = TIMED, ALLOCATE };

// Which operation is the first, which judges, and which writes.
enum { PARSE = 0, FITS = 2, EMIT = 3, REWRITE = 4, SETTLE = 5 };

// Beside a second library those in an arena aren't timed.
#ifdef BESIDE
enum { MEASURED = IN_ARENA };
#else
enum { MEASURED = OPERATION_COUNT };
#endif

// ---- Measuring.

static double now(void) {
    struct timespec t;
    clock_gettime(CLOCK_MONOTONIC, &t);
    return 1e9 * (double)t.tv_sec + (double)t.tv_nsec;
}

static double time_of(const Operation *op, const Message *m, size_t times) {
    double start = now();
    op->run(m, times);
    return now() - start;
}

// How often an operation is done in one sample, and the least time that a sample took, with no operation taken off.
typedef struct {
    size_t times;
    double at_rest, at_work;
} Measure;

static double least_of(double a, double b) { return a < b ? a : b; }

static Measure calibrate(const Operation *op, const Message *m) {
    double at_rest = op->begins ? time_of(op, m, 0) : 0, wanted = SAMPLE_NS > 4 * at_rest ? SAMPLE_NS : 4 * at_rest;
    size_t times = 4;
    while (times < MOST_TIMES && time_of(op, m, times) - at_rest < wanted) times *= 2;
    return (Measure){times, op->begins ? 1e18 : 0, 1e18};
}

static void sample(Measure *measure, const Operation *op, const Message *m) {
    for (int i = 0; i < SAMPLES; i++) {
        measure->at_work = least_of(measure->at_work, time_of(op, m, measure->times));
        if (op->begins) measure->at_rest = least_of(measure->at_rest, time_of(op, m, 0));
    }
}

// How many nanoseconds one time takes.
static double time_each(const Measure *measure) { return (measure->at_work - measure->at_rest) / (double)measure->times; }

static Blocks blocks_of(const Operation *op, const Message *m, size_t times) {
    blocks = (Blocks){0, 0, 0};
    op->run(m, times);
    return blocks;
}

// The blocks of one time.
static Blocks count_blocks(const Operation *op, const Message *m) {
    Blocks at_rest = op->begins ? blocks_of(op, m, 0) : (Blocks){0, 0, 0}, all = blocks_of(op, m, 1);
    return (Blocks){all.taken - at_rest.taken, all.grown - at_rest.grown, 0};
}

// In an arena the same bytes are written, also once it was emptied, and nothing after them.
static void check_in_arena(const Message *m, Write *write, size_t written) {
    memset(in_arena, 0x55, written + 1);
    done(m, write(m->bytes, m->len, in_arena, MOST_BYTES, 1));
    if (memcmp(in_arena, buffer, written) != 0 || in_arena[written] != 0x55) fail(m->name, "other bytes in the arena");
}

// What is timed is right: the lengths, the verdicts, the bytes of a canonical message, and how many rewrites settle it. Finds
// what the table says of the message itself.
static void check(Message *m) {
    lengths[0] = 0;
    blocks.owned = 0;
    length(m, 1);
    m->owned = blocks.owned;
    verdicts[0] = 0;
    fits(m, 1);
    if (!verdicts[0]) fail(m->name, "does not fit");
    memset(buffer, 0x55, lengths[0] + 1);
    rewrite(m, 1);
    if (buffer[lengths[0]] != 0x55) fail(m->name, "more bytes than its length");
    if (m->mode->arena) check_in_arena(m, m->mode->arena->rewrite, lengths[0]);
    canonical(m, 1);
    m->is_canonical = verdicts[0];
    bool same = lengths[0] == m->len && memcmp(buffer, m->bytes, m->len) == 0;
    if (same != m->is_canonical) fail(m->name, same ? "rewritten as it was, but not canonical" : "canonical, but rewritten");
    size_t written;
    done(m, m->mode->settle(m->bytes, m->len, buffer, MOST_BYTES, &written, &m->rewrites));
    if (m->rewrites == 0 ? !same : !m->mode->canonical(buffer, written)) fail(m->name, "not settled by so many rewrites");
    if (m->mode->arena) check_in_arena(m, m->mode->arena->settle, written);
}

// ---- Tables: a line for each message.

static Message messages[MOST_MESSAGES];
static Measure measures[MOST_MESSAGES][OPERATION_COUNT];

#ifdef BESIDE
// What the second library takes for the same messages.
static Measure old_measures[MOST_MESSAGES][OPERATION_COUNT];

static Message in_old(const Message *m) {
    Message old = *m;
    old.mode = m->mode == &TC ? &OLD_TC : &OLD_ACTION;
    return old;
}

// For each message and operation the time of the first library over that of the second, and their geometric means.
static void print_ratios(size_t n) {
    double logs[TIMED] = {0}, most[TIMED] = {0};
    printf("First library / second, and how often each operation was slower by more than 5 %%:\n\n| %-16s | %7s |", "message", "bytes");
    for (size_t op = 0; op < TIMED; op++) printf(" %9s |", OPERATIONS[op].name);
    printf("\n|---|---:|");
    for (size_t op = 0; op < TIMED; op++) printf("---:|");
    size_t slower[TIMED] = {0};
    for (size_t i = 0; i < n; i++) {
        printf("\n| %-16s | %7zu |", messages[i].name, messages[i].len);
        for (size_t op = 0; op < TIMED; op++) {
            double ratio = time_each(&measures[i][op]) / time_each(&old_measures[i][op]);
            logs[op] += log(ratio);
            most[op] = ratio > most[op] ? ratio : most[op];
            slower[op] += ratio > 1.05;
            printf(" %9.2f |", ratio);
        }
    }
    printf("\n| %-16s | %7s |", "geometric mean", "");
    for (size_t op = 0; op < TIMED; op++) printf(" %9.3f |", exp(logs[op] / (double)n));
    printf("\n| %-16s | %7s |", "most", "");
    for (size_t op = 0; op < TIMED; op++) printf(" %9.2f |", most[op]);
    printf("\n| %-16s | %7s |", "slower", "");
    for (size_t op = 0; op < TIMED; op++) printf(" %9zu |", slower[op]);
    printf("\n\n");
}
#endif

static double ns_of(size_t i, size_t op) { return time_each(&measures[i][op]); }

static double by_malloc(size_t i, size_t op) { return ns_of(i, op) / ns_of(0, ALLOCATE); }

static double by_memcpy(size_t i, size_t op) { return ns_of(i, op) / ns_of(i, COPY); }

static double megabytes(size_t i, size_t op) { return 1e3 * (double)messages[i].len / ns_of(i, op); }

static void print_times(const char *title, double (*figure)(size_t, size_t), size_t n) {
    printf("%s:\n\n| %-16s | %7s | %8s |", title, "message", "bytes", "rewrites");
    for (size_t op = 0; op < TIMED; op++) printf(" %9s |", OPERATIONS[op].name);
    printf("\n|---|---:|---:|");
    for (size_t op = 0; op < TIMED; op++) printf("---:|");
    printf("\n");
    for (size_t i = 0; i < n; i++) {
        printf("| %-16s | %7zu | %8zu |", messages[i].name, messages[i].len, messages[i].rewrites);
        for (size_t op = 0; op < TIMED; op++) printf(" %9.1f |", figure(i, op));
        printf("\n");
    }
    printf("\n");
}

// The blocks that each operation takes, and after + those of them that its values don't own.
static void print_blocks(size_t n) {
    printf("Blocks of memory that an operation takes, after + those of them that its values don't own; how often a parse has one\n"
           "grow; and the time of `fits` over that of `emit`:\n\n| %-16s |", "message");
    for (size_t op = 0; op < TIMED; op++) printf(" %13s |", OPERATIONS[op].name);
    printf(" %5s | %11s |\n|---|", "grown", "fits / emit");
    for (size_t op = 0; op < TIMED + 2; op++) printf("---:|");
    printf("\n");
    for (size_t i = 0; i < n; i++) {
        const Message *m = &messages[i];
        printf("| %-16s |", m->name);
        for (size_t op = 0; op < TIMED; op++) {
            size_t taken = count_blocks(&OPERATIONS[op], m).taken, owned = OPERATIONS[op].owned(m);
            printf(taken > owned ? " %6zu +%5zu |" : " %6zu        |", taken, taken - owned);
        }
        printf(" %5zu | %11.2f |\n", count_blocks(&OPERATIONS[PARSE], m).grown, ns_of(i, FITS) / ns_of(i, EMIT));
    }
}

// What the operations take in an arena, and that over what they take by malloc; at the end the geometric means.
static void print_arena(size_t n) {
    static const size_t BY_MALLOC[] = {PARSE, REWRITE, SETTLE};
    double logs[] = {0, 0, 0};
    printf("\nNanoseconds in an arena, and over those by malloc:\n\n| %-16s | %7s |", "message", "bytes");
    for (size_t k = 0; k < 3; k++) printf(" %9s |", OPERATIONS[IN_ARENA + k].name);
    for (size_t k = 0; k < 3; k++) printf(" %7s / malloc |", OPERATIONS[IN_ARENA + k].name);
    printf("\n|---|---:|---:|---:|---:|---:|---:|---:|\n");
    for (size_t i = 0; i < n; i++) {
        printf("| %-16s | %7zu |", messages[i].name, messages[i].len);
        for (size_t k = 0; k < 3; k++) printf(" %9.1f |", ns_of(i, IN_ARENA + k));
        for (size_t k = 0; k < 3; k++) {
            double ratio = ns_of(i, IN_ARENA + k) / ns_of(i, BY_MALLOC[k]);
            logs[k] += log(ratio);
            printf(" %16.2f |", ratio);
        }
        printf("\n");
    }
    printf("| %-16s | %7s | %9s | %9s | %9s |", "geometric mean", "", "", "", "");
    for (size_t k = 0; k < 3; k++) printf(" %16.2f |", exp(logs[k] / (double)n));
    printf("\n");
}

int main(int count, char **words) {
    if (count < 2) fail("usage", "bench MESSAGES..");
    // Freed memory is kept, so that no time goes into asking the system for it again.
    mallopt(M_MMAP_THRESHOLD, 1 << 28);
    mallopt(M_TRIM_THRESHOLD, 1 << 28);

    buffer = malloc(MOST_BYTES);
    in_arena = malloc(MOST_BYTES);
    lengths = calloc(MOST_TIMES, sizeof *lengths);
    verdicts = calloc(MOST_TIMES, sizeof *verdicts);

    size_t n = 0;
    for (int i = 1; i < count; i++) {
        FILE *file = fopen(words[i], "r");
        if (!file) fail(words[i], "no such file");
        static char line[1 << 16];
        // A line that begins with a space is about the one before.
        while (fgets(line, sizeof line, file) && n < MOST_MESSAGES - 16) {
            line[strcspn(line, "\n")] = 0;
            if (line[0] && !strchr("# ", line[0])) messages[n++] = read_line(line);
        }
        fclose(file);
    }
    messages[n++] = make_options("options_100", "fq_codel", 0, put_option, 100);
    messages[n++] = make_options("options_1000", "fq_codel", 0, put_option, 1000);
    messages[n++] = make_options("flower_500", "flower", 3, put_action, 500);
    static const struct {
        const Mode *mode;
        uint8_t *(*put)(uint8_t *, size_t);
        const char *names[3];
            size_t first; // how many make 1,000 attributes
    } GROWN[] = {
        {&TC, put_mixed, {"tc_1000", "tc_64_KiB", "tc_1_MiB"}, 1000},
        {&ACTION, put_actions, {"action_1000", "action_64_KiB", "action_1_MiB"}, 8},
    };
    enum { GROWN_COUNT = sizeof GROWN / sizeof GROWN[0] };
    size_t grown = n;
    for (size_t g = 0; g < GROWN_COUNT; g++) {
        messages[n++] = make_list(GROWN[g].names[0], GROWN[g].mode, GROWN[g].put, GROWN[g].first, 64 << 10);
        messages[n++] = make_list(GROWN[g].names[1], GROWN[g].mode, GROWN[g].put, SIZE_MAX, 64 << 10);
        messages[n++] = make_list(GROWN[g].names[2], GROWN[g].mode, GROWN[g].put, SIZE_MAX, 1 << 20);
    }

    for (size_t i = 0; i < n; i++) {
        check(&messages[i]);
        for (size_t op = 0; op < MEASURED; op++) measures[i][op] = calibrate(&OPERATIONS[op], &messages[i]);
#ifdef BESIDE
        Message old = in_old(&messages[i]);
        check(&old);
        memcpy(old_measures[i], measures[i], sizeof old_measures[i]);
#endif
    }
    for (int pass = 0; pass < PASSES; pass++)
        for (size_t i = 0; i < n; i++)
            for (size_t op = 0; op < MEASURED; op++) {
                sample(&measures[i][op], &OPERATIONS[op], &messages[i]);
#ifdef BESIDE
                Message old = in_old(&messages[i]);
                sample(&old_measures[i][op], &OPERATIONS[op], &old);
#endif
            }
#ifdef BESIDE
    print_ratios(n);
    return 0;
#endif

    print_times("Nanoseconds", ns_of, n);
    print_times("As multiples of one `malloc` and `free` of 64 bytes", by_malloc, n);
    print_times("As multiples of a `memcpy` of the message's bytes", by_memcpy, n);
    print_times("MB/s", megabytes, n);
    print_blocks(n);
    print_arena(n);
    printf("\nGrowth, as the time for a byte over that at 1,000 attributes:\n\n| operation |");
    for (size_t g = 0; g < GROWN_COUNT; g++) printf(" %s | %s |", GROWN[g].names[1], GROWN[g].names[2]);
    printf("\n|---|---:|---:|---:|---:|\n");
    for (size_t op = 0; op < TIMED; op++) {
        printf("| %-9s |", OPERATIONS[op].name);
        for (size_t i = grown; i < n; i++) {
            size_t first = i - (i - grown) % 3;
            double each = ns_of(i, op) / (double)messages[i].len;
            if (i > first) printf(" %.2f |", each / (ns_of(first, op) / (double)messages[first].len));
        }
        printf("\n");
    }
    printf("\nA malloc and a free of 64 bytes took %.1f ns.\n", ns_of(0, ALLOCATE));
    return 0;
}
