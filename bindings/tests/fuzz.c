/* Calls every export on changed messages, at guard pages and with failing allocations, for so many seconds.
 *
 *     fuzz SECONDS < MESSAGES       lines `tc HEX` and `action HEX`
 *
 * It is linked with --wrap=malloc, --wrap=realloc and --wrap=free. What it tries is the same in each run.
 */
#define _GNU_SOURCE
#include "../examples/hex.h"
#include <stdio.h>
#include <stdlib.h>
#include <string.h>
#include <sys/mman.h>
#include <time.h>
#include <vtc.h>

enum { MESSAGES = 2048, BYTES = 1 << 17, LINE = 1 << 20, PAGE = 4096, FILL = 0x55, BESIDE = 256, STATUSES = VTC_NO_MESSAGE + 1 };

/* ---- Allocations: one of a call fails, and none is left after it. */

static size_t live, taken, failing;

void *__real_malloc(size_t size);
void *__real_realloc(void *block, size_t size);
void __real_free(void *block);

void *__wrap_malloc(size_t size) {
    if (++taken == failing) return NULL;
    void *block = __real_malloc(size);
    live += block != NULL;
    return block;
}

void *__wrap_realloc(void *block, size_t size) {
    if (++taken == failing) return NULL;
    void *moved = __real_realloc(block, size);
    live += !block && moved;
    return moved;
}

void __wrap_free(void *block) {
    live -= block != NULL;
    __real_free(block);
}

/* ---- Memory between two pages that can't be touched. */

typedef struct {
    uint8_t *first, *end;
} Space;

static Space between_guards(size_t size) {
    uint8_t *pages = mmap(NULL, size + 2 * PAGE, PROT_NONE, MAP_PRIVATE | MAP_ANONYMOUS, -1, 0);
    if (pages == MAP_FAILED || mprotect(pages + PAGE, size, PROT_READ | PROT_WRITE)) exit(2);
    return (Space){pages + PAGE, pages + PAGE + size};
}

/* ---- Numbers that are the same in each run. */

static uint64_t state = 88172645463325252u;

static uint64_t below(uint64_t limit) {
    state ^= state << 13;
    state ^= state >> 7;
    state ^= state << 17;
    return state % limit;
}

/* ---- Messages. */

typedef struct {
    int is_action;
    size_t len;
    uint8_t *bytes;
} Message;

static Message messages[MESSAGES];
static size_t message_count;
static unsigned long run;

static void fail(const char *what) {
    printf("run %lu: %s\n", run, what);
    exit(1);
}

static void expect(int holds, const char *what) {
    if (!holds) fail(what);
}

static void read_messages(void) {
    static char line[LINE];
    static uint8_t bytes[BYTES];
    while (fgets(line, sizeof line, stdin) && message_count < MESSAGES) {
        Message *m = &messages[message_count];
        if (!read_hex(strchr(line, ' ') + 1, bytes, sizeof bytes, &m->len)) continue;
        m->is_action = strncmp(line, "action", 6) == 0;
        m->bytes = __real_malloc(m->len + 1);
        memcpy(m->bytes, bytes, m->len);
        message_count++;
    }
}

static int is_filled(const void *from, const void *to) {
    for (const uint8_t *at = from; at < (const uint8_t *)to; at++)
        if (*at != FILL) return 0;
    return 1;
}

/* ---- Calls. */

static Space input, output, slots, text, json, reason;
static unsigned long statuses[STATUSES];
static struct vtc_verdict *verdict;
static struct vtc_fault *fault;
static struct vtc_attr *attr;
static size_t *length, *rewrites, *place, *why_length;

/* Begins a call: perhaps one of its allocations fails. */
static void begin(void) {
    taken = 0;
    failing = below(4) ? 0 : 1 + below(40);
}

static int memory_failed(void) { return failing && taken >= failing; }

static void ended(uint32_t status) {
    expect(status < STATUSES, "a status that is none");
    statuses[status]++;
    expect(live == 0, "a block is left");
    expect(status != VTC_OUT_OF_MEMORY || memory_failed(), "out of memory, though none was refused");
}

/* A buffer of so many bytes, which ends where memory ends, and some before it. */
static uint8_t *buffer_of(size_t room) {
    memset(output.end - room - BESIDE, FILL, room + BESIDE);
    return output.end - room;
}

typedef uint32_t (*Writer)(const uint8_t *, size_t, uint8_t *, size_t, size_t *);

static uint32_t settle(const uint8_t *bytes, size_t len, uint8_t *buffer, size_t room, size_t *written) {
    return vtc_settle(bytes, len, buffer, room, written, rewrites);
}

static uint32_t settle_action(const uint8_t *bytes, size_t len, uint8_t *buffer, size_t room, size_t *written) {
    return vtc_action_settle(bytes, len, buffer, room, written, rewrites);
}

/* A call that writes: the buffer, where it succeeded. `known` is how the check ended. */
static uint8_t *written(Writer writer, const uint8_t *bytes, size_t len, uint32_t known, size_t most) {
    size_t room = below(3) ? most : below(most + 1);
    uint8_t *buffer = buffer_of(room);
    begin();
    uint32_t status = writer(bytes, len, buffer, room, length);
    ended(status);
    if (status == VTC_OUT_OF_MEMORY) return NULL;
    if (known >= VTC_BUFFER_TOO_SMALL && known <= VTC_DUPLICATE_KIND) expect(status == known, "another fault");
    if (known == VTC_OK) expect(status == VTC_OK || status == VTC_NO_ROOM || status == VTC_DOES_NOT_FIT, "a fault, but it was checked");
    expect(is_filled(buffer - BESIDE, status ? output.end : buffer), "the buffer was touched");
    if (status == VTC_NO_ROOM) expect(*length > room, "no room, but there is");
    if (status != VTC_OK) return NULL;
    expect(*length <= room && is_filled(buffer + *length, output.end), "more was written");
    return buffer;
}

static void try_index(const uint8_t *bytes, size_t len, int is_action) {
    size_t count = below(2) ? len / 4 : below(8);
    struct vtc_node *first = (struct vtc_node *)(void *)slots.end - count;
    uint8_t *before = (uint8_t *)first - BESIDE;
    memset(before, FILL, (size_t)(slots.end - before));
    size_t found = (is_action ? vtc_action_index : vtc_index)(bytes, len, first, count), filled = found < count ? found : count;
    expect(found <= len / 4, "more attributes than slots that suffice");
    expect(is_filled(before, first) && is_filled(first + filled, slots.end), "other slots were touched");
    size_t at = is_action ? 4 : 20;
    for (size_t i = 0; i < filled; i++) {
        const struct vtc_node *node = &first[i];
        expect(node->offset <= len && node->len <= len - node->offset, "an attribute outside of the message");
        expect(node->depth <= 4 && node->table <= VTC_TABLE_LSE && node->table != VTC_TABLE_OPTIONS, "a depth or table that is none");
        if (node->depth) continue;
        expect(vtc_next(bytes, len, &at, attr) == VTC_OK, "an attribute that isn't next");
        expect(attr->offset == node->offset && attr->len == node->len && attr->word == node->word, "another attribute is next");
    }
}

static void try_next(const uint8_t *bytes, size_t len) {
    memset(attr, FILL, sizeof *attr);
    *place = below(8) ? below(len + 8) : below(UINT64_MAX);
    size_t old = *place;
    uint32_t status = vtc_next(bytes, len, place, attr);
    if (status == VTC_OK)
        expect(*place > old && *place <= len && attr->offset == old + 4 && attr->len <= len - attr->offset, "a wrong place");
    else
        expect(*place == old && is_filled(attr, (uint8_t *)attr + sizeof *attr), "the place or the attribute was touched");
    expect((status == VTC_END) == (old >= len), "an end that is none");
}

typedef uint32_t (*Maker)(const char *, size_t, uint8_t *, size_t, size_t *, char *, size_t, size_t *);

/* What a call makes of JSON, whose characters may be changed: the buffer, where it makes anything. `known` are the bytes that it makes of
 * the JSON unchanged, or NULL. */
static uint8_t *try_make(Maker maker, const uint8_t *json, size_t len, const uint8_t *known, size_t known_len) {
    static const char characters[] = "{}[]\":,.-+0123456789eEtrufalsnKOoth \\\xc3\xa4";
    uint8_t *copy = text.end - len;
    memcpy(copy, json, len);
    for (uint64_t changes = below(3); changes && len; changes--, known = NULL) copy[below(len)] = (uint8_t)characters[below(sizeof characters)];
    size_t room = below(3) ? len : below(len + 1), why_room = below(2) ? BESIDE : below(BESIDE);
    uint8_t *buffer = buffer_of(room), *why = reason.end - why_room;
    memset(why - BESIDE, FILL, why_room + BESIDE);
    begin();
    uint32_t status = maker((const char *)copy, len, buffer, room, length, (char *)why, why_room, why_length);
    ended(status);
    expect(status == VTC_OK || status >= VTC_OUT_OF_MEMORY, "a fault of bytes, but there are none");
    expect(*why_length <= why_room && is_filled(why - BESIDE, why) && is_filled(why + *why_length, reason.end), "more of a text was written");
    expect(*why_length == 0 || status == VTC_NOT_JSON || status == VTC_NO_MESSAGE, "a text, but no error");
    expect(is_filled(buffer - BESIDE, status ? output.end : buffer), "the buffer was touched");
    if (status == VTC_NO_ROOM) expect(*length > room, "no room, but there is");
    if (known) expect(status == VTC_OK || status == VTC_NO_ROOM || status == VTC_OUT_OF_MEMORY, "nothing is made of JSON that was shown");
    if (status != VTC_OK) return NULL;
    expect(*length <= room && is_filled(buffer + *length, output.end), "more was written");
    if (known) expect(*length == known_len && memcmp(buffer, known, known_len) == 0, "other bytes are made of its JSON");
    return buffer;
}

static void try_message(const uint8_t *bytes, size_t len, int is_action) {
    memset(verdict, FILL, sizeof *verdict);
    memset(fault, FILL, sizeof *fault);
    begin();
    uint32_t status = (is_action ? vtc_action_check : vtc_check)(bytes, len, verdict, fault);
    ended(status);
    expect(status <= VTC_OUT_OF_MEMORY, "a status that is none");
    expect(is_filled(status ? (void *)verdict : (void *)fault, status ? (void *)(verdict + 1) : (void *)(fault + 1)), "the other struct was touched");
    if (status) expect(fault->offset <= len, "a fault outside of the message");
    uint8_t canonical = (is_action ? vtc_action_is_canonical : vtc_is_canonical)(bytes, len);
    if (status == VTC_OK) expect(canonical == verdict->canonical, "two verdicts on canonical");
    if (status && status != VTC_OUT_OF_MEMORY) expect(!canonical, "canonical, but it has a fault");
    try_index(bytes, len, is_action);
    try_next(bytes, len);

    uint8_t *buffer = written(is_action ? vtc_action_rewrite : vtc_rewrite, bytes, len, status, len + 64);
    if (buffer) {
        if (status == VTC_OK) expect(*length == verdict->length, "another length");
        expect((*length == len && memcmp(buffer, bytes, len) == 0) == canonical, "the same bytes, but for canonical ones alone");
    }
    buffer = written(is_action ? settle_action : settle, bytes, len, status, len + 64);
    if (buffer) {
        expect((is_action ? vtc_action_is_canonical : vtc_is_canonical)(buffer, *length), "settled bytes that aren't canonical");
        expect((*rewrites == 0) == canonical, "rewrites of canonical bytes");
    }
    /* Bytes that can't be read have their JSON, too. */
    buffer = written(is_action ? vtc_action_json : vtc_json, bytes, len, VTC_OUT_OF_MEMORY, 32 * len + 256);
    if (!buffer) return;
    expect(buffer[0] == '{' && buffer[*length - 1] == '}', "JSON that is no object");
    size_t shown_len = *length;
    uint8_t *shown = memcpy(json.first, buffer, shown_len);
    try_make(is_action ? vtc_action_make_as_given : vtc_make_as_given, shown, shown_len, bytes, len);
    buffer = try_make(is_action ? vtc_action_make : vtc_make, shown, shown_len, canonical ? bytes : NULL, len);
    if (buffer) expect((is_action ? vtc_action_is_canonical : vtc_is_canonical)(buffer, *length), "made bytes that aren't canonical");
}

/* No bytes, no slots and no buffer, each as NULL. */
static void try_nothing(void) {
    try_message(NULL, 0, 0);
    try_message(NULL, 0, 1);
    static const uint8_t header[20];
    failing = 0;
    expect(vtc_index(header, 20, NULL, 0) == 0 && vtc_action_index(header, 4, NULL, 0) == 0, "attributes of a header alone");
    expect(vtc_rewrite(header, 20, NULL, 0, length) == VTC_NO_ROOM && *length == 20, "a length without a buffer");
    expect(vtc_action_json(header, 4, NULL, 0, length) == VTC_NO_ROOM && *length > 2, "a length of text without a buffer");
    expect(vtc_make(NULL, 0, NULL, 0, length, NULL, 0, why_length) == VTC_NOT_JSON && *why_length == 0, "a message of no text");
}

/* An object with a key twice is refused at the second one. */
static void try_key_twice(void) {
    static const char json[] = "{\"header\":{\"flags\":0,\"flags\":0},\"attributes\":[]}";
    static const char told[] = "/header/flags: found twice, wanted once";
    char why[sizeof told];
    uint32_t status = vtc_action_make(json, sizeof json - 1, NULL, 0, length, why, sizeof why, why_length);
    expect(status == VTC_NO_MESSAGE && *why_length == sizeof told - 1 && !memcmp(why, told, sizeof told - 1), "a key twice");
}

int main(int count, char **words) {
    double seconds = count > 1 ? atof(words[1]) : 60;
    read_messages();
    input = between_guards(BYTES);
    output = between_guards(40 * BYTES);
    slots = between_guards(8 * BYTES);
    text = between_guards(40 * BYTES);
    json = between_guards(40 * BYTES);
    reason = between_guards(PAGE);
    /* What is written beside the buffer ends where memory ends, too. */
    verdict = (struct vtc_verdict *)(void *)between_guards(PAGE).end - 1;
    fault = (struct vtc_fault *)(void *)between_guards(PAGE).end - 1;
    attr = (struct vtc_attr *)(void *)between_guards(PAGE).end - 1;
    length = (size_t *)(void *)between_guards(PAGE).end - 1;
    rewrites = (size_t *)(void *)between_guards(PAGE).end - 1;
    place = (size_t *)(void *)between_guards(PAGE).end - 1;
    why_length = (size_t *)(void *)between_guards(PAGE).end - 1;
    if (!message_count) return 2;
    try_nothing();
    try_key_twice();
    time_t end = time(NULL) + (time_t)seconds;
    for (run = 0; run % 1024 || time(NULL) < end; run++) {
        const Message *m = &messages[below(message_count)];
        size_t len = below(6) ? m->len : below(m->len + 1);
        /* It ends or begins where memory does. */
        uint8_t *bytes = below(2) ? input.end - len : input.first;
        memcpy(bytes, m->bytes, len);
        for (uint64_t changes = below(4); changes && len; changes--) bytes[below(len)] = (uint8_t)(below(3) ? below(24) : below(256));
        try_message(bytes, len, below(16) ? m->is_action : !m->is_action);
    }
    printf("%lu runs on %zu messages", run, message_count);
    for (int i = 0; i < STATUSES; i++) {
        if (i == VTC_END) continue;
        expect(statuses[i] > 0, "a status that no call ended with");
        printf("%s %lu", i ? "," : "; ended with 0 to 13, 15 and 16:", statuses[i]);
    }
    printf("\n");
    return 0;
}
