// Counts the instructions of the codec's calls under callgrind: those of one library, or of two beside each other, for each message of a file.
// `unproved` compiles both and reads the counts. Each operation of each message is one dump of callgrind, named OPERATION MESSAGE LIBRARY TIMES.
#include <stdint.h>
#include <stdio.h>
#include <stdlib.h>
#include <string.h>
#include <valgrind/callgrind.h>

#define DECLARE(OLD, TYPE)                                                                               \
    uint32_t OLD##parse_##TYPE(const uint8_t *bytes, size_t len);                                        \
    uint32_t OLD##fits_##TYPE(const uint8_t *bytes, size_t len, uint8_t *verdicts, size_t times);        \
    uint32_t OLD##emit_##TYPE(const uint8_t *bytes, size_t len, uint8_t *buffer, size_t room, size_t times); \
    uint32_t OLD##rewrite_##TYPE(const uint8_t *bytes, size_t len, uint8_t *buffer, size_t room);        \
    uint32_t OLD##canonical_##TYPE(const uint8_t *bytes, size_t len);

typedef struct {
    uint32_t (*parse)(const uint8_t *, size_t);
    uint32_t (*fits)(const uint8_t *, size_t, uint8_t *, size_t);
    uint32_t (*emit)(const uint8_t *, size_t, uint8_t *, size_t, size_t);
    uint32_t (*rewrite)(const uint8_t *, size_t, uint8_t *, size_t);
    uint32_t (*canonical)(const uint8_t *, size_t);
} Calls;

#define CALLS(OLD, TYPE) {OLD##parse_##TYPE, OLD##fits_##TYPE, OLD##emit_##TYPE, OLD##rewrite_##TYPE, OLD##canonical_##TYPE}

DECLARE(, tc)
DECLARE(, action)
#ifdef BESIDE
DECLARE(old_, tc)
DECLARE(old_, action)
enum { LIBRARIES = 2 };
static const Calls LIBRARY[][2] = {{CALLS(, tc), CALLS(, action)}, {CALLS(old_, tc), CALLS(old_, action)}};
#else
enum { LIBRARIES = 1 };
static const Calls LIBRARY[][2] = {{CALLS(, tc), CALLS(, action)}};
#endif

enum { ROOM = 1 << 20, LINE = 1 << 18 };

// What `fits` and `emit` do once, reading the message, is measured by no times and taken off by the reader.
static const char *const OPERATIONS[] = {"parse", "fits", "emit", "rewrite", "canonical"};
static const size_t TIMES[][2] = {{1, 1}, {0, 10}, {0, 10}, {1, 1}, {1, 1}};

static uint32_t run(const Calls *calls, int operation, const uint8_t *bytes, size_t len, uint8_t *buffer, size_t times) {
    switch (operation) {
    case 0: return calls->parse(bytes, len);
    case 1: return calls->fits(bytes, len, buffer, times);
    case 2: return calls->emit(bytes, len, buffer, ROOM, times);
    case 3: return calls->rewrite(bytes, len, buffer, ROOM);
    default: return calls->canonical(bytes, len) > 1;
    }
}

int main(int count, char **words) {
    FILE *file = count == 2 ? fopen(words[1], "r") : NULL;
    if (!file) return 2;
    char *line = malloc(LINE), tag[256];
    uint8_t *bytes = malloc(LINE / 2), *buffer = malloc(ROOM);
    while (fgets(line, LINE, file)) {
        char *name = strtok(line, " \n"), *type = strtok(NULL, " \n"), *hex = strtok(NULL, " \n");
        if (!hex || *name == '#') continue;
        size_t len = strlen(hex) / 2;
        for (size_t i = 0; i < len; i++) sscanf(hex + 2 * i, "%2hhx", bytes + i);
        for (int operation = 0; operation < 5; operation++)
            for (int library = 0; library < LIBRARIES; library++) {
                const Calls *calls = &LIBRARY[library][strcmp(type, "tc") != 0];
                const size_t *times = TIMES[operation];
                // So that malloc has what it takes, and callgrind the code.
                if (run(calls, operation, bytes, len, buffer, 3) != 0) return fprintf(stderr, "%s: refused\n", name), 1;
                for (int i = 0; i < 1 + (times[0] != times[1]); i++) {
                    CALLGRIND_ZERO_STATS;
                    CALLGRIND_START_INSTRUMENTATION;
                    run(calls, operation, bytes, len, buffer, times[i]);
                    CALLGRIND_STOP_INSTRUMENTATION;
                    snprintf(tag, sizeof tag, "%s %s %d %zu", OPERATIONS[operation], name, library, times[i]);
                    CALLGRIND_DUMP_STATS_AT(tag);
                }
            }
    }
    return 0;
}
