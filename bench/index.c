// Times vtc_index and vtc_action_index on the messages of a file of lines `NAME MODE HEX`: the least of many samples.
#define _GNU_SOURCE
#include <stdint.h>
#include <stdio.h>
#include <stdlib.h>
#include <string.h>
#include <time.h>
#include <vtc.h>

enum { LINE = 1 << 16, SAMPLES = 5000, TIMES = 200 };

// The slots begin half a page after the bytes: a load of the place in a page that was just stored to waits for that store.
static _Alignas(4096) struct {
    uint8_t bytes[LINE / 2 + 2048];
    struct vtc_node slots[LINE / 8];
} at;

static double now(void) {
    struct timespec t;
    clock_gettime(CLOCK_MONOTONIC, &t);
    return (double)t.tv_sec * 1e9 + (double)t.tv_nsec;
}

int main(int count, char **words) {
    static char line[LINE], name[64], mode[16], hex[LINE];
    FILE *file = fopen(count > 1 ? words[1] : "messages", "r");
    if (!file) return perror("index"), 1;
    printf("| message | bytes | attributes | ns |\n|---|---:|---:|---:|\n");
    while (fgets(line, sizeof line, file)) {
        if (line[0] == '#' || sscanf(line, "%63s %15s %65535s", name, mode, hex) != 3) continue;
        size_t len = strlen(hex) / 2, found = 0;
        for (size_t i = 0; i < len; i++) sscanf(hex + 2 * i, "%2hhx", &at.bytes[i]);
        size_t (*index)(const uint8_t *, size_t, struct vtc_node *, size_t) = strcmp(mode, "tc") ? vtc_action_index : vtc_index;
        double least = 1e18;
        for (int sample = 0; sample < SAMPLES; sample++) {
            double begin = now();
            for (int i = 0; i < TIMES; i++) found = index(at.bytes, len, at.slots, len / 4);
            double each = (now() - begin) / TIMES;
            if (each < least) least = each;
        }
        printf("| %s | %zu | %zu | %.1f |\n", name, len, found, least);
    }
    fclose(file);
    return 0;
}
