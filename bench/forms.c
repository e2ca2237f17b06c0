// Times what forms.rt does with messages, lines `NAME MODE HEX` of a file. With a name, a call and a number it does that so often and times nothing.
#include <malloc.h>
#include <stdint.h>
#include <stdio.h>
#include <stdlib.h>
#include <string.h>
#include <time.h>

// So many times: from bytes to text in the buffer or back, of a message of a mode (0 is tc). It returns how long the result is, and 0 where there is none.
#define DECLARE(NAME) size_t NAME(uint32_t mode, const uint8_t *from, size_t len, uint8_t *buffer, size_t room, size_t times)
typedef DECLARE((*Call));
DECLARE(codec_show);
DECLARE(forms_show);
DECLARE(codec_make);
DECLARE(forms_make);

static const struct {
    const char *name;
    Call call;
} CALLS[] = {{"codec_show", codec_show}, {"forms_show", forms_show}, {"codec_make", codec_make}, {"forms_make", forms_make}};

enum { COUNT = 4, ROOM = 1 << 20, LINE = 1 << 20, TIMES = 200, SAMPLES = 40 };

static char line[LINE];
static uint8_t bytes[LINE], buffer[ROOM], texts[2][ROOM];

static double now(void) {
    struct timespec t;
    clock_gettime(CLOCK_MONOTONIC, &t);
    return t.tv_sec * 1e9 + t.tv_nsec;
}

int main(int count, char **words) {
    mallopt(M_TRIM_THRESHOLD, 1 << 30);
    mallopt(M_MMAP_THRESHOLD, 1 << 30);
    FILE *file = count > 1 ? fopen(words[1], "r") : NULL;
    if (!file) return 2;
    while (fgets(line, LINE, file)) {
        char *name = strtok(line, " \n"), *type = strtok(NULL, " \n"), *hex = strtok(NULL, " \n");
        if (!hex || *name == '#' || (count > 2 && strcmp(name, words[2]))) continue;
        size_t len = strlen(hex) / 2, text[2];
        uint32_t mode = strcmp(type, "tc") != 0;
        for (size_t i = 0; i < len; i++) sscanf(hex + 2 * i, "%2hhx", bytes + i);
        for (int way = 0; way < 2; way++) {
            text[way] = CALLS[way].call(mode, bytes, len, texts[way], ROOM, 1);
            size_t again = CALLS[2 + way].call(mode, texts[way], text[way], buffer, ROOM, 1);
            if (again != len || memcmp(buffer, bytes, len)) return fprintf(stderr, "%s: %s doesn't come back\n", name, CALLS[2 + way].name), 1;
        }
        const uint8_t *from[] = {bytes, bytes, texts[0], texts[1]};
        size_t lens[] = {len, len, text[0], text[1]};
        if (count > 4) {
            for (int i = 0; i < COUNT; i++)
                if (!strcmp(CALLS[i].name, words[3])) CALLS[i].call(mode, from[i], lens[i], buffer, ROOM, atol(words[4]));
            continue;
        }
        double least[COUNT] = {1e18, 1e18, 1e18, 1e18};
        for (int sample = 0; sample < SAMPLES; sample++)
            for (int i = 0; i < COUNT; i++) {
                double before = now();
                CALLS[i].call(mode, from[i], lens[i], buffer, ROOM, TIMES);
                double took = (now() - before) / TIMES;
                if (took < least[i]) least[i] = took;
            }
        printf("%s %.1f %.1f %.1f %.1f\n", name, least[0], least[1], least[2], least[3]);
        fflush(stdout);
    }
    return 0;
}
