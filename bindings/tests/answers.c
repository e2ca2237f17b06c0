/* Prints what every call answers of each message on standard input, lines `tc HEX` and `action HEX`. */
#define _GNU_SOURCE
#include "../examples/hex.h"
#include <stdio.h>
#include <stdlib.h>
#include <string.h>
#include <vtc.h>

enum { ROOM = 1 << 20, LINE = 1 << 20 };

static uint8_t bytes[ROOM], buffer[ROOM], text[ROOM];
static struct vtc_node nodes[ROOM / 4];

static void print_hex(size_t length) {
    for (size_t i = 0; i < length; i++) printf("%02x", buffer[i]);
}

typedef uint32_t maker(const char *, size_t, uint8_t *, size_t, size_t *, char *, size_t, size_t *);

/* What is made of the text of a message, or why there is nothing. */
static void make(const char *name, maker *call, size_t len) {
    static char why[4096];
    size_t length = 0, why_length = 0;
    uint32_t status = call((const char *)text, len, buffer, sizeof buffer, &length, why, sizeof why, &why_length);
    if (status != VTC_OK) memcpy(buffer, why, length = why_length);
    printf("; %s %u ", name, status);
    print_hex(length);
}

int main(void) {
    static char line[LINE];
    while (fgets(line, sizeof line, stdin)) {
        int is_action = strncmp(line, "action", 6) == 0;
        size_t len = 0, length = 0, rewrites = 0;
        if (!read_hex(strchr(line, ' ') + 1, bytes, sizeof bytes, &len)) return 2;
        struct vtc_verdict verdict;
        struct vtc_fault fault;
        uint32_t status = (is_action ? vtc_action_check : vtc_check)(bytes, len, &verdict, &fault);
        if (status == VTC_OK)
            printf("check %u %u %u %zu", verdict.fits, verdict.settled, verdict.canonical, verdict.length);
        else
            printf("fault %u %zu %zu %zu", status, fault.first, fault.second, fault.offset);
        printf("; canonical %u; ", (is_action ? vtc_action_is_canonical : vtc_is_canonical)(bytes, len));
        status = (is_action ? vtc_action_rewrite : vtc_rewrite)(bytes, len, buffer, sizeof buffer, &length);
        printf("rewrite %u ", status);
        if (status == VTC_OK) print_hex(length);
        status = (is_action ? vtc_action_settle : vtc_settle)(bytes, len, buffer, sizeof buffer, &length, &rewrites);
        printf("; settle %u ", status);
        if (status == VTC_OK) printf("%zu ", rewrites), print_hex(length);
        size_t count = (is_action ? vtc_action_index : vtc_index)(bytes, len, nodes, ROOM / 4);
        printf("; index");
        for (size_t i = 0; i < count; i++)
            printf(" %zu:%zu:%u:%u:%u", nodes[i].offset, nodes[i].len, nodes[i].word, nodes[i].table, nodes[i].depth);
        printf("; list");
        size_t at = is_action ? 4 : 20;
        struct vtc_attr attr;
        while ((status = vtc_next(bytes, len, &at, &attr)) == VTC_OK) printf(" %zu:%zu:%u", attr.offset, attr.len, attr.word);
        printf(" %u", status);
        status = (is_action ? vtc_action_json : vtc_json)(bytes, len, text, sizeof text, &length);
        if (status != VTC_OK) length = 0;
        make("make", is_action ? vtc_action_make : vtc_make, length);
        make("given", is_action ? vtc_action_make_as_given : vtc_make_as_given, length);
        printf("; json %u ", status);
        fwrite(text, 1, length, stdout);
        printf("\n");
    }
    return 0;
}
