/* Prints what is said of a message, and the canonical bytes to which rewriting leads.
 *
 *     settle HEX            a traffic control message
 *     settle HEX action     an action message
 */
#include "hex.h"
#include <stdio.h>
#include <stdlib.h>
#include <string.h>
#include <vtc.h>

enum { ROOM = 1 << 16 };

static const char *yes_or_no(uint8_t verdict) { return verdict ? "yes" : "no"; }

int main(int count, char **words) {
    static uint8_t bytes[ROOM];
    size_t len = 0;
    if (!vtc_matches()) {
        fprintf(stderr, "%s: vtc.h is %06x, but libvtc is %06x\n", words[0], VTC_VERSION, vtc_version());
        return 2;
    }
    if (count < 2 || !read_hex(words[1], bytes, sizeof bytes, &len)) {
        fprintf(stderr, "usage: settle HEX [action]\n");
        return 2;
    }
    int is_action = count > 2 && strcmp(words[2], "action") == 0;
    struct vtc_verdict verdict;
    struct vtc_fault fault;
    uint32_t status = (is_action ? vtc_action_check : vtc_check)(bytes, len, &verdict, &fault);
    if (status != VTC_OK) {
        printf("status %u, %zu and %zu, at byte %zu\n", status, fault.first, fault.second, fault.offset);
        return 1;
    }
    printf("fits %s\nsettled %s\ncanonical %s\n", yes_or_no(verdict.fits), yes_or_no(verdict.settled), yes_or_no(verdict.canonical));

    /* Without a buffer the call says how many bytes it takes. */
    uint8_t *buffer = NULL;
    size_t length = 0, rewrites = 0;
    status = (is_action ? vtc_action_settle : vtc_settle)(bytes, len, NULL, 0, &length, &rewrites);
    if (status == VTC_NO_ROOM) {
        buffer = malloc(length);
        if (!buffer) return 1;
        status = (is_action ? vtc_action_settle : vtc_settle)(bytes, len, buffer, length, &length, &rewrites);
    }
    if (status != VTC_OK) {
        printf("status %u\n", status);
        free(buffer);
        return 1;
    }
    printf("rewrites %zu\nbytes ", rewrites);
    for (size_t i = 0; i < length; i++) printf("%02x", buffer[i]);
    printf("\n");
    free(buffer);
    return 0;
}
