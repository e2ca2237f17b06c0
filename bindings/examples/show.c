/* Prints the attributes of a message, each on a line, indented by its depth.
 *
 *     show HEX            a traffic control message
 *     show HEX action     an action message
 */
#include "hex.h"
#include <stdio.h>
#include <string.h>
#include <vtc.h>

enum { ROOM = 1 << 16, TYPE = 0x3fff, TCA_KIND = 1 };

/* Values are read by the table of the attribute, with the kernel's own constants. A kind ends at its NUL. */
static void print_value(const struct vtc_node *node, const uint8_t *value) {
    uint32_t number;
    int is_kind = (node->table == VTC_TABLE_MESSAGE || node->table == VTC_TABLE_ACTION) && (node->word & TYPE) == TCA_KIND;
    if (is_kind) {
        printf(" kind ");
        for (size_t i = 0; i < node->len && value[i]; i++) printf(value[i] >= ' ' && value[i] <= '~' ? "%c" : "\\x%02x", value[i]);
    } else if (node->table == VTC_TABLE_FQ_CODEL && node->len == sizeof number) {
        memcpy(&number, value, sizeof number);
        printf(" = %u", number);
    }
}

int main(int count, char **words) {
    static uint8_t bytes[ROOM];
    static struct vtc_node nodes[ROOM / 4];
    size_t len = 0;
    if (!vtc_matches()) {
        fprintf(stderr, "%s: vtc.h is %06x, but libvtc is %06x\n", words[0], VTC_VERSION, vtc_version());
        return 2;
    }
    if (count < 2 || !read_hex(words[1], bytes, sizeof bytes, &len)) {
        fprintf(stderr, "usage: show HEX [action]\n");
        return 2;
    }
    int is_action = count > 2 && strcmp(words[2], "action") == 0;
    size_t attributes = (is_action ? vtc_action_index : vtc_index)(bytes, len, nodes, ROOM / 4);
    printf("canonical %s\n", (is_action ? vtc_action_is_canonical : vtc_is_canonical)(bytes, len) ? "yes" : "no");
    for (size_t i = 0; i < attributes; i++) {
        const struct vtc_node *node = &nodes[i];
        printf("%*stable %u type %u", 2 * node->depth, "", node->table, node->word & TYPE);
        print_value(node, bytes + node->offset);
        printf(" (%zu bytes at %zu)\n", node->len, node->offset);
    }
    return 0;
}
