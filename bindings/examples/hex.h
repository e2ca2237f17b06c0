/* Hex text. */
#ifndef HEX_H
#define HEX_H

#include <stddef.h>
#include <stdint.h>

static inline int hex_digit(char c) {
    if (c >= '0' && c <= '9') return c - '0';
    if (c >= 'a' && c <= 'f') return c - 'a' + 10;
    if (c >= 'A' && c <= 'F') return c - 'A' + 10;
    return -1;
}

/* Reads hex text up to its end into as many bytes as have room, and says how many they are; 0 where that fails. */
static inline int read_hex(const char *text, uint8_t *bytes, size_t room, size_t *len) {
    size_t n = 0;
    for (; text[2 * n] && text[2 * n] != '\n'; n++) {
        int high = hex_digit(text[2 * n]), low = high < 0 ? -1 : hex_digit(text[2 * n + 1]);
        if (low < 0 || n == room) return 0;
        bytes[n] = (uint8_t)(high << 4 | low);
    }
    *len = n;
    return 1;
}

#endif
