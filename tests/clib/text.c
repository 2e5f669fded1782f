#include "text.h"

#include <stdio.h>
#include <string.h>

static int digit(char c) {
    if (c >= '0' && c <= '9') {
        return c - '0';
    }
    if (c >= 'a' && c <= 'f') {
        return c - 'a' + 10;
    }
    return -1;
}

bool octets_of_hex(const char *digits, struct buffer *octets) {
    size_t len = strcmp(digits, "-") == 0 ? 0 : strlen(digits);
    octets->len = 0;
    buffer_reserve(octets, len / 2);
    for (size_t i = 0; i + 1 < len; i += 2) {
        int high = digit(digits[i]), low = digit(digits[i + 1]);
        if (high < 0 || low < 0) {
            return false;
        }
        octets->data[octets->len++] = (uint8_t)(high * 16 + low);
    }
    return len % 2 == 0;
}

void print_hex(const uint8_t *octets, size_t len) {
    for (size_t i = 0; i < len; i++) {
        printf("%02x", octets[i]);
    }
}
