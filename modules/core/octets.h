/* Octets that someone else holds, and octets that are written. */
#ifndef OCTETS_H
#define OCTETS_H

#include <stdbool.h>
#include <stddef.h>
#include <stdint.h>
#include <stdio.h>
#include <string.h>

struct octets {
    const uint8_t *data;
    size_t len;
};

static inline uint16_t number16(const uint8_t *at) {
    return (uint16_t)(at[0] << 8 | at[1]);
}

static inline uint32_t number32(const uint8_t *at) {
    return (uint32_t)number16(at) << 16 | number16(at + 2);
}

static inline void put_hex(FILE *to, struct octets octets) {
    static const char digits[] = "0123456789abcdef";
    for (size_t i = 0; i < octets.len; i++) {
        fputc(digits[octets.data[i] >> 4], to);
        fputc(digits[octets.data[i] & 15], to);
    }
}

/* Octets that are written as far as there is room; `len` is over `room` where there was not enough. */
struct written {
    uint8_t *out;
    size_t len, room;
};

static inline void write_octets(struct written *to, const void *octets, size_t len) {
    if (to->len <= to->room && to->room - to->len >= len) {
        if (len > 0) {
            memcpy(to->out + to->len, octets, len);
        }
        to->len += len;
    } else {
        to->len = to->room + 1;
    }
}

static inline void write16(struct written *to, unsigned number) {
    write_octets(to, (uint8_t[]){(uint8_t)(number >> 8), (uint8_t)number}, 2);
}

#endif
