#include "mutator.h"

#include <string.h>
#include <zermuita.h>

static uint64_t state;

void seed(uint64_t number) {
    state = number;
}

/* SplitMix64. */
size_t below(size_t bound) {
    uint64_t z = state += 0x9e3779b97f4a7c15u;
    z = (z ^ z >> 30) * 0xbf58476d1ce4e5b9u;
    z = (z ^ z >> 27) * 0x94d049bb133111ebu;
    return bound == 0 ? 0 : (size_t)((z ^ z >> 31) % bound);
}

bool one_in(size_t turns) {
    return below(turns) == 0;
}

static void put_number(uint8_t *octets, size_t number) {
    octets[0] = (uint8_t)(number >> 8);
    octets[1] = (uint8_t)number;
}

void change_octet(struct buffer *message) {
    static const uint8_t telling[] = {0, 1, 2, 63, 64, 127, 128, 192, 254, 255};
    uint8_t *octet = &message->data[below(message->len)];
    *octet = (uint8_t)(one_in(2) ? *octet ^ 1u << below(8) : telling[below(sizeof telling)]);
}

static void change_number(struct buffer *message) {
    static const uint16_t telling[] = {0, 1, 2, 5, 6, 41, 43, 46, 47, 48, 50, 255, 256, 65535};
    put_number(message->data + below(message->len - 1), telling[below(sizeof telling / sizeof *telling)]);
}

/* Of questions, answers, authorities or additional records (RFC 1035, 4.1.1). */
static void change_count(struct buffer *message) {
    uint8_t *count = message->data + 4 + 2 * below(4);
    put_number(count, one_in(2) ? below(4) : zermuita_number(count, 2) + (one_in(2) ? 1 : 65535));
}

static void point(struct buffer *message) {
    put_number(message->data + below(message->len - 1), 0xc000 | below(message->len + 8));
}

static void cut(struct buffer *message) {
    message->len -= below(one_in(2) ? message->len - 12 : 8);
}

/* Takes some octets out. */
static void take_out(struct buffer *message) {
    size_t at = below(message->len), len = below(message->len - at);
    len = one_in(2) ? len : len % 16;
    memmove(message->data + at, message->data + at + len, message->len - at - len);
    message->len -= len;
}

/* Puts in octets that stand elsewhere in the message. */
static void repeat(struct buffer *message) {
    size_t from = below(message->len), len = below(message->len - from), at = below(message->len);
    buffer_reserve(message, message->len + len);
    memmove(message->data + at + len, message->data + at, message->len - at);
    memmove(message->data + at, message->data + (from < at ? from : from + len), from < at && at < from + len ? at - from : len);
    message->len += len;
}

/* The front of a message and the end of another. */
static void join(struct buffer *message, const struct buffer *other) {
    size_t from = below(other->len);
    message->len = 12 + below(message->len - 12);
    if (other->len > 0) {
        buffer_append(message, other->data + from, other->len - from);
    }
}

void mutate(struct buffer *message, const struct buffer *other) {
    static void (*const ways[])(struct buffer *) = {
        change_octet, change_octet, change_number, change_count, point, cut, take_out, repeat,
    };
    for (size_t times = 1 + below(3); times > 0 && message->len > 12; times--) {
        size_t way = below(sizeof ways / sizeof *ways + 1);
        if (way == sizeof ways / sizeof *ways) {
            join(message, other);
        } else {
            ways[way](message);
        }
        message->len = message->len > 65535 ? 65535 : message->len;
    }
}
