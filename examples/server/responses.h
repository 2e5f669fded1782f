/*
 * Responses by UDP that were given. A response follows from the zone, the moment and the octets of the request, of which it has the id:
 * so the same request is answered by the same octets as long as the moment and the zone are the same. A request that is not here costs a
 * look at one place, so that requests for names at random fill the table and slow nothing.
 */
#ifndef RESPONSES_H
#define RESPONSES_H

#include <stdbool.h>
#include <stddef.h>
#include <stdint.h>
#include <string.h>

enum { REQUEST_ROOM = 288, RESPONSE_ROOM = 1232 };

struct given {
    uint64_t moment, zone;
    uint16_t request_len, len; /* a place without response has no octets */
    uint8_t request[REQUEST_ROOM], response[RESPONSE_ROOM];
};

struct responses {
    struct given *places;
    size_t count;
    uint64_t zone; /* how often the zone was opened or changed */
    uint64_t found;
};

/* The place of a request: by FNV-1a of the octets behind its id. */
static struct given *place_given(const struct responses *responses, const uint8_t *request, size_t len) {
    uint64_t hash = 14695981039346656037u;
    for (size_t i = 2; i < len; i++) {
        hash = (hash ^ request[i]) * 1099511628211u;
    }
    return &responses->places[(hash ^ hash >> 32) % responses->count];
}

/* Writes the response that the same request had at this moment. Gives how many octets it has, or 0 where there is none. */
static size_t give_again(struct responses *responses, uint64_t moment, const uint8_t *request, size_t len, uint8_t *out) {
    if (responses->count == 0 || len < 12 || len > REQUEST_ROOM) {
        return 0;
    }
    const struct given *given = place_given(responses, request, len);
    if (given->len == 0 || given->moment != moment || given->zone != responses->zone || given->request_len != len
        || memcmp(given->request + 2, request + 2, len - 2) != 0) {
        return 0;
    }
    memcpy(out, request, 2);
    memcpy(out + 2, given->response + 2, given->len - 2u);
    responses->found++;
    return given->len;
}

/* Keeps the response of a request, in the place of another one. */
static void keep_response(struct responses *responses, uint64_t moment, const uint8_t *request, size_t len, const uint8_t *out,
                          size_t count) {
    if (responses->count == 0 || len < 12 || len > REQUEST_ROOM || count < 12 || count > RESPONSE_ROOM) {
        return;
    }
    struct given *given = place_given(responses, request, len);
    given->moment = moment;
    given->zone = responses->zone;
    given->request_len = (uint16_t)len;
    given->len = (uint16_t)count;
    memcpy(given->request, request, len);
    memcpy(given->response, out, count);
}

#endif
