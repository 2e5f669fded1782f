/* Requests and responses, counted. */
#ifndef COUNTS_H
#define COUNTS_H

#include <stdbool.h>
#include <stddef.h>
#include <stdint.h>

/* Codes of responses (RFC 1035, 4.1.1; RFC 6891, 9), and what gets none. */
enum { CODE_NONE = 17, CODES = 18 };

static const char *const code_names[CODES] = {
    "NOERROR", "FORMERR", "SERVFAIL", "NXDOMAIN", "NOTIMP", "REFUSED", "6", "7", "8", "9", "10", "11", "12", "13", "14", "15",
    "BADVERS", "none",
};

struct counts {
    uint64_t udp, tcp;     /* requests */
    uint64_t codes[CODES]; /* responses by their codes */
    uint64_t truncated;    /* responses that do not fit the client */
    uint64_t refused;      /* connections above a limit */
};

/* The code of a response. One of 16 and above has its upper bits in the OPT record, which is at the end and has no options. */
static size_t code_of(const uint8_t *out, size_t len) {
    const uint8_t *opt = len >= 12 + 11 ? out + len - 11 : NULL;
    bool is_high = opt != NULL && out[11] != 0 && opt[0] == 0 && opt[1] == 0 && opt[2] == 41 && opt[5] == 1 && opt[9] == 0
        && opt[10] == 0 && (out[3] & 15) == 0;
    return len < 12 ? CODE_NONE : is_high ? 16 : out[3] & 15;
}

/* Counts a request and its response. */
static void count_response(struct counts *counts, bool is_stream, const uint8_t *out, size_t len) {
    counts->tcp += is_stream;
    counts->udp += !is_stream;
    counts->codes[code_of(out, len)]++;
    counts->truncated += len >= 12 && (out[2] & 2) != 0;
}

#endif
