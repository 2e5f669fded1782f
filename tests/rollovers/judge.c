/*
 * Judges by the library, and has OpenSSL check each signature once. Lines of standard input:
 *
 *     octets HEX                                    octets, numbered from 0 on
 *     judge APEX DS DNSKEY ANSWER NAME TYPE MOMENT  the numbers of octets, a type and seconds since 1970
 *
 * For each judgement a line is printed: its reply, and the octets of that.
 */
#include "signature.h"

#include <ctype.h>
#include <inttypes.h>
#include <search.h>
#include <stdio.h>
#include <stdlib.h>

enum { MAX_ITERATIONS = 50, ROOM = 1 << 20 };

/* Octets by their numbers. */
struct kept {
    struct zermuita_octets *at;
    size_t len;
};

/* The octets of an entry, and whether its signature passes. */
struct known {
    struct zermuita_octets octets;
    bool passes;
};

static void *or_exit(void *that) {
    if (that == NULL) {
        fputs("out of memory\n", stderr);
        exit(2);
    }
    return that;
}

static void fail(const char *line) {
    fprintf(stderr, "cannot be read: %.60s\n", line);
    exit(2);
}

/* The octet that two hexadecimal digits spell, or -1. */
static int octet_of(const char *digits) {
    if (!isxdigit((unsigned char)digits[0]) || !isxdigit((unsigned char)digits[1])) {
        return -1;
    }
    return (int)strtol((char[]){digits[0], digits[1], 0}, NULL, 16);
}

static void keep(struct kept *kept, const char *digits) {
    uint8_t *octets = or_exit(malloc(strlen(digits) / 2 + 1));
    size_t len = 0;
    for (int octet; (octet = octet_of(digits)) >= 0; digits += 2) {
        octets[len++] = (uint8_t)octet;
    }
    kept->at = or_exit(realloc(kept->at, (kept->len + 1) * sizeof *kept->at));
    kept->at[kept->len++] = (struct zermuita_octets){octets, len};
}

static int compare(const void *left, const void *right) {
    const struct zermuita_octets *a = &((const struct known *)left)->octets, *b = &((const struct known *)right)->octets;
    return a->len != b->len ? (a->len < b->len ? -1 : 1) : memcmp(a->data, b->data, a->len);
}

/* Whether the signature of an entry, which begins at some octets, passes: as it was found out before, or is now. */
static bool passes(const uint8_t *octets, const struct zermuita_ask *ask) {
    static void *all;
    struct known asked = {{octets, (size_t)(ask->passes - octets)}, false};
    struct known **found = tfind(&asked, &all, compare);
    if (found == NULL) {
        struct known *known = or_exit(malloc(sizeof *known));
        uint8_t *copy = or_exit(malloc(asked.octets.len));
        memcpy(copy, octets, asked.octets.len);
        *known = (struct known){{copy, asked.octets.len}, signature_passes(ask)};
        found = or_exit(tsearch(known, &all, compare));
    }
    return (*found)->passes;
}

/* Judges what is handed in, `checked` aside, and says how many octets the reply has in `out`. */
static enum zermuita_reply judge(struct zermuita_case handed, uint8_t out[ROOM], size_t *out_len) {
    static uint8_t checked[ROOM];
    struct zermuita_report report = {.size = sizeof report};
    handed.checked = (struct zermuita_octets){checked, 0};
    for (;;) {
        enum zermuita_reply reply = zermuita_judge(&handed, out, ROOM, &report);
        *out_len = report.len <= ROOM ? report.len : 0;
        if (reply != ZERMUITA_ASK || report.len > ROOM - handed.checked.len) {
            return reply;
        }
        struct zermuita_ask ask;
        uint8_t *next = out, *entry = out;
        for (size_t len = report.len; zermuita_next_ask(&next, &len, &ask); entry = next) {
            zermuita_answer(&ask, passes(entry, &ask));
        }
        memcpy(checked + handed.checked.len, out, report.len);
        handed.checked.len += report.len;
    }
}

static void judge_line(const struct kept *kept, const char *line) {
    static uint8_t out[ROOM];
    size_t at[5], len;
    struct zermuita_case handed = {.size = sizeof handed, .rclass = 1, .max_nsec3_iterations = MAX_ITERATIONS};
    struct zermuita_octets *octets[5] = {&handed.apex, &handed.ds, &handed.dnskey, &handed.answer, &handed.name};
    if (sscanf(line, "judge %zu %zu %zu %zu %zu %" SCNu16 " %" SCNu64, &at[0], &at[1], &at[2], &at[3], &at[4], &handed.rtype,
               &handed.now) != 7) {
        fail(line);
    }
    for (int i = 0; i < 5; i++) {
        if (at[i] >= kept->len) {
            fail(line);
        }
        *octets[i] = kept->at[at[i]];
    }
    handed.no_ds = handed.ds.len == 0;
    printf("%d ", (int)judge(handed, out, &len));
    for (size_t i = 0; i < len; i++) {
        printf("%02x", out[i]);
    }
    putchar('\n');
}

int main(void) {
    struct kept kept = {0};
    char *line = NULL;
    size_t room = 0;
    while (getline(&line, &room, stdin) >= 0) {
        if (strncmp(line, "octets ", 7) == 0) {
            keep(&kept, line + 7);
        } else {
            judge_line(&kept, line);
        }
    }
    free(line);
    return 0;
}
