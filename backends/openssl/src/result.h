/* What a judgement or a walk says, and the loop over signatures that both have. */
#ifndef RESULT_H
#define RESULT_H

#include "buffer.h"
#include "checker.h"

struct zermuita_openssl_result {
    enum zermuita_reply reply;
    union {
        struct zermuita_report report;
        uint8_t octets[ZERMUITA_REPORT_ROOM];
    } said;
    uint16_t rtype; /* of the question */
    bool is_walk;
    bool has_places;
    struct buffer out;
    struct buffer checked;
    struct buffer messages; /* of a walk */
    size_t counts[ZERMUITA_OPENSSL_CHECKED_COUNT];
    /* Parts of `out`, or of `messages`. */
    struct zermuita_octets places, aliases, target, owner, cut, zone, records, ds;
    struct zermuita_wanted refused;
    bool has_refused;
};

/* Calls the library with what a result has so far, and room for as many bytes as its output has. */
typedef enum zermuita_reply call_function(void *handed, struct zermuita_openssl_result *result);

/*
 * Calls the library, with more room and with signatures that are checked, until it says something else than that it needs these.
 * The reply of a lack of memory, or ZERMUITA_ASK if a signature cannot be checked, ends it too.
 */
void call_until_checked(const struct zermuita_openssl *checker, call_function *call, void *handed,
                        struct zermuita_openssl_result *result);

/* Empties everything that a reply says, and sets it to one without a report. */
void set_reply(struct zermuita_openssl_result *result, enum zermuita_reply reply);

/* Finds the parts of the output. */
void read_output(struct zermuita_openssl_result *result);

#endif
