#include "result.h"

/* Most outputs fit at once. */
enum { FIRST_ROOM = 1024 };

void set_reply(struct zermuita_openssl_result *result, enum zermuita_reply reply) {
    memset(&result->said, 0, sizeof result->said);
    result->said.report.size = sizeof result->said.report;
    result->out.len = 0;
    result->reply = reply;
}

/* One call, again with more room if its output has more. */
static void call_with_room(call_function *call, void *handed, struct zermuita_openssl_result *result) {
    size_t room = FIRST_ROOM;
    do {
        if (!buffer_reserve(&result->out, room)) {
            set_reply(result, ZERMUITA_OUT_OF_MEMORY);
            return;
        }
        set_reply(result, ZERMUITA_BAD_CASE);
        result->reply = call(handed, result);
        room = result->said.report.len;
    } while (result->reply == ZERMUITA_BUFFER_TOO_SMALL && room > result->out.room);
    result->out.len = room <= result->out.room ? room : 0;
}

/* Checks the signatures of the output, and marks them. */
static enum zermuita_reply check_signatures(const struct zermuita_openssl *checker, struct zermuita_openssl_result *result) {
    struct zermuita_ask ask;
    uint8_t *next = result->out.data;
    size_t left = result->out.len;
    while (zermuita_next_ask(&next, &left, &ask)) {
        unsigned checked = (unsigned)checker->check(checker->context, &ask);
        checked = checked < ZERMUITA_OPENSSL_CHECKED_COUNT ? checked : ZERMUITA_OPENSSL_BROKEN;
        result->counts[checked]++;
        if (checked == ZERMUITA_OPENSSL_NO_MEMORY) {
            return ZERMUITA_OUT_OF_MEMORY;
        }
        if (checked == ZERMUITA_OPENSSL_BROKEN) {
            return ZERMUITA_ASK;
        }
        zermuita_answer(&ask, (int)checked);
    }
    return buffer_append(&result->checked, octets_of(&result->out)) ? ZERMUITA_RECORDS : ZERMUITA_OUT_OF_MEMORY;
}

void call_until_checked(const struct zermuita_openssl *checker, call_function *call, void *handed,
                        struct zermuita_openssl_result *result) {
    for (;;) {
        call_with_room(call, handed, result);
        if (result->reply != ZERMUITA_ASK) {
            return;
        }
        enum zermuita_reply reply = check_signatures(checker, result);
        if (reply != ZERMUITA_RECORDS) {
            set_reply(result, reply);
            return;
        }
    }
}
