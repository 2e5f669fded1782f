#include "backend.h"

/* A walk's message, copied: the backend wants it until the next. */
struct fetching {
    const struct handed *handed;
    struct buffer list;
};

static int fetch(void *context, const struct zermuita_wanted *wanted, unsigned attempt, struct zermuita_octets *message) {
    struct fetching *fetching = context;
    struct zermuita_wanted its;
    fetching->list.len = 0;
    if (attempt > 0 || !answer_wanted(fetching->handed, wanted, &fetching->list)) {
        return 0;
    }
    struct zermuita_octets rest = octets_of(&fetching->list);
    return take_message(&rest, &its, message);
}

struct zermuita_openssl_result *said_of(struct zermuita_openssl *checker, const struct answered *answered) {
    struct handed handed = handed_of(answered);
    if (!handed.is_walk) {
        return zermuita_openssl_judge(checker, &handed.judged);
    }
    struct fetching fetching = {.handed = &handed};
    struct zermuita_openssl_result *result = zermuita_openssl_resolve(checker, &handed.walked, fetch, &fetching);
    buffer_free(&fetching.list);
    return result;
}

static void append_octets(struct buffer *out, struct zermuita_octets octets) {
    buffer_append(out, octets.data, octets.len);
}

static void append_number(struct buffer *out, size_t number, size_t width) {
    for (size_t i = 0; i < width; i++) {
        uint8_t octet = (uint8_t)(number >> 8 * (width - 1 - i));
        buffer_append(out, &octet, 1);
    }
}

static void append_places(const struct zermuita_openssl_result *result, struct buffer *out) {
    uint32_t place;
    size_t count = 0;
    while (zermuita_openssl_place(result, count, &place)) {
        count++;
    }
    append_number(out, count, 4);
    for (size_t i = 0; zermuita_openssl_place(result, i, &place); i++) {
        append_number(out, place, 4);
    }
}

static void append_records(const struct zermuita_openssl_result *result, struct buffer *out) {
    struct zermuita_octets rdata;
    for (size_t i = 0; zermuita_openssl_record(result, i, &rdata); i++) {
        append_number(out, rdata.len, 2);
        append_octets(out, rdata);
    }
}

static void append_aliases(const struct zermuita_openssl_result *result, struct buffer *out) {
    struct zermuita_octets name;
    size_t count = 0;
    while (zermuita_openssl_alias(result, count, &name)) {
        count++;
    }
    append_number(out, count, 4);
    for (size_t i = 0; zermuita_openssl_alias(result, i, &name); i++) {
        append_octets(out, name);
    }
}

/* Whether the output of a walk begins with its aliases. */
static bool has_aliases(enum zermuita_reply reply) {
    switch (reply) {
    case ZERMUITA_OUT_OF_MEMORY:
    case ZERMUITA_MESSAGE_TOO_LONG:
    case ZERMUITA_TOO_MANY_SIGNATURES:
    case ZERMUITA_TOO_MUCH_WORK:
        return false;
    default:
        return zermuita_is_verdict(reply) || zermuita_is_refusal(reply);
    }
}

static void append_end(const struct zermuita_openssl_result *result, enum zermuita_reply reply, struct buffer *out) {
    struct zermuita_wanted refused;
    bool is_refused = zermuita_openssl_refused(result, &refused);
    if (has_aliases(reply)) {
        append_aliases(result, out);
    }
    if (is_refused) {
        append_octets(out, refused.zone);
        append_octets(out, refused.name);
        append_number(out, refused.rtype, 2);
    }
    append_octets(out, zermuita_openssl_cut(result));
    append_octets(out, zermuita_openssl_zone(result));
    append_records(result, out);
}

void append_output(const struct zermuita_openssl_result *result, const struct answered *answered, struct buffer *out) {
    enum zermuita_reply reply = zermuita_openssl_reply(result);
    if (answered->is_walk) {
        append_end(result, reply, out);
        return;
    }
    if (answered->places == 1 && zermuita_is_verdict(reply) && reply != ZERMUITA_INSECURE) {
        append_places(result, out);
    }
    append_octets(out, zermuita_openssl_owner(result));
    append_octets(out, zermuita_openssl_cut(result));
    append_octets(out, zermuita_openssl_target(result));
    append_records(result, out);
    if (reply == ZERMUITA_REFERRAL) {
        append_octets(out, zermuita_openssl_ds(result));
    }
}

static bool are_same_reports(const struct zermuita_report *one, const struct zermuita_report *other) {
    return one->until == other->until && one->ttl == other->ttl && one->ede == other->ede && one->delegates == other->delegates
           && one->verifications == other->verifications && one->hashes == other->hashes;
}

bool are_same_results(const struct zermuita_openssl_result *one, const struct zermuita_openssl_result *other,
                      const struct answered *answered) {
    struct buffer first = {0}, second = {0};
    append_output(one, answered, &first);
    append_output(other, answered, &second);
    bool are = zermuita_openssl_reply(one) == zermuita_openssl_reply(other)
               && are_same_reports(zermuita_openssl_report(one), zermuita_openssl_report(other)) && first.len == second.len
               && (first.len == 0 || memcmp(first.data, second.data, first.len) == 0);
    buffer_free(&first);
    buffer_free(&second);
    return are;
}
