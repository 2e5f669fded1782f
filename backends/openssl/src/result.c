#include "result.h"

#include <stdlib.h>

enum { DS_TYPE = 43 };

static const struct zermuita_octets none = {NULL, 0};

/* Removes a name, if there is one. */
static struct zermuita_octets taken_name(struct zermuita_octets *rest) {
    struct zermuita_octets name;
    return zermuita_next_name(rest, &name) ? name : none;
}

static void read_records(struct zermuita_openssl_result *result, struct zermuita_octets rest) {
    result->records = rest;
    result->ds = result->rtype == DS_TYPE && result->reply == ZERMUITA_RECORDS ? rest : none;
}

/* Finds the parts of a verdict of a zone. */
static void read_verdict(struct zermuita_openssl_result *result, struct zermuita_octets rest) {
    switch (result->reply) {
    case ZERMUITA_RECORDS:
    case ZERMUITA_WILDCARD:
        read_records(result, rest);
        break;
    case ZERMUITA_ALIAS:
    case ZERMUITA_WILDCARD_ALIAS:
        result->target = taken_name(&rest);
        break;
    case ZERMUITA_DNAME:
        result->owner = taken_name(&rest);
        result->target = taken_name(&rest);
        break;
    case ZERMUITA_DELEGATED:
        result->cut = taken_name(&rest);
        break;
    case ZERMUITA_REFERRAL:
        result->cut = taken_name(&rest);
        result->ds = rest;
        break;
    default:
        break;
    }
}

/* Finds the parts of what a walk ends with, behind its aliases. */
static void read_end(struct zermuita_openssl_result *result, struct zermuita_octets rest) {
    if (zermuita_is_refusal(result->reply)) {
        result->has_refused = zermuita_next_wanted(&rest, &result->refused) == 1;
        return;
    }
    struct zermuita_octets name = taken_name(&rest);
    *(result->reply == ZERMUITA_INSECURE ? &result->cut : &result->zone) = name;
    if (result->reply == ZERMUITA_RECORDS || result->reply == ZERMUITA_WILDCARD) {
        read_records(result, rest);
    }
}

void read_output(struct zermuita_openssl_result *result) {
    struct zermuita_octets rest = octets_of(&result->out);
    if (result->reply == ZERMUITA_WANT) {
        result->has_refused = zermuita_next_wanted(&rest, &result->refused) == 1;
    } else if (result->is_walk) {
        if (zermuita_take_aliases(&rest, &result->aliases)) {
            read_end(result, rest);
        }
    } else if (zermuita_is_verdict(result->reply)) {
        if (!result->has_places || result->reply == ZERMUITA_INSECURE || zermuita_take_places(&rest, &result->places)) {
            read_verdict(result, rest);
        }
    }
}

void zermuita_openssl_result_free(struct zermuita_openssl_result *result) {
    if (result != NULL) {
        buffer_free(&result->out);
        buffer_free(&result->checked);
        buffer_free(&result->messages);
        free(result);
    }
}

enum zermuita_openssl_security zermuita_openssl_security_of(enum zermuita_reply reply) {
    switch (reply) {
    case ZERMUITA_RECORDS:
    case ZERMUITA_NODATA:
    case ZERMUITA_NXDOMAIN:
    case ZERMUITA_WILDCARD:
    case ZERMUITA_WILDCARD_NODATA:
    case ZERMUITA_ALIAS:
    case ZERMUITA_WILDCARD_ALIAS:
    case ZERMUITA_DNAME:
        return ZERMUITA_OPENSSL_SECURE;
    case ZERMUITA_OPTOUT:
    case ZERMUITA_INSECURE:
        return ZERMUITA_OPENSSL_INSECURE;
    case ZERMUITA_NO_TRUSTED_KEY:
    case ZERMUITA_MIXED_NSEC3_PARAMETERS:
    case ZERMUITA_NOT_PROVEN:
        return ZERMUITA_OPENSSL_BOGUS;
    default:
        return ZERMUITA_OPENSSL_INDETERMINATE;
    }
}

enum zermuita_openssl_security zermuita_openssl_security(const struct zermuita_openssl_result *result) {
    return zermuita_openssl_security_of(zermuita_openssl_reply(result));
}

enum zermuita_reply zermuita_openssl_reply(const struct zermuita_openssl_result *result) {
    return result == NULL ? ZERMUITA_OUT_OF_MEMORY : result->reply;
}

const struct zermuita_report *zermuita_openssl_report(const struct zermuita_openssl_result *result) {
    static const union {
        struct zermuita_report report;
        uint8_t octets[ZERMUITA_REPORT_ROOM];
    } nothing = {.report = {.size = sizeof(struct zermuita_report)}};
    return result == NULL ? &nothing.report : &result->said.report;
}

size_t zermuita_openssl_count(const struct zermuita_openssl_result *result, enum zermuita_openssl_checked checked) {
    return result == NULL || (unsigned)checked >= ZERMUITA_OPENSSL_CHECKED_COUNT ? 0 : result->counts[checked];
}

int zermuita_openssl_record(const struct zermuita_openssl_result *result, size_t index, struct zermuita_octets *rdata) {
    struct zermuita_octets rest = result == NULL ? none : result->records, data;
    for (size_t i = 0; zermuita_next_record(&rest, &data); i++) {
        if (i == index) {
            *rdata = data;
            return 1;
        }
    }
    return 0;
}

int zermuita_openssl_alias(const struct zermuita_openssl_result *result, size_t index, struct zermuita_octets *name) {
    struct zermuita_octets rest = result == NULL ? none : result->aliases, target;
    for (size_t i = 0; zermuita_next_name(&rest, &target); i++) {
        if (i == index) {
            *name = target;
            return 1;
        }
    }
    return 0;
}

int zermuita_openssl_place(const struct zermuita_openssl_result *result, size_t index, uint32_t *place) {
    struct zermuita_octets places = result == NULL ? none : result->places;
    if (index >= places.len / 4) {
        return 0;
    }
    *place = (uint32_t)zermuita_number(places.data + 4 * index, 4);
    return 1;
}

int zermuita_openssl_refused(const struct zermuita_openssl_result *result, struct zermuita_wanted *refused) {
    if (result == NULL || !result->has_refused) {
        return 0;
    }
    *refused = result->refused;
    return 1;
}

struct zermuita_octets zermuita_openssl_ds(const struct zermuita_openssl_result *result) {
    return result == NULL ? none : result->ds;
}

struct zermuita_octets zermuita_openssl_target(const struct zermuita_openssl_result *result) {
    return result == NULL ? none : result->target;
}

struct zermuita_octets zermuita_openssl_owner(const struct zermuita_openssl_result *result) {
    return result == NULL ? none : result->owner;
}

struct zermuita_octets zermuita_openssl_cut(const struct zermuita_openssl_result *result) {
    return result == NULL ? none : result->cut;
}

struct zermuita_octets zermuita_openssl_zone(const struct zermuita_openssl_result *result) {
    return result == NULL ? none : result->zone;
}

struct zermuita_octets zermuita_openssl_entries(const struct zermuita_openssl_result *result) {
    return result == NULL ? none : octets_of(&result->checked);
}

struct zermuita_octets zermuita_openssl_messages(const struct zermuita_openssl_result *result) {
    return result == NULL ? none : octets_of(&result->messages);
}
