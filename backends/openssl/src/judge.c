#include "result.h"

#include <stdlib.h>
#include <time.h>

enum { CLASS_IN = 1, NSEC3_ITERATIONS = 100 };

/* A case in the room that the library may read. */
union room {
    struct zermuita_case judged;
    uint8_t octets[ZERMUITA_CASE_ROOM];
};

/* The number of bytes that both the caller and this library know. */
static size_t known(size_t size, size_t own) {
    return size < own ? size : own;
}

void zermuita_openssl_case_init(struct zermuita_case *handed, size_t size) {
    struct zermuita_case whole = {
        .size = size,
        .now = (uint64_t)time(NULL),
        .rclass = CLASS_IN,
        .max_nsec3_iterations = NSEC3_ITERATIONS,
    };
    memset(handed, 0, size);
    memcpy(handed, &whole, known(size, sizeof whole));
}

void zermuita_openssl_evidence_init(struct zermuita_evidence *handed, size_t size) {
    struct zermuita_evidence whole = {.size = size, .now = (uint64_t)time(NULL), .max_nsec3_iterations = NSEC3_ITERATIONS};
    memset(handed, 0, size);
    memcpy(handed, &whole, known(size, sizeof whole));
}

/* Whether no byte string of a case is null and has a length. */
static bool are_octets(struct zermuita_case *it) {
    return zermuita_octets_are(&it->apex) && zermuita_octets_are(&it->ds) && zermuita_octets_are(&it->dnskey)
           && zermuita_octets_are(&it->answer) && zermuita_octets_are(&it->name) && zermuita_octets_are(&it->checked)
           && zermuita_octets_are(&it->algorithms);
}

static enum zermuita_reply call_judge(void *handed, struct zermuita_openssl_result *result) {
    union room room = *(const union room *)handed;
    room.judged.checked = octets_of(&result->checked);
    if (!are_octets(&room.judged)) {
        return ZERMUITA_BAD_CASE;
    }
    return (enum zermuita_reply)zermuita_judge_case(&room.judged, result->out.data, result->out.room, &result->said.report);
}

static void judge(const struct zermuita_openssl *checker, union room *room, struct zermuita_openssl_result *result) {
    if (room->judged.algorithms.len == 0) {
        room->judged.algorithms = zermuita_openssl_algorithms(checker);
    }
    if (room->judged.checked.data == NULL && room->judged.checked.len != 0) {
        return;
    }
    if (!buffer_append(&result->checked, room->judged.checked)) {
        set_reply(result, ZERMUITA_OUT_OF_MEMORY);
        return;
    }
    call_until_checked(checker, call_judge, room, result);
    if (result->reply == ZERMUITA_MESSAGE_TOO_LONG && room->judged.as_received == 0) {
        room->judged.as_received = 1;
        call_until_checked(checker, call_judge, room, result);
    }
}

struct zermuita_openssl_result *zermuita_openssl_judge(struct zermuita_openssl *checker, const struct zermuita_case *handed) {
    union room room = {0};
    struct zermuita_openssl_result *result = checker == NULL ? NULL : calloc(1, sizeof *result);
    if (result == NULL) {
        return NULL;
    }
    set_reply(result, ZERMUITA_BAD_CASE);
    if (handed->size >= sizeof handed->size && handed->size <= sizeof room) {
        memcpy(&room, handed, handed->size);
        result->rtype = room.judged.rtype;
        result->has_places = room.judged.places == 1;
        judge(checker, &room, result);
    }
    read_output(result);
    return result;
}
