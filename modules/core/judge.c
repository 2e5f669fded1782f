#include "judge.h"

#include "bogus.h"
#include "signature.h"
#include "table.h"

#include <stdlib.h>

enum { MOST_ROOM = 1 << 22, KEPT_ZONES = 4096, KEPT_OCTETS = 1 << 24 };

/* Replies of a library that judges aliases, whose octets are names in wire form; its header names them. */
enum { REPLY_ALIAS = 8, REPLY_WILDCARD_ALIAS, REPLY_DNAME, REPLY_REFERRAL };

/* Octets that grow. */
struct room {
    uint8_t *data;
    size_t len, size;
};

struct judge {
    uint16_t most_iterations;
    struct room out, checked;
    struct table *keys; /* by zone: entries of signatures over keys, which serve every answer under the same keys */
};

struct judge *make_judge(uint16_t most_iterations) {
    bool is_of_header = zermuita_version() >> 8 == ZERMUITA_VERSION_NUMBER >> 8;
    struct judge *judge = is_of_header ? calloc(1, sizeof *judge) : NULL;
    if (judge != NULL) {
        judge->most_iterations = most_iterations;
        judge->keys = make_table((struct bounds){KEPT_ZONES, KEPT_OCTETS});
    }
    if (judge != NULL && judge->keys == NULL) {
        free(judge);
        judge = NULL;
    }
    return judge;
}

void free_judge(struct judge *judge) {
    free_table(judge->keys);
    free(judge->out.data);
    free(judge->checked.data);
    free(judge);
}

uint16_t judge_iterations(const struct judge *judge) {
    return judge->most_iterations;
}

bool is_ds_known(struct octets data) {
    static const uint8_t algorithms[] = {8, 10, 13, 14, 15, 16}, digests[] = {2, 4};
    return data.len > 4 && memchr(algorithms, data.data[2], sizeof algorithms) != NULL
           && memchr(digests, data.data[3], sizeof digests) != NULL;
}

bool judges_aliases(void) {
    return zermuita_is_verdict(REPLY_ALIAS) == 1;
}

static bool make_room(struct room *room, size_t size) {
    if (size <= room->size) {
        return true;
    }
    uint8_t *grown = size <= MOST_ROOM ? realloc(room->data, size) : NULL;
    if (grown != NULL) {
        room->data = grown;
        room->size = size;
    }
    return grown != NULL;
}

static bool append(struct room *room, const void *octets, size_t len) {
    if (!make_room(room, room->len + len)) {
        return false;
    }
    if (len > 0) {
        memcpy(room->data + room->len, octets, len);
    }
    room->len += len;
    return true;
}

static struct zermuita_octets as_theirs(struct octets octets) {
    return (struct zermuita_octets){octets.data, octets.len};
}

static struct zermuita_octets name_as_theirs(const struct name *name) {
    return (struct zermuita_octets){name->octets, name->len};
}

/* Checks the signatures that are asked for, and puts them at the end of those that were. False where memory runs out. */
static bool check(struct judge *judge, size_t len) {
    struct zermuita_ask ask;
    uint8_t *next = judge->out.data;
    while (zermuita_next_ask(&next, &len, &ask)) {
        zermuita_answer(&ask, signature_passes(&ask));
    }
    return append(&judge->checked, judge->out.data, (size_t)(next - judge->out.data));
}

/* Calls the library until it needs nothing more. */
static enum zermuita_reply replied(struct judge *judge, struct zermuita_case *handed, struct zermuita_report *report) {
    for (;;) {
        handed->checked = (struct zermuita_octets){judge->checked.data, judge->checked.len};
        enum zermuita_reply reply = zermuita_judge(handed, judge->out.data, judge->out.size, report);
        if (reply == ZERMUITA_BUFFER_TOO_SMALL && make_room(&judge->out, report->len)) {
            continue;
        }
        if (reply == ZERMUITA_BUFFER_TOO_SMALL) {
            return ZERMUITA_OUT_OF_MEMORY;
        }
        if (reply == ZERMUITA_MESSAGE_TOO_LONG && handed->as_received == 0) {
            handed->as_received = 1;
            continue;
        }
        if (reply != ZERMUITA_ASK) {
            return reply;
        }
        if (!check(judge, report->len)) {
            return ZERMUITA_OUT_OF_MEMORY;
        }
    }
}

/*
 * Keeps those entries of a zone that are over its keys: their signed octets begin with 0 and 48. Of many the old ones are
 * dropped.
 */
static void keep_keys(struct judge *judge, const struct name *apex, size_t old) {
    struct room kept = {0};
    struct zermuita_ask ask;
    uint8_t *next = judge->checked.data + (old > MESSAGE_ROOM ? old : 0), *begin = next;
    size_t len = judge->checked.len - (size_t)(next - judge->checked.data);
    for (; zermuita_next_ask(&next, &len, &ask); begin = next) {
        bool is_over_keys = ask.octets.len >= 2 && number16(ask.octets.data) == TYPE_DNSKEY;
        if (is_over_keys && !append(&kept, begin, (size_t)(next - begin))) {
            break;
        }
    }
    table_put(judge->keys, apex, TYPE_DNSKEY, (struct octets){kept.data, kept.len}, (struct octets){NULL, 0}, UINT64_MAX);
    free(kept.data);
}

static enum finding finding_of(uint32_t reply) {
    switch (reply) {
    case REPLY_ALIAS:
    case REPLY_WILDCARD_ALIAS:
    case REPLY_DNAME:
        return FOUND_ALIAS;
    case ZERMUITA_RECORDS:
        return FOUND_RECORDS;
    case ZERMUITA_NODATA:
        return FOUND_NODATA;
    case ZERMUITA_NXDOMAIN:
        return FOUND_NXDOMAIN;
    case ZERMUITA_WILDCARD:
        return FOUND_WILDCARD;
    case ZERMUITA_WILDCARD_NODATA:
        return FOUND_WILDCARD_NODATA;
    case ZERMUITA_DELEGATED:
    case REPLY_REFERRAL:
        return FOUND_DELEGATED;
    case ZERMUITA_OPTOUT:
        return FOUND_OPTOUT;
    case ZERMUITA_QUESTION_NOT_ALLOWED:
        return FOUND_LEFT_OUT;
    case ZERMUITA_NO_TRUSTED_KEY:
        return FOUND_BOGUS_KEYS;
    case ZERMUITA_EQUAL_TAGS:
        return FOUND_EQUAL_TAGS;
    case ZERMUITA_ITERATIONS_OVER_LIMIT:
        return FOUND_ITERATIONS;
    case ZERMUITA_OUT_OF_MEMORY:
        return FOUND_NOTHING;
    case ZERMUITA_INCOMPLETE_DENIAL:
        return FOUND_BOGUS; /* nothing is proved, which the corpus calls bogus: AD is wrong then, and SERVFAIL is right */
    default:
        return is_bogus(reply) ? FOUND_BOGUS : zermuita_is_refusal(reply) ? FOUND_REFUSED : FOUND_NOTHING;
    }
}

/* Takes a name in wire form off the front of some octets. */
static bool take_name(struct octets *rest, struct name *name) {
    size_t len = 0;
    while (len < rest->len && rest->data[len] != 0) {
        len += 1 + (size_t)rest->data[len];
    }
    struct octets first = {rest->data, len + 1};
    if (len >= rest->len || !name_of_octets(first, name)) {
        return false;
    }
    *rest = (struct octets){rest->data + first.len, rest->len - first.len};
    return true;
}

/* Finds where an alias leads: its target, or behind a DNAME's owner the name that the question's becomes. */
static void read_target(struct judgement *judgement, uint32_t reply) {
    struct octets rest = judgement->records;
    struct name owner;
    bool is_read = (reply != REPLY_DNAME || take_name(&rest, &owner)) && take_name(&rest, &judgement->target);
    if (!is_read) {
        judgement->finding = FOUND_DEAD_END;
    }
}

struct judgement judge(struct judge *judge, const struct trial *trial) {
    struct zermuita_case handed = {
        .size = sizeof handed,
        .apex = name_as_theirs(&trial->apex),
        .ds = as_theirs(trial->ds),
        .dnskey = as_theirs(trial->dnskey),
        .answer = as_theirs(trial->answer),
        .name = name_as_theirs(&trial->qname),
        .rtype = trial->qtype,
        .rclass = CLASS_IN,
        .now = trial->now,
        .max_nsec3_iterations = judge->most_iterations,
    };
    struct zermuita_report report = {.size = sizeof report};
    struct octets kept = {NULL, 0};
    judge->checked.len = 0;
    /* No DS record is a proof that there is none, and gives a verdict: no case without one is handed over. */
    if (trial->ds.len == 0
        || (table_get(judge->keys, &trial->apex, TYPE_DNSKEY, 0, &kept, NULL)
            && !append(&judge->checked, kept.data, kept.len))) {
        return (struct judgement){.finding = FOUND_NOTHING, .reply = ""};
    }
    size_t known = judge->checked.len;
    enum zermuita_reply reply = replied(judge, &handed, &report);
    if (judge->checked.len > known) {
        keep_keys(judge, &trial->apex, known);
    }
    struct judgement judgement = {
        .finding = finding_of(reply),
        .reply = zermuita_strerror(reply),
        .ede = report.ede,
        .records = {judge->out.data, zermuita_is_verdict(reply) ? report.len : 0},
    };
    if (judgement.finding == FOUND_ALIAS) {
        read_target(&judgement, reply);
    }
    return judgement;
}
