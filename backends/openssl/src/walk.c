#include "result.h"

#include <stdlib.h>

enum { DNSKEY_TYPE = 48, MOST_AGAIN = 2, MOST_REPLACED = 16 };

/* Evidence in the room that the library may read. */
union room {
    struct zermuita_evidence walked;
    uint8_t octets[ZERMUITA_CASE_ROOM];
};

/* A walk on its way. */
struct walk {
    const struct zermuita_openssl *checker;
    zermuita_openssl_fetch *fetch;
    void *context;
    struct zermuita_openssl_result *result;
    struct buffer replaced; /* the questions whose messages were replaced, as messages without bytes */
    unsigned replacements;
};

/* Whether no byte string of evidence is null and has a length. */
static bool are_octets(struct zermuita_evidence *it) {
    return zermuita_octets_are(&it->anchor) && zermuita_octets_are(&it->ds) && zermuita_octets_are(&it->name)
           && zermuita_octets_are(&it->messages) && zermuita_octets_are(&it->checked) && zermuita_octets_are(&it->algorithms);
}

static enum zermuita_reply call_resolve(void *handed, struct zermuita_openssl_result *result) {
    union room room = *(const union room *)handed;
    room.walked.messages = octets_of(&result->messages);
    room.walked.checked = octets_of(&result->checked);
    if (!are_octets(&room.walked)) {
        return ZERMUITA_BAD_CASE;
    }
    return (enum zermuita_reply)zermuita_resolve_evidence(&room.walked, result->out.data, result->out.room, &result->said.report);
}

/* A letter in lower case, any other byte as it is. */
static uint8_t lowered(uint8_t octet) {
    return octet >= 'A' && octet <= 'Z' ? (uint8_t)(octet + ('a' - 'A')) : octet;
}

/* Whether names in wire form are the same in any case. Lengths of labels are no letters. */
static bool are_same(struct zermuita_octets one, struct zermuita_octets other) {
    bool are = one.len == other.len;
    for (size_t i = 0; are && i < one.len; i++) {
        are = lowered(one.data[i]) == lowered(other.data[i]);
    }
    return are;
}

static bool is_of(const struct zermuita_wanted *one, const struct zermuita_wanted *other) {
    return one->rtype == other->rtype && are_same(one->zone, other->zone) && are_same(one->name, other->name);
}

/* Removes the first message from a list: its question, and its bytes. */
static bool next_message(struct zermuita_octets *rest, struct zermuita_wanted *wanted, struct zermuita_octets *message) {
    struct zermuita_octets behind = *rest;
    if (!zermuita_next_part(&behind, 2, &wanted->zone) || !zermuita_next_part(&behind, 2, &wanted->name) || behind.len < 2) {
        return false;
    }
    wanted->rtype = (uint16_t)zermuita_number(behind.data, 2);
    behind.data += 2;
    behind.len -= 2;
    if (!zermuita_next_part(&behind, 4, message)) {
        return false;
    }
    *rest = behind;
    return true;
}

/* Appends a message to a list. */
static bool append_message(struct buffer *list, const struct zermuita_wanted *wanted, struct zermuita_octets message) {
    size_t room = zermuita_message_room(wanted, message.len);
    if (!buffer_reserve(list, list->len + room)) {
        return false;
    }
    zermuita_put_message(list->data + list->len, wanted, message);
    list->len += room;
    return true;
}

/* Removes the first message that answers a question. */
static void remove_message(struct buffer *list, const struct zermuita_wanted *wanted) {
    struct zermuita_octets rest = octets_of(list), message;
    struct zermuita_wanted it;
    for (size_t before = rest.len; next_message(&rest, &it, &message); before = rest.len) {
        if (is_of(&it, wanted)) {
            buffer_cut(list, list->len - before, before - rest.len);
            return;
        }
    }
}

/* How often the message that answers a question was replaced. */
static unsigned times_replaced(const struct walk *walk, const struct zermuita_wanted *wanted) {
    struct zermuita_octets rest = octets_of(&walk->replaced), message;
    struct zermuita_wanted it;
    unsigned times = 0;
    while (next_message(&rest, &it, &message)) {
        times += is_of(&it, wanted);
    }
    return times;
}

/* What came of a message that is wanted. */
enum fetched { NOT_FETCHED, FETCHED, NO_MEMORY };

static enum fetched fetch(const struct walk *walk, const struct zermuita_wanted *wanted, unsigned attempt,
                          struct zermuita_octets *message) {
    *message = (struct zermuita_octets){NULL, 0};
    bool is_there = walk->fetch(walk->context, wanted, attempt, message) == 1 && zermuita_octets_are(message);
    return is_there ? FETCHED : NOT_FETCHED;
}

/* Fetches the messages of the output. FETCHED if at least one came. */
static enum fetched fetch_wanted(const struct walk *walk) {
    struct zermuita_octets rest = octets_of(&walk->result->out), message;
    struct zermuita_wanted wanted;
    enum fetched all = NOT_FETCHED;
    while (zermuita_next_wanted(&rest, &wanted)) {
        if (fetch(walk, &wanted, 0, &message) != FETCHED) {
            continue;
        }
        if (!append_message(&walk->result->messages, &wanted, message)) {
            return NO_MEMORY;
        }
        all = FETCHED;
    }
    return all;
}

/* The refusals after which another message may help; which one, `replaced_for` says. */
static bool may_be_replaced(enum zermuita_reply reply) {
    switch (reply) {
    case ZERMUITA_BAD_DNSKEY_MESSAGE:
    case ZERMUITA_BAD_ANSWER_MESSAGE:
    case ZERMUITA_QUESTION_MISMATCH:
    case ZERMUITA_EQUAL_TAGS:
    case ZERMUITA_NO_TRUSTED_KEY:
    case ZERMUITA_MIXED_NSEC3_PARAMETERS:
    case ZERMUITA_NOT_PROVEN:
    case ZERMUITA_MIXED_VERSIONS:
    case ZERMUITA_NOTHING_TOLD:
    case ZERMUITA_INCOMPLETE_DENIAL:
        return true;
    default:
        return false;
    }
}

/* The question whose message a refusal is about: that for the zone's keys, or the one that the library names. */
static struct zermuita_wanted replaced_for(enum zermuita_reply reply, struct zermuita_wanted refused) {
    bool is_of_keys = reply == ZERMUITA_BAD_DNSKEY_MESSAGE || reply == ZERMUITA_QUESTION_MISMATCH || reply == ZERMUITA_EQUAL_TAGS
                      || reply == ZERMUITA_NO_TRUSTED_KEY;
    return is_of_keys ? (struct zermuita_wanted){refused.zone, refused.zone, DNSKEY_TYPE} : refused;
}

/* Fetches a message that is refused from another server, and puts it in the place of the old one. */
static enum fetched replace_refused(struct walk *walk) {
    struct zermuita_openssl_result *result = walk->result;
    struct zermuita_octets rest = octets_of(&result->out), names, message;
    struct zermuita_wanted refused;
    if (!may_be_replaced(result->reply) || walk->replacements == MOST_REPLACED || !zermuita_take_aliases(&rest, &names)
        || !zermuita_next_wanted(&rest, &refused)) {
        return NOT_FETCHED;
    }
    refused = replaced_for(result->reply, refused);
    unsigned times = times_replaced(walk, &refused);
    if (times == MOST_AGAIN || fetch(walk, &refused, times + 1, &message) != FETCHED) {
        return NOT_FETCHED;
    }
    walk->replacements++;
    remove_message(&result->messages, &refused);
    bool are_put = append_message(&result->messages, &refused, message)
                   && append_message(&walk->replaced, &refused, (struct zermuita_octets){NULL, 0});
    return are_put ? FETCHED : NO_MEMORY;
}

static void walk_on(struct walk *walk, union room *room) {
    enum fetched fetched = FETCHED;
    while (fetched == FETCHED) {
        call_until_checked(walk->checker, call_resolve, room, walk->result);
        fetched = walk->result->reply == ZERMUITA_WANT ? fetch_wanted(walk) : replace_refused(walk);
    }
    if (fetched == NO_MEMORY) {
        set_reply(walk->result, ZERMUITA_OUT_OF_MEMORY);
    }
}

/* Takes the messages and the signatures that evidence has. */
static bool take_evidence(struct zermuita_openssl_result *result, struct zermuita_evidence *handed) {
    if (!are_octets(handed)) {
        return false;
    }
    if (!buffer_append(&result->messages, handed->messages) || !buffer_append(&result->checked, handed->checked)) {
        set_reply(result, ZERMUITA_OUT_OF_MEMORY);
        return false;
    }
    return true;
}

struct zermuita_openssl_result *zermuita_openssl_resolve(struct zermuita_openssl *checker, const struct zermuita_evidence *handed,
                                                         zermuita_openssl_fetch *fetch_message, void *context) {
    union room room = {0};
    struct zermuita_openssl_result *result = checker == NULL ? NULL : calloc(1, sizeof *result);
    if (result == NULL) {
        return NULL;
    }
    result->is_walk = true;
    set_reply(result, ZERMUITA_BAD_CASE);
    if (handed->size >= sizeof handed->size && handed->size <= sizeof room) {
        struct walk walk = {checker, fetch_message, context, result, {0}, 0};
        memcpy(&room, handed, handed->size);
        if (room.walked.algorithms.len == 0) {
            room.walked.algorithms = zermuita_openssl_algorithms(checker);
        }
        result->rtype = room.walked.rtype;
        if (take_evidence(result, &room.walked)) {
            walk_on(&walk, &room);
        }
        buffer_free(&walk.replaced);
    }
    read_output(result);
    return result;
}

size_t zermuita_openssl_query(const struct zermuita_wanted *wanted, uint16_t id, uint8_t *query) {
    const uint8_t head[] = {(uint8_t)(id >> 8), (uint8_t)id, 0, 0, 0, 1, 0, 0, 0, 0, 0, 1};
    const uint8_t behind[] = {(uint8_t)(wanted->rtype >> 8), (uint8_t)wanted->rtype, 0, 1, 0, 0, 41, 4, 208, 0, 0, 128, 0, 0, 0};
    struct zermuita_octets rest = wanted->name, name;
    if (!zermuita_octets_are(&rest) || !zermuita_next_name(&rest, &name) || rest.len != 0) {
        return 0;
    }
    memcpy(query, head, sizeof head);
    memcpy(query + sizeof head, name.data, name.len);
    memcpy(query + sizeof head + name.len, behind, sizeof behind);
    return sizeof head + name.len + sizeof behind;
}
