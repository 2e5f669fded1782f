#define _GNU_SOURCE
#include "cases.h"

#include "text.h"

#include <ctype.h>
#include <stdio.h>
#include <stdlib.h>

enum { SLOTS = 4096, OCTETS = 7 };

struct messages stored;

/* The signatures that pass, by a hash of their octets: each in the first free slot behind its own. */
static struct buffer table[SLOTS];

static uint64_t mixed(uint64_t hash, const uint8_t *octets, size_t len) {
    for (size_t i = 0; i < len; i++) {
        hash = (hash ^ octets[i]) * 1099511628211u;
    }
    return hash;
}

static bool has(const struct buffer *slot, struct zermuita_octets entry) {
    return slot->len == entry.len && memcmp(slot->data, entry.data, entry.len) == 0;
}

/* The slot of an entry, which is free where the table does not have it. */
static struct buffer *slot_of(struct zermuita_octets entry) {
    size_t place = mixed(14695981039346656037u, entry.data, entry.len) % SLOTS;
    while (table[place].len > 0 && !has(&table[place], entry)) {
        place = (place + 1) % SLOTS;
    }
    return &table[place];
}

bool is_in_table(const struct zermuita_ask *ask) {
    const uint8_t *entry = ask->dnskey.data - 2;
    return slot_of((struct zermuita_octets){entry, (size_t)(ask->passes - entry)})->len > 0;
}

static void fail(const char *what) {
    fprintf(stderr, "cannot be read: %.60s\n", what);
    exit(2);
}

static char *next_word(char **rest) {
    char *word = strsep(rest, " ");
    if (word == NULL) {
        fail("a line that ends too early");
    }
    return word;
}

static void next_octets(char **rest, struct buffer *octets) {
    char *word = next_word(rest);
    if (!octets_of_hex(word, octets)) {
        fail(word);
    }
}

static uint64_t next_number(char **rest) {
    return strtoull(next_word(rest), NULL, 10);
}

/* What octets a case or a walk has, in the order of its line: a walk has the first five, a case all but `without`. */
static void octets_in(struct answered *it, struct buffer *octets[OCTETS]) {
    struct buffer *const all[OCTETS] = {&it->algorithms, &it->apex, &it->name, &it->ds, &it->without, &it->dnskey, &it->answer};
    memcpy(octets, all, sizeof all);
}

static void take_saying(struct saying *saying, char *word) {
    saying->reply = (enum zermuita_reply)strtoull(strsep(&word, ":"), NULL, 10);
    char *octets = strsep(&word, ":");
    if (octets == NULL || word == NULL || !octets_of_hex(octets, &saying->octets)) {
        fail("what may be replied");
    }
    saying->delegates = (uint16_t)strtoull(word, NULL, 10);
}

static void take_case(struct answered *it, bool is_walk, char *rest) {
    memset(it, 0, sizeof *it);
    it->is_walk = is_walk;
    char *words = next_word(&rest);
    for (char *word; (word = strsep(&words, ",")) != NULL && it->may_be_len < MOST_REPLIES;) {
        take_saying(&it->may_be[it->may_be_len++], word);
    }
    it->rtype = (uint32_t)next_number(&rest);
    it->limit = (uint32_t)next_number(&rest);
    it->now = next_number(&rest);
    uint32_t *const of_case[] = {&it->one_moment, &it->as_received, &it->other_question, &it->max_signatures, &it->places};
    uint32_t *const of_walk[] = {&it->one_moment, &it->max_cuts, &it->max_aliases, &it->max_messages, &it->max_signatures};
    for (size_t i = 0; i < sizeof of_case / sizeof *of_case; i++) {
        *(is_walk ? of_walk : of_case)[i] = (uint32_t)next_number(&rest);
    }
    struct buffer *octets[OCTETS];
    octets_in(it, octets);
    for (size_t i = 0; i < (is_walk ? 5 : OCTETS); i++) {
        if (is_walk || octets[i] != &it->without) {
            next_octets(&rest, octets[i]);
        }
    }
}

static void take_stored(struct message *message, char *rest) {
    memset(message, 0, sizeof *message);
    message->rtype = (uint32_t)next_number(&rest);
    next_octets(&rest, &message->zone);
    next_octets(&rest, &message->name);
    next_octets(&rest, &message->octets);
}

static void take_passing(char *rest) {
    static size_t count;
    struct buffer entry = {0};
    next_octets(&rest, &entry);
    struct buffer *slot = slot_of(octets_of(&entry));
    if (slot->len > 0) {
        buffer_free(&entry);
    } else if (++count == SLOTS) {
        fail("more signatures than there are slots");
    } else {
        *slot = entry;
    }
}

struct cases read_cases(void) {
    struct cases cases = {0};
    char *line = NULL;
    size_t room = 0;
    for (ssize_t len; (len = getline(&line, &room, stdin)) > 0;) {
        line[len - 1] = line[len - 1] == '\n' ? 0 : line[len - 1];
        char *rest = line, *name = next_word(&rest);
        if (strcmp(name, "passes") == 0) {
            take_passing(rest);
        } else if (strcmp(name, "case") == 0 || strcmp(name, "walk") == 0) {
            cases.all = realloc(cases.all, (cases.len + 1) * sizeof *cases.all);
            take_case(&cases.all[cases.len++], *name == 'w', rest);
        } else if (strcmp(name, "message") == 0) {
            stored.all = realloc(stored.all, (stored.len + 1) * sizeof *stored.all);
            take_stored(&stored.all[stored.len++], rest);
        } else {
            fail(name);
        }
    }
    free(line);
    return cases;
}

void cases_free(struct cases *cases) {
    for (size_t i = 0; i < cases->len; i++) {
        struct buffer *octets[OCTETS];
        octets_in(&cases->all[i], octets);
        for (size_t j = 0; j < OCTETS; j++) {
            buffer_free(octets[j]);
        }
        for (size_t j = 0; j < cases->all[i].may_be_len; j++) {
            buffer_free(&cases->all[i].may_be[j].octets);
        }
    }
    free(cases->all);
    for (size_t i = 0; i < stored.len; i++) {
        buffer_free(&stored.all[i].zone);
        buffer_free(&stored.all[i].name);
        buffer_free(&stored.all[i].octets);
    }
    free(stored.all);
    for (size_t i = 0; i < SLOTS; i++) {
        buffer_free(&table[i]);
    }
}

static struct zermuita_case case_of(const struct answered *answered) {
    return (struct zermuita_case){
        .size = sizeof(struct zermuita_case),
        .apex = octets_of(&answered->apex),
        .ds = octets_of(&answered->ds),
        .dnskey = octets_of(&answered->dnskey),
        .answer = octets_of(&answered->answer),
        .name = octets_of(&answered->name),
        .now = answered->now,
        .rtype = (uint16_t)answered->rtype,
        .rclass = 1,
        .max_nsec3_iterations = (uint16_t)answered->limit,
        .one_moment = answered->one_moment,
        .as_received = answered->as_received,
        .algorithms = octets_of(&answered->algorithms),
        .max_signatures = answered->max_signatures,
        .other_question = answered->other_question,
        .no_ds = answered->ds.len == 0,
        .places = answered->places,
    };
}

static struct zermuita_evidence evidence_of(const struct answered *answered) {
    return (struct zermuita_evidence){
        .size = sizeof(struct zermuita_evidence),
        .anchor = octets_of(&answered->apex),
        .ds = octets_of(&answered->ds),
        .name = octets_of(&answered->name),
        .algorithms = octets_of(&answered->algorithms),
        .now = answered->now,
        .rtype = (uint16_t)answered->rtype,
        .max_nsec3_iterations = (uint16_t)answered->limit,
        .max_cuts = (uint16_t)answered->max_cuts,
        .max_aliases = (uint16_t)answered->max_aliases,
        .one_moment = (uint16_t)answered->one_moment,
        .max_messages = (uint16_t)answered->max_messages,
        .max_signatures = answered->max_signatures,
    };
}

struct handed handed_of(const struct answered *answered) {
    struct handed handed = {.is_walk = answered->is_walk, .of = answered};
    if (answered->is_walk) {
        handed.walked = evidence_of(answered);
    } else {
        handed.judged = case_of(answered);
    }
    return handed;
}

/* How many names stand in front of a reply's octets at most. */
static size_t names_of(enum zermuita_reply reply) {
    switch (reply) {
    case ZERMUITA_DELEGATED:
    case ZERMUITA_ALIAS:
    case ZERMUITA_WILDCARD_ALIAS:
    case ZERMUITA_REFERRAL:
        return 1;
    case ZERMUITA_DNAME:
        return 2;
    default:
        return 0;
    }
}

static bool are_same_octets(struct zermuita_octets one, struct zermuita_octets other) {
    return one.len == other.len && memcmp(one.data, other.data, one.len) == 0;
}

/* Whether names are the same, whatever the case of their letters. Lengths of labels are no letters. */
static bool are_same_names(struct zermuita_octets one, struct zermuita_octets other) {
    bool are_same = one.len == other.len;
    for (size_t i = 0; are_same && i < one.len; i++) {
        are_same = tolower(one.data[i]) == tolower(other.data[i]);
    }
    return are_same;
}

struct zermuita_wanted wanted_of(const struct message *message) {
    return (struct zermuita_wanted){octets_of(&message->zone), octets_of(&message->name), (uint16_t)message->rtype};
}

void put_message(struct buffer *messages, const struct zermuita_wanted *wanted, struct zermuita_octets octets) {
    size_t room = zermuita_message_room(wanted, octets.len);
    buffer_reserve(messages, messages->len + room);
    zermuita_put_message(messages->data + messages->len, wanted, octets);
    messages->len += room;
}

bool take_message(struct zermuita_octets *rest, struct zermuita_wanted *wanted, struct zermuita_octets *octets) {
    bool has_names = zermuita_next_part(rest, 2, &wanted->zone) && zermuita_next_part(rest, 2, &wanted->name) && rest->len >= 2;
    if (!has_names) {
        return false;
    }
    wanted->rtype = (uint16_t)zermuita_number(rest->data, 2);
    rest->data += 2;
    rest->len -= 2;
    return zermuita_next_part(rest, 4, octets) == 1;
}

size_t messages_in(struct zermuita_octets list) {
    size_t count = 0;
    struct zermuita_wanted wanted;
    for (struct zermuita_octets octets; take_message(&list, &wanted, &octets);) {
        count++;
    }
    return count;
}

/* Whether a walk is to go without a message. */
static bool is_without(const struct answered *walk, size_t number) {
    struct zermuita_octets rest = octets_of(&walk->without);
    for (uint32_t without; zermuita_next_place(&rest, &without);) {
        if (without == number) {
            return true;
        }
    }
    return false;
}

bool answer_wanted(const struct handed *handed, const struct zermuita_wanted *wanted, struct buffer *messages) {
    for (size_t i = 0; i < stored.len; i++) {
        struct zermuita_wanted its = wanted_of(&stored.all[i]);
        bool is_it = its.rtype == wanted->rtype && are_same_names(its.name, wanted->name) && are_same_names(its.zone, wanted->zone);
        if (is_it && !is_without(handed->of, i)) {
            put_message(messages, wanted, octets_of(&stored.all[i].octets));
            return true;
        }
    }
    return false;
}

const struct caller plainly = {call, is_in_table, answer_wanted};

/* Takes places off that ascend. */
static bool take_ascending(struct zermuita_octets *rest) {
    struct zermuita_octets places;
    bool ascend = zermuita_take_places(rest, &places);
    int64_t last = -1;
    for (uint32_t place; ascend && zermuita_next_place(&places, &place); last = place) {
        ascend = last < place;
    }
    return ascend;
}

static bool is_said(const struct saying *saying, const struct judgement *judgement, struct zermuita_octets other, bool is_walk) {
    struct zermuita_octets one = octets_of(&saying->octets), name, other_name;
    if (judgement->reply != saying->reply || judgement->report.delegates != saying->delegates) {
        return false;
    }
    for (size_t i = 0; !is_walk && i < names_of(saying->reply) && zermuita_next_name(&one, &name); i++) {
        if (!zermuita_next_name(&other, &other_name) || !are_same_names(name, other_name)) {
            return false;
        }
    }
    return are_same_octets(one, other);
}

bool is_zones(const struct answered *answered, const struct judgement *judgement) {
    if (judgement->reply == ZERMUITA_INSECURE && !answered->is_walk) {
        return answered->ds.len == 0 || judgement->report.ede != 0;
    }
    struct zermuita_octets octets = octets_of(&judgement->octets);
    if (answered->places == 1 && !take_ascending(&octets)) {
        return false;
    }
    bool is_one = false;
    for (size_t i = 0; i < answered->may_be_len; i++) {
        is_one |= is_said(&answered->may_be[i], judgement, octets, answered->is_walk);
    }
    return is_one;
}
