#include "evidence.h"

#include "mutator.h"

enum { MOST_ENTRIES = 64 };

/* The messages of a list that is mutated, each with its question. */
static struct message entries[MOST_ENTRIES];
static size_t entries_len;

static void set_octets(struct buffer *octets, struct zermuita_octets to) {
    octets->len = 0;
    buffer_append(octets, to.data, to.len);
}

static void set_question(struct message *entry, const struct zermuita_wanted *question) {
    set_octets(&entry->zone, question->zone);
    set_octets(&entry->name, question->name);
    entry->rtype = question->rtype;
}

static void add_entry(const struct zermuita_wanted *question, struct zermuita_octets octets) {
    if (entries_len < MOST_ENTRIES) {
        struct message *entry = &entries[entries_len++];
        set_question(entry, question);
        set_octets(&entry->octets, octets);
    }
}

static void add_list(const struct buffer *messages) {
    struct zermuita_octets rest = octets_of(messages), octets;
    for (struct zermuita_wanted question; take_message(&rest, &question, &octets);) {
        add_entry(&question, octets);
    }
}

static const struct message *any_stored(void) {
    return &stored.all[below(stored.len)];
}

static void exchange(struct message *one, struct message *other) {
    struct message kept = *one;
    *one = *other;
    *other = kept;
}

static void replay(struct message *entry) {
    set_octets(&entry->octets, octets_of(&any_stored()->octets));
}

/* Tells a message as the answer to another question, in part or whole. */
static void tell_otherwise(struct message *entry) {
    struct zermuita_wanted its = wanted_of(entry), others = wanted_of(any_stored());
    struct message kept = *entry;
    its.zone = one_in(2) ? others.zone : its.zone;
    its.name = one_in(2) ? others.name : its.name;
    its.rtype = one_in(2) ? others.rtype : its.rtype;
    memset(entry, 0, sizeof *entry);
    set_question(entry, &its);
    entry->octets = kept.octets;
    buffer_free(&kept.zone);
    buffer_free(&kept.name);
}

/* Puts a copy in front of a message or behind it: of the two the one in front counts. One of them is changed. */
static void copy_changed(struct message *entry) {
    struct zermuita_wanted question = wanted_of(entry);
    size_t last = entries_len;
    add_entry(&question, octets_of(&entry->octets));
    if (last < entries_len) {
        mutate(&entries[one_in(2) ? last : (size_t)(entry - entries)].octets, &any_stored()->octets);
    }
}

static void change_entry(struct message *entry) {
    switch (below(9)) {
    case 0:
        exchange(entry, &entries[--entries_len]);
        break;
    case 1:
        exchange(entry, &entries[below(entries_len)]);
        break;
    case 2:
        replay(entry);
        break;
    case 3:
        tell_otherwise(entry);
        break;
    case 4:
        change_octet(one_in(2) ? &entry->zone : &entry->name);
        break;
    case 5:
        copy_changed(entry);
        break;
    default:
        mutate(&entry->octets, &any_stored()->octets);
    }
}

/* Puts the messages to go on from in a list. Where there are none, all are wanted. */
static void mutate_messages(const struct buffer *whole, const struct buffer *others, struct buffer *messages) {
    entries_len = 0;
    if (!one_in(16)) {
        add_list(whole);
    }
    if (one_in(8)) {
        add_list(others);
    }
    for (size_t times = below(4); times > 0 && entries_len > 0; times--) {
        change_entry(&entries[below(entries_len)]);
    }
    messages->len = 0;
    for (size_t i = 0; i < entries_len; i++) {
        struct zermuita_wanted question = wanted_of(&entries[i]);
        put_message(messages, &question, octets_of(&entries[i].octets));
    }
    if (one_in(16)) {
        mutate(messages, whole);
    }
}

/* Says of each entry whether its signature passes, by the table. */
static void check_again(struct buffer *checked) {
    struct zermuita_ask ask;
    uint8_t *next = checked->data;
    for (size_t len = checked->len; zermuita_next_ask(&next, &len, &ask);) {
        zermuita_answer(&ask, is_in_table(&ask));
    }
}

static void mutate_checked(const struct buffer *whole, const struct buffer *others, struct buffer *checked) {
    size_t way = below(8);
    checked->len = 0;
    if (way == 0) {
        return;
    }
    buffer_append(checked, whole->data, whole->len);
    if (way == 1) {
        buffer_append(checked, others->data, others->len);
    } else if (way == 2) {
        mutate(checked, others);
        check_again(checked);
    }
}

static void mutate_name(struct buffer *name, const struct buffer *other) {
    if (one_in(3)) {
        set_octets(name, octets_of(other));
    } else if (one_in(4)) {
        name->len -= name->len > 0;
    } else if (one_in(4) && name->len > 1) {
        size_t first = 1 + (size_t)name->data[0];
        memmove(name->data, name->data + first, name->len - first);
        name->len -= first;
    } else {
        change_octet(name);
    }
}

static void mutate_question(const struct answered *other, struct evidence *evidence) {
    static const uint16_t types[] = {0, 1, 2, 5, 6, 15, 16, 28, 39, 41, 43, 46, 47, 48, 50, 51, 128, 255, 256, 65535};
    static const uint8_t lists[][2] = {{13, 5}, {5, 13}, {5, 7}, {13, 13}, {8, 0}};
    if (one_in(8)) {
        mutate_name(&evidence->name, &other->name);
        evidence->is_of_another = true;
    }
    if (one_in(16)) {
        evidence->handed.walked.rtype = one_in(2) ? (uint16_t)other->rtype : types[below(sizeof types / sizeof *types)];
        evidence->is_of_another = true;
    }
    if (one_in(16)) {
        set_octets(&evidence->algorithms, (struct zermuita_octets){lists[below(sizeof lists / sizeof *lists)], below(3)});
        evidence->is_of_another = true;
    }
}

static void mutate_anchor(const struct answered *other, struct evidence *evidence) {
    if (one_in(16)) {
        mutate_name(&evidence->anchor, one_in(2) ? &other->apex : &other->name);
    }
    if (one_in(16)) {
        mutate(&evidence->ds, &other->ds);
    } else if (one_in(16)) {
        buffer_append(&evidence->ds, other->ds.data, other->ds.len);
    }
}

static void mutate_limits(struct zermuita_evidence *walked) {
    uint16_t *const limits[] = {
        &walked->max_cuts, &walked->max_aliases, &walked->max_messages, &walked->max_nsec3_iterations, &walked->one_moment,
    };
    for (size_t i = 0; i < sizeof limits / sizeof *limits; i++) {
        if (one_in(16)) {
            *limits[i] = one_in(4) ? UINT16_MAX : (uint16_t)below(limits[i] == &walked->one_moment ? 2 : 6);
        }
    }
    if (one_in(16)) {
        walked->max_signatures = one_in(4) ? UINT32_MAX : (uint32_t)below(20);
    }
    if (one_in(16)) {
        walked->now += below(2) == 0 ? below(4000000000) : (uint64_t)0 - below(4000000000);
    }
}

void mutate_evidence(const struct answered *walk, const struct judgement *whole, const struct answered *other,
                     const struct judgement *others, struct evidence *evidence, struct judgement *judgement) {
    struct zermuita_evidence *walked = &evidence->handed.walked;
    evidence->handed = handed_of(walk);
    evidence->is_of_another = false;
    set_octets(&evidence->anchor, walked->anchor);
    set_octets(&evidence->ds, walked->ds);
    set_octets(&evidence->name, walked->name);
    set_octets(&evidence->algorithms, walked->algorithms);
    mutate_question(other, evidence);
    mutate_anchor(other, evidence);
    mutate_limits(walked);
    mutate_messages(&whole->messages, &others->messages, &judgement->messages);
    mutate_checked(&whole->checked, &others->checked, &judgement->checked);
    walked->anchor = octets_of(&evidence->anchor);
    walked->ds = octets_of(&evidence->ds);
    walked->name = octets_of(&evidence->name);
    walked->algorithms = octets_of(&evidence->algorithms);
}

bool answer_mutated(const struct handed *handed, const struct zermuita_wanted *wanted, struct buffer *messages) {
    static struct buffer octets;
    if (!one_in(8)) {
        return answer_wanted(handed, wanted, messages);
    }
    set_octets(&octets, octets_of(&any_stored()->octets));
    if (one_in(2)) {
        mutate(&octets, &any_stored()->octets);
    }
    put_message(messages, wanted, octets_of(&octets));
    return true;
}

void evidence_free(struct evidence *evidence) {
    buffer_free(&evidence->anchor);
    buffer_free(&evidence->ds);
    buffer_free(&evidence->name);
    buffer_free(&evidence->algorithms);
}
