#include "chain.h"

#include "table.h"

#include <stdlib.h>

/* What is proved of a name. */
enum cut { CUT_SIGNED = 1, CUT_UNSIGNED, CUT_UNCHECKED, CUT_NONE };

struct chain {
    const struct anchors *anchors;
    struct judge *judge;
    struct table *keys;    /* by apex: DNSKEY answers */
    struct table *pending; /* by name: answers for DS that are not judged yet */
    struct table *cuts;    /* by name: an octet of `enum cut`, and the DS set */
};

struct chain *make_chain(const struct anchors *anchors, struct judge *judge, size_t most_octets) {
    struct chain *chain = calloc(1, sizeof *chain);
    if (chain == NULL) {
        return NULL;
    }
    struct bounds bounds = {65536, most_octets / 3};
    *chain = (struct chain){anchors, judge, make_table(bounds), make_table(bounds), make_table(bounds)};
    if (chain->keys == NULL || chain->pending == NULL || chain->cuts == NULL) {
        free_chain(chain);
        return NULL;
    }
    return chain;
}

void free_chain(struct chain *chain) {
    free_table(chain->keys);
    free_table(chain->pending);
    free_table(chain->cuts);
    free(chain);
}

bool chain_keys(struct chain *chain, const struct name *apex, uint64_t now, struct octets *message) {
    return table_get(chain->keys, apex, TYPE_DNSKEY, now, message, NULL);
}

/* Keeps what a message says of the DS set of a name, as an answer to the question for it, until it is judged. */
static void learn_ds(struct chain *chain, const struct message *message, const struct name *at, uint64_t now) {
    static uint8_t answer[MESSAGE_ROOM];
    struct octets octets = {answer, write_ds_answer(message, at, answer, sizeof answer)};
    if (octets.len > 0) {
        table_put(chain->pending, at, TYPE_DS, octets, (struct octets){NULL, 0}, now + least_ttl(message, now));
    }
}

/* Keeps an answer for keys. One without signatures proves that the zone's keys can't be trusted, unless others are there. */
static void learn_keys(struct chain *chain, const struct message *message, uint64_t now) {
    struct octets known;
    bool is_signed = is_signed_by(message, NULL) && has_answer(message, &message->qname, TYPE_DNSKEY);
    bool is_of_server = (message->flags & FLAG_AA) != 0 && (message->flags & MASK_RCODE) == RCODE_NOERROR;
    if (is_signed || (is_of_server && !chain_keys(chain, &message->qname, now, &known))) {
        uint64_t until = now + least_ttl(message, now);
        table_put(chain->keys, &message->qname, TYPE_DNSKEY, message->octets, (struct octets){NULL, 0}, until);
    }
}

void chain_learn(struct chain *chain, const struct message *message, uint64_t now) {
    struct name cut;
    if (message->qtype == TYPE_DNSKEY) {
        learn_keys(chain, message, now);
        return;
    }
    if (!is_signed_by(message, NULL)) {
        return; /* nothing is proved without a signature */
    }
    if (is_referral(message, &cut)) {
        learn_ds(chain, message, &cut, now);
    } else if (message->qtype == TYPE_DS) {
        learn_ds(chain, message, &message->qname, now);
    }
}

static void keep_cut(struct chain *chain, const struct name *at, enum cut cut, struct octets ds, uint64_t until) {
    uint8_t mark = (uint8_t)cut;
    table_put(chain->cuts, at, TYPE_DS, (struct octets){&mark, 1}, ds, until);
}

/*
 * Keeps the records of a DS set that count. A zone of which none is left is insecure for a validator that knows no more
 * (RFC 4035, 5.2); but a resolver may know more, and be right.
 */
static void keep_ds(struct chain *chain, const struct name *at, struct octets records, uint64_t until) {
    uint8_t ds[DS_ROOM];
    size_t len = 0;
    for (size_t next = 0, size; next + 2 <= records.len; next += size) {
        size = 2 + (size_t)number16(records.data + next);
        if (is_ds_known((struct octets){records.data + next + 2, size - 2})) {
            if (len + size > sizeof ds) {
                return; /* it is not known what the others are for */
            }
            memcpy(ds + len, records.data + next, size);
            len += size;
        }
    }
    keep_cut(chain, at, len > 0 ? CUT_SIGNED : CUT_UNCHECKED, (struct octets){ds, len}, until);
}

/*
 * What NODATA for DS means: an unsigned zone where the record has type NS, else none (RFC 6840, 4.4). The question is made one
 * for NS.
 */
static enum cut cut_of_nodata(struct chain *chain, struct trial *trial) {
    static uint8_t answer[MESSAGE_ROOM];
    memcpy(answer, trial->answer.data, trial->answer.len);
    answer[HEADER + trial->qname.len + 1] = TYPE_NS;
    trial->answer.data = answer;
    trial->qtype = TYPE_NS;
    switch (judge(chain->judge, trial).finding) {
    case FOUND_DELEGATED:
        return CUT_UNSIGNED;
    case FOUND_NODATA:
        return CUT_NONE;
    default:
        return 0;
    }
}

/* Judges an answer for DS by the keys of the zone above, and keeps what it proves. */
static void prove(struct chain *chain, const struct place *place, const struct name *at, struct octets answer, uint64_t now,
                  uint64_t until) {
    struct trial trial = {
        .apex = place->apex,
        .qname = *at,
        .ds = {place->ds, place->ds_len},
        .answer = answer,
        .qtype = TYPE_DS,
        .now = now,
    };
    chain_keys(chain, &place->apex, now, &trial.dnskey);
    struct judgement judgement = judge(chain->judge, &trial);
    enum cut cut = 0;
    switch (judgement.finding) {
    case FOUND_RECORDS:
        keep_ds(chain, at, judgement.records, until);
        return;
    case FOUND_NODATA:
        cut = cut_of_nodata(chain, &trial);
        break;
    case FOUND_OPTOUT:
        cut = CUT_UNSIGNED;
        break;
    case FOUND_NXDOMAIN:
    case FOUND_WILDCARD:
    case FOUND_WILDCARD_NODATA:
        cut = CUT_NONE;
        break;
    default:
        break;
    }
    if (cut != 0) {
        keep_cut(chain, at, cut, (struct octets){NULL, 0}, until);
    }
}

/* Judges what waits for a name, if the zone above signed it and that zone's keys were seen. */
static void prove_pending(struct chain *chain, const struct place *place, const struct name *at, uint64_t now) {
    struct octets answer, keys;
    struct message message;
    uint64_t until;
    if (table_get(chain->pending, at, TYPE_DS, now, &answer, &until) && chain_keys(chain, &place->apex, now, &keys)
        && read_message(answer, &message) && is_signed_by(&message, &place->apex)) {
        prove(chain, place, at, answer, now, until);
        table_remove(chain->pending, at, TYPE_DS);
    }
}

/* Goes a name further down. Gives false where the way ends. */
static bool step(struct chain *chain, const struct name *at, uint64_t now, struct place *place) {
    struct octets kept;
    prove_pending(chain, place, at, now);
    if (!table_get(chain->cuts, at, TYPE_DS, now, &kept, NULL)) {
        place->unseen = place->is_whole ? *at : place->unseen;
        place->is_whole = false;
        return true;
    }
    if (kept.data[0] == CUT_NONE) {
        return true;
    }
    place->standing = kept.data[0] == CUT_SIGNED ? SIGNED : kept.data[0] == CUT_UNSIGNED ? UNSIGNED : UNCHECKED;
    place->apex = *at;
    place->is_whole = true;
    place->ds_len = kept.len - 1;
    memcpy(place->ds, kept.data + 1, kept.len - 1);
    return place->standing == SIGNED;
}

void chain_descend(struct chain *chain, const struct name *name, uint16_t qtype, uint64_t now, struct place *place) {
    size_t labels = label_count(name), asked = qtype == TYPE_DS && labels > 0 ? labels - 1 : labels;
    struct name target = last_labels(name, asked);
    const struct anchor *anchor = anchor_above(chain->anchors, &target);
    place->standing = anchor != NULL ? SIGNED : NO_ANCHOR;
    place->is_whole = true;
    place->unseen = last_labels(name, 0);
    if (anchor == NULL) {
        return;
    }
    place->apex = anchor->apex;
    place->ds_len = anchor->len;
    memcpy(place->ds, anchor->ds, anchor->len);
    bool goes_on = true;
    for (size_t count = label_count(&anchor->apex) + 1; goes_on && count <= asked; count++) {
        struct name at = last_labels(name, count);
        goes_on = step(chain, &at, now, place);
    }
}
