/*
 * The chain of trust: from the anchors down, by DS sets that were proved. A DS set counts where a message of the parent was
 * judged by the parent's keys, which themselves count by the parent's DS set, and as long as the TTLs of that message allow.
 * Nothing is asked for, and nothing is guessed: what no message proved is not known.
 */
#ifndef CHAIN_H
#define CHAIN_H

#include "anchors.h"
#include "judge.h"

enum { DS_ROOM = 4096 };

enum standing {
    NO_ANCHOR, /* no anchor is above the name */
    SIGNED,    /* the zone's DS set is proved */
    UNSIGNED,  /* it is proved that there is none */
    UNCHECKED  /* the zone's DS set is proved, and has no record of an algorithm and a digest that are checked here */
};

/* Where the way down to a name ends. */
struct place {
    enum standing standing;
    struct name apex; /* of the last zone on the way */
    size_t ds_len;
    uint8_t ds[DS_ROOM];
    bool is_whole;      /* it is proved of all names below the apex, up to the one that is sought, that no zone begins there */
    struct name unseen; /* where it is not: the first of which nothing is proved */
};

struct chain;

struct chain *make_chain(const struct anchors *anchors, struct judge *judge, size_t most_octets);
void free_chain(struct chain *chain);
/* Takes what a message says of keys and of DS sets. Nothing of it counts before it is proved. */
void chain_learn(struct chain *chain, const struct message *message, uint64_t now);
/* The way down to the zone that answers a question: one for DS is answered by the zone above. */
void chain_descend(struct chain *chain, const struct name *name, uint16_t qtype, uint64_t now, struct place *place);
/* The DNSKEY answer of a zone. It counts where a judgement with the zone's DS set says so. */
bool chain_keys(struct chain *chain, const struct name *apex, uint64_t now, struct octets *message);

#endif
