/*
 * Answers of name servers that are to be judged, and walks over them, as the script in this folder hands them in: a line each.
 *
 * - `passes ENTRY`: a signature that passes, as an entry without its last octet.
 * - `case MAY_BE TYPE LIMIT MOMENT ONE_MOMENT AS_RECEIVED OTHER MOST PLACES ALGORITHMS APEX NAME DS DNSKEY ANSWER`: what may be
 *   replied, by what the zone says, with commas between replies: each a number, octets, and what it says of a delegation, with colons
 *   between them; the question; the flags; and what is judged. Octets are hexadecimal digits, "-" for none.
 * - `walk MAY_BE TYPE LIMIT MOMENT ONE_MOMENT CUTS ALIASES MESSAGES MOST ALGORITHMS ANCHOR NAME DS WITHOUT`: what is replied in the
 *   end; the question; the limits; what is walked from; and the messages that are not there, each by its number in four octets.
 * - `message TYPE ZONE NAME OCTETS`: what a server of a zone answers to a question. Messages are counted from 0.
 */
#ifndef CASES_H
#define CASES_H

#include "judgement.h"

enum { MOST_REPLIES = 4 };

/* What may be replied. */
struct saying {
    enum zermuita_reply reply;
    struct buffer octets;
    uint16_t delegates;
};

/* A case, or a walk, of which `apex` is the anchor's name. */
struct answered {
    bool is_walk;
    struct saying may_be[MOST_REPLIES];
    size_t may_be_len;
    uint64_t now;
    uint32_t rtype, limit, one_moment, as_received, other_question, max_signatures, places, max_cuts, max_aliases, max_messages;
    struct buffer algorithms, apex, name, ds, dnskey, answer, without;
};

struct cases {
    struct answered *all;
    size_t len;
};

/* Which zone answers which question, and how. */
struct message {
    uint32_t rtype;
    struct buffer zone, name, octets;
};

struct messages {
    struct message *all;
    size_t len;
};

/* What a server answers, for all walks. */
extern struct messages stored;

/* Reads standard input to its end, or ends the program with what cannot be read. */
struct cases read_cases(void);

void cases_free(struct cases *cases);

struct handed handed_of(const struct answered *answered);

/*
 * Whether a verdict is one that may be replied, octets and all, behind places that ascend where the case wants them; or that the zone
 * is insecure, where no DS record can be checked.
 */
bool is_zones(const struct answered *answered, const struct judgement *judgement);

/* Whether a signature is among those that pass. */
bool is_in_table(const struct zermuita_ask *ask);

/* The question of a stored message, as it is wanted. */
struct zermuita_wanted wanted_of(const struct message *message);

/* Takes a message off the front of a list. False where there is none. */
bool take_message(struct zermuita_octets *rest, struct zermuita_wanted *wanted, struct zermuita_octets *octets);

/* How many messages a list has. */
size_t messages_in(struct zermuita_octets list);

/* Puts the answer to a message that is wanted at the end of a list. */
void put_message(struct buffer *messages, const struct zermuita_wanted *wanted, struct zermuita_octets octets);

/* Puts the stored answer to a message that is wanted at the end of a list, if there is one in that walk. */
bool answer_wanted(const struct handed *handed, const struct zermuita_wanted *wanted, struct buffer *messages);

/* Calls, with signatures that pass by the table, and messages that servers answer. */
extern const struct caller plainly;

#endif
