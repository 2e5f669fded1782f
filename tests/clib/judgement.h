/*
 * A judgement or a walk: calls until nothing more is asked for, whatever is asked for being checked, and each message that is wanted
 * answered, by functions.
 */
#ifndef JUDGEMENT_H
#define JUDGEMENT_H

#include "buffer.h"

#include <stdbool.h>
#include <zermuita.h>

struct answered;

/* What the library is handed: a case, or the evidence of a walk; and what it was read from, if anything. */
struct handed {
    bool is_walk;
    union {
        struct zermuita_case judged;
        struct zermuita_evidence walked;
    };
    const struct answered *of;
};

/* What was replied at last, the messages that were wanted, the signatures that were asked for, and in how many calls. */
struct judgement {
    enum zermuita_reply reply;
    struct zermuita_report report;
    struct buffer octets;
    struct buffer messages;
    struct buffer checked;
    unsigned calls;
};

/* How a call is made, which signatures pass, and what puts a message that is wanted at the end of a list, if it is there. */
struct caller {
    void (*calls)(const struct handed *handed, struct judgement *judgement);
    bool (*passes)(const struct zermuita_ask *ask);
    bool (*answers)(const struct handed *handed, const struct zermuita_wanted *wanted, struct buffer *messages);
};

/* So many calls and no more: a walk that takes more is taken to be one without an end. */
enum { MOST_CALLS = 2000 };

struct zermuita_octets octets_of(const struct buffer *buffer);

/* A call with what the judgement has of messages and signatures, and room for so many octets as its buffer has. */
void call(const struct handed *handed, struct judgement *judgement);

/* Judges, or walks, from no signatures and messages that are wanted on. Octets of an earlier judgement are reused. */
void judge(struct handed handed, const struct caller *caller, struct judgement *judgement);

/* The same from the messages and signatures on that the judgement has. */
void go_on(struct handed handed, const struct caller *caller, struct judgement *judgement);

/* Whether the last replies are the same, octets, report and all. */
bool are_same_replies(const struct judgement *one, const struct judgement *other);

void judgement_free(struct judgement *judgement);

#endif
