/*
 * Mutated evidence of walks: messages changed, replayed, told as those of other questions, copied, left out and put in another order,
 * lists cut, DS sets, names, types and limits changed. No signature is said to pass that is not in the table.
 */
#ifndef EVIDENCE_H
#define EVIDENCE_H

#include "cases.h"

/* Evidence, with octets of its own; and whether it is of another question, or of other algorithms, than the walk's. */
struct evidence {
    struct handed handed;
    struct buffer anchor, ds, name, algorithms;
    bool is_of_another;
};

/* Mutates the evidence of a walk; `whole` has all that it takes. Messages and signatures to go on from are put in a judgement. */
void mutate_evidence(const struct answered *walk, const struct judgement *whole, const struct answered *other,
                     const struct judgement *others, struct evidence *evidence, struct judgement *judgement);

/* Answers what is wanted as answer_wanted does, but for some messages that are mutated or replayed. */
bool answer_mutated(const struct handed *handed, const struct zermuita_wanted *wanted, struct buffer *messages);

void evidence_free(struct evidence *evidence);

#endif
