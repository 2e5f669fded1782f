/* Octets changed, cut and joined, as a seeded sequence of numbers says. */
#ifndef MUTATOR_H
#define MUTATOR_H

#include "buffer.h"

#include <stdbool.h>

void seed(uint64_t number);

/* A number below a bound, of the sequence that the seed begins; 0 below 0. */
size_t below(size_t bound);

/* Whether one of so many turns has come. */
bool one_in(size_t turns);

/* Changes an octet, of one octet at least. */
void change_octet(struct buffer *octets);

/* Changes a message, or other octets, perhaps by octets of another. Of 12 octets or fewer nothing is changed. */
void mutate(struct buffer *message, const struct buffer *other);

#endif
