/* What is counted: answers of name servers, a line each on standard input, and what is done with them. */
#ifndef ASKED_H
#define ASKED_H

#include "buffer.h"

#include <stdbool.h>
#include <stdint.h>

/* A question, and what the zone's server answered. Names are in wire form. */
struct asked {
    char *word;
    uint64_t moment;
    uint16_t rtype, limit;
    struct buffer apex, name, answer, dnskey, ds;
};

/* The next line, if there is one. Octets of an earlier line are written over. */
bool next_asked(struct asked *asked);

void asked_free(struct asked *asked);

/* Does some work twice and has valgrind count the second time, so that what is made at the first call is not counted. The counts
   bear the question's word and the work's, and both are printed where the work was done as it should. */
void count(const struct asked *asked, const char *word, bool (*work)(const struct asked *));

/* The works of a library that only reads answers: of each line it reads both and, where there is no such name, checks what denies
   it. */
struct reader {
    bool (*read_answer)(const struct asked *);
    bool (*read_dnskey)(const struct asked *);
    bool (*read_and_check)(const struct asked *);
};

/* Counts each of them on each line. */
void count_reader(const struct reader *reader);

#endif
