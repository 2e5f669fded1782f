/* The judge: all calls of the library are made here. */
#ifndef JUDGE_H
#define JUDGE_H

#include "message.h"

/* What is judged: a zone, its DS set (data behind their lengths), its answer for its keys, and its answer to a question. */
struct trial {
    struct name apex, qname;
    struct octets ds, dnskey, answer;
    uint16_t qtype;
    uint64_t now;
};

enum finding {
    FOUND_RECORDS,
    FOUND_NODATA,
    FOUND_NXDOMAIN,
    FOUND_WILDCARD,
    FOUND_WILDCARD_NODATA,
    FOUND_DELEGATED,
    FOUND_OPTOUT,
    FOUND_ALIAS,    /* the name leads to another, which is to be asked for */
    FOUND_DEAD_END, /* the name that it leads to would be too long (RFC 6672, 2.2) */
    FOUND_BOGUS,      /* nothing is proved, also where a denial lacks a record */
    FOUND_BOGUS_KEYS, /* no key of the zone is trusted */
    FOUND_LEFT_OUT,   /* the library does not judge the question */
    FOUND_ITERATIONS, /* more iterations than are allowed, which is a matter of policy (RFC 9276, 3.2) */
    FOUND_EQUAL_TAGS, /* two keys of one tag, which the library does not judge */
    FOUND_REFUSED,    /* another refusal that is not of a bogus answer: a message cannot be read, or takes too much work */
    FOUND_NOTHING     /* memory ran out */
};

struct judgement {
    enum finding finding;
    struct octets records; /* with FOUND_RECORDS and FOUND_WILDCARD: data behind their lengths, valid until the next call */
    struct name target;    /* with FOUND_ALIAS: where the name leads */
    const char *reply;     /* the library's name of it, and a sentence */
    uint16_t ede;          /* the code of an extended error (RFC 8914); 0: none */
};

struct judge;

/* Null where memory runs out, or where the library is of another version than its header. */
struct judge *make_judge(uint16_t most_iterations);
void free_judge(struct judge *judge);
struct judgement judge(struct judge *judge, const struct trial *trial);
uint16_t judge_iterations(const struct judge *judge);
/* Whether the library judges answers that give an alias. */
bool judges_aliases(void);
/* Whether DS records of an algorithm and a digest type count (RFC 8624, 3). */
bool is_ds_known(struct octets data);

#endif
