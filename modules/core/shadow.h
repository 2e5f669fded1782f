/* Compares what a resolver says to its clients with what the judge says of the messages that the resolver has. */
#ifndef SHADOW_H
#define SHADOW_H

#include "chain.h"
#include "event.h"
#include "table.h"

#include <stdio.h>

enum result { SECURE, INSECURE, BOGUS, UNTOLD }; /* UNTOLD: neither secure nor bogus, of a client that asked for no proof */

/* Why an answer was not judged. */
enum reason {
    REASON_ALIAS,             /* an alias of an unsigned zone, of a long chain, or of a library that judges none */
    REASON_TYPE,              /* the library does not judge the type */
    REASON_EQUAL_TAGS,        /* two keys have one tag, which the library does not judge */
    REASON_ITERATIONS,        /* the iterations are over the limit, which is a matter of policy */
    REASON_REFUSED,           /* a message cannot be read, answers another question, or takes more work than is done */
    REASON_ALGORITHMS,        /* the zone's DS set has no record of an algorithm and a digest that are checked here */
    REASON_CHECKING_DISABLED, /* the client asked with the bit CD */
    REASON_CUT_OFF,           /* the answer to the client has the bit TC */
    REASON_CODE,              /* another response code, class or operation */
    REASON_OTHER_FAULT,       /* SERVFAIL whose extended errors are of the network or of policy */
    REASON_NO_ANCHOR,         /* no trust anchor is above the name */
    REASON_NO_DS,             /* message not seen: of a name on the way no answer for DS was seen, and it is needed */
    REASON_NO_DNSKEY,         /* message not seen: the zone's answer for its keys */
    REASON_NO_ANSWER,         /* message not seen: the answer itself */
    REASON_NO_CUT, /* message not seen: an unsigned answer in a signed zone, and whether another zone begins below it */
    REASON_MEMORY, /* memory ran out */
    REASONS
};

struct counts {
    uint64_t judged, disagree;
};

/* What a resolver said to its client. */
struct told {
    struct name qname;
    enum result result;
    uint16_t rcode;
    bool has_records, has_edns, wants_proof; /* the last: the client set the bit DO (RFC 3225) */
    bool is_alias_alone;                     /* it gives an alias, and says nothing of what that leads to */
    struct record edns;
};

/* What the judge says of it. */
struct verdict {
    enum result result;
    enum finding finding;
    struct name target; /* of an alias */
    const char *reply;
    uint16_t ede;
    bool has_nxname; /* the answer has a record which says that the name does not exist */
};

struct shadow {
    struct judge *judge;
    struct chain *chain;
    struct table *answers; /* by question: the zone of the server, behind its length, and the message */
    struct counts counts;
    FILE *log;
    uint64_t lines;
};

/* Takes what a message tells: of keys and DS sets any, of answers one of a server. */
void shadow_learn(struct shadow *shadow, const struct event *event);
/* Compares what the resolver says to a client. */
void shadow_compare(struct shadow *shadow, const struct event *event);

#endif
