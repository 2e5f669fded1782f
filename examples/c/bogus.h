/* Which refusals say that an answer is bogus (docs/use/CALLING.md). */
#ifndef BOGUS_H
#define BOGUS_H

#include <stdbool.h>
#include <zermuita.h>

/*
 * Whether a refused answer is bogus (RFC 4035, 4.3), if the steps of docs/use/REPLIES.md lead to no verdict: asking another
 * server, and with ZERMUITA_NOT_PROVEN first TCP, a fresh DNSKEY answer and a search for a zone below. The other refusals concern
 * a question that is not judged, a server that failed or left out a record of a denial, policy, or what the library lacked.
 */
static inline bool is_bogus(enum zermuita_reply reply) {
    return reply == ZERMUITA_NO_TRUSTED_KEY || reply == ZERMUITA_MIXED_NSEC3_PARAMETERS || reply == ZERMUITA_NOT_PROVEN;
}

#endif
