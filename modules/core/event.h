/* A message that a resolver has. */
#ifndef EVENT_H
#define EVENT_H

#include "message.h"

enum origin { FROM_SERVER, TO_CLIENT };

struct event {
    enum origin origin;
    uint64_t moment;  /* in seconds since 1970 */
    struct name zone; /* which the resolver takes the asked server's zone for; `len` is 0 where the stream doesn't say */
    size_t len;
    uint8_t octets[];
};

#endif
