/* Trust anchors: DS records of a file, as master files have them (RFC 4034, 5.3). */
#ifndef ANCHORS_H
#define ANCHORS_H

#include "message.h"

enum { MOST_ANCHORS = 64, ANCHOR_ROOM = 1024 };

/* The DS set of a zone, data behind their lengths. */
struct anchor {
    struct name apex;
    size_t len;
    uint8_t ds[ANCHOR_ROOM];
};

struct anchors {
    size_t count;
    struct anchor of[MOST_ANCHORS];
};

/* Reads a file. Where it can't be read, or has no anchor, it says so on stderr and gives false. */
bool read_anchors(const char *path, struct anchors *anchors);
/* The anchor that is next above a name, or at it; null where there is none. */
const struct anchor *anchor_above(const struct anchors *anchors, const struct name *name);

#endif
