/* A table of bounded size: what was used least recently is evicted. Values are octets, and hold until a moment. */
#ifndef TABLE_H
#define TABLE_H

#include "message.h"

struct table;

struct bounds {
    size_t entries, octets;
};

/* Null where memory runs out. */
struct table *make_table(struct bounds bounds);
void free_table(struct table *table);
/*
 * Keeps a copy of two parts, back to back, in the place of what is there. Nothing is kept where it does not fit or memory runs
 * out.
 */
void table_put(struct table *table, const struct name *name, uint16_t rtype, struct octets first, struct octets second,
               uint64_t until);
/* The octets that are kept, valid until the table is changed. Gives false where there are none, or no more. */
bool table_get(struct table *table, const struct name *name, uint16_t rtype, uint64_t now, struct octets *value,
               uint64_t *until);
void table_remove(struct table *table, const struct name *name, uint16_t rtype);

#endif
