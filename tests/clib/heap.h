/*
 * What a call of the library takes of the heap. A program with this part is linked with -Wl,--wrap=malloc,--wrap=realloc,--wrap=free.
 * Nothing is counted but between heap_begin and heap_end.
 */
#ifndef HEAP_H
#define HEAP_H

#include <stddef.h>

struct heap {
    size_t requests; /* how often malloc and realloc were called */
    size_t in_use;   /* octets that were taken and not given back */
    size_t most;     /* the most that was in use */
};

/* Begins to count, and refuses the request of that number, counted from 1; with 0 none. */
void heap_begin(size_t refused);

struct heap heap_end(void);

#endif
