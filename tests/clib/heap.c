#include "heap.h"

#include <malloc.h>
#include <stdbool.h>

static struct heap heap;
static size_t refused;
static bool counts;

void *__real_malloc(size_t size);
void *__real_realloc(void *block, size_t size);
void __real_free(void *block);

static bool is_refused(void) {
    heap.requests += counts;
    return counts && heap.requests == refused;
}

/* Counts a block that was taken in the place of so many octets. */
static void *taken(void *block, size_t before) {
    if (counts && block != NULL) {
        heap.in_use += malloc_usable_size(block) - before;
        heap.most = heap.most < heap.in_use ? heap.in_use : heap.most;
    }
    return block;
}

void *__wrap_malloc(size_t size) {
    return is_refused() ? NULL : taken(__real_malloc(size), 0);
}

void *__wrap_realloc(void *block, size_t size) {
    size_t before = block == NULL ? 0 : malloc_usable_size(block);
    return is_refused() ? NULL : taken(__real_realloc(block, size), before);
}

void __wrap_free(void *block) {
    if (counts && block != NULL) {
        heap.in_use -= malloc_usable_size(block);
    }
    __real_free(block);
}

void heap_begin(size_t number) {
    heap = (struct heap){0};
    refused = number;
    counts = true;
}

struct heap heap_end(void) {
    counts = false;
    return heap;
}
