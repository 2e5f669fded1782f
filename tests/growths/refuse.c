// Refuses one growth of a program's memory: that whose number the variable GROWTH says, counted from 1. Where it is 0, or
// isn't there, none is refused, and how many there were is written to standard error at the end. It is loaded before the C
// library.
#define _GNU_SOURCE
#include <dlfcn.h>
#include <stdbool.h>
#include <stdio.h>
#include <stdlib.h>

static unsigned long seen;

static unsigned long refused(void) {
    static unsigned long number;
    static bool is_read;
    if (!is_read) {
        const char *word = getenv("GROWTH");
        number = word == NULL ? 0 : strtoul(word, NULL, 10);
        is_read = true;
    }
    return number;
}

static bool is_refused(void) {
    seen += 1;
    return seen == refused();
}

void *malloc(size_t size) {
    static void *(*real)(size_t);
    if (real == NULL) {
        real = dlsym(RTLD_NEXT, "malloc");
    }
    return is_refused() ? NULL : real(size);
}

void *realloc(void *block, size_t size) {
    static void *(*real)(void *, size_t);
    if (real == NULL) {
        real = dlsym(RTLD_NEXT, "realloc");
    }
    return is_refused() ? NULL : real(block, size);
}

__attribute__((destructor)) static void say_how_many(void) {
    if (refused() == 0) {
        fprintf(stderr, "%lu\n", seen);
    }
}
