// Standard input and output that give and take a few octets a call, or fail. The variable READ_STEP says how many octets a read gives at
// most, WRITE_STEP how many a write takes; READ_FAILS and WRITE_FAILS which call fails, counted from 1. With ENDLESS each read gives one
// octet. How many reads and writes there were is written to the file that CALLS names. It is loaded before the C library.
#define _GNU_SOURCE
#include <dlfcn.h>
#include <errno.h>
#include <stdbool.h>
#include <stdio.h>
#include <stdlib.h>
#include <unistd.h>

// Calls of one stream: how many octets go in one at most, which fails, and how many there were.
struct stream {
    const char *step, *fails;
    unsigned long calls;
};

static struct stream input = {"READ_STEP", "READ_FAILS", 0}, output = {"WRITE_STEP", "WRITE_FAILS", 0};

static unsigned long number(const char *name, unsigned long without) {
    const char *word = getenv(name);
    return word == NULL ? without : strtoul(word, NULL, 10);
}

// Counts a call, and says whether it fails; else shortens its length.
static bool fails(struct stream *stream, size_t *len) {
    stream->calls += 1;
    if (stream->calls == number(stream->fails, 0)) {
        errno = EIO;
        return true;
    }
    size_t step = number(stream->step, *len);
    *len = step < *len ? step : *len;
    return false;
}

ssize_t read(int file, void *octets, size_t len) {
    static ssize_t (*real)(int, void *, size_t);
    if (real == NULL) {
        real = (ssize_t (*)(int, void *, size_t))dlsym(RTLD_NEXT, "read");
    }
    if (file != STDIN_FILENO) {
        return real(file, octets, len);
    }
    if (fails(&input, &len)) {
        return -1;
    }
    if (getenv("ENDLESS") != NULL && len > 0) {
        *(char *)octets = '#';
        return 1;
    }
    return real(file, octets, len);
}

ssize_t write(int file, const void *octets, size_t len) {
    static ssize_t (*real)(int, const void *, size_t);
    if (real == NULL) {
        real = (ssize_t (*)(int, const void *, size_t))dlsym(RTLD_NEXT, "write");
    }
    if (file != STDOUT_FILENO) {
        return real(file, octets, len);
    }
    if (fails(&output, &len)) {
        return -1;
    }
    return len == 0 ? 0 : real(file, octets, len);
}

__attribute__((destructor)) static void say_how_many(void) {
    const char *name = getenv("CALLS");
    FILE *file = name == NULL ? NULL : fopen(name, "w");
    if (file != NULL) {
        fprintf(file, "%lu %lu\n", input.calls, output.calls);
        fclose(file);
    }
}
