/*
 * A clock that a program is made to read, put in front of the C library's (LD_PRELOAD): it begins at CORPUS_MOMENT, in seconds since
 * 1970, and goes on by one part in CORPUS_SLOWNESS of what passes, so that a run stays in the same second. Other clocks are as they are.
 *
 * Packets get no stamp of the system's clock, by which they would be too old.
 *
 * It takes no memory and calls nothing that does, so that allocators may ask for the time before they are set up.
 */
#define _GNU_SOURCE
#include <stdlib.h>
#include <sys/socket.h>
#include <sys/syscall.h>
#include <sys/time.h>
#include <time.h>
#include <unistd.h>

static long long begin, moment, slowness;

static long long passed(void) {
    struct timespec now;
    syscall(SYS_clock_gettime, CLOCK_MONOTONIC, &now);
    return now.tv_sec * 1000000000LL + now.tv_nsec;
}

static void read_clock(struct timespec *out) {
    if (begin == 0) {
        const char *text = getenv("CORPUS_MOMENT");
        moment = text != NULL ? atoll(text) : 0;
        text = getenv("CORPUS_SLOWNESS");
        slowness = text != NULL ? atoll(text) : 1;
        begin = passed();
    }
    long long since = (passed() - begin) / slowness;
    out->tv_sec = moment + since / 1000000000LL;
    out->tv_nsec = since % 1000000000LL;
}

int clock_gettime(clockid_t clock, struct timespec *out) {
    if (clock == CLOCK_REALTIME || clock == CLOCK_REALTIME_COARSE) {
        read_clock(out);
        return 0;
    }
    return (int)syscall(SYS_clock_gettime, clock, out);
}

int gettimeofday(struct timeval *restrict out, void *restrict zone) {
    struct timespec now;
    (void)zone;
    read_clock(&now);
    out->tv_sec = now.tv_sec;
    out->tv_usec = now.tv_nsec / 1000;
    return 0;
}

time_t time(time_t *out) {
    struct timespec now;
    read_clock(&now);
    if (out != NULL) {
        *out = now.tv_sec;
    }
    return now.tv_sec;
}

int setsockopt(int socket, int level, int name, const void *value, socklen_t length) {
    if (level == SOL_SOCKET && name == SO_TIMESTAMP) {
        return 0;
    }
    return (int)syscall(SYS_setsockopt, socket, level, name, value, length);
}
