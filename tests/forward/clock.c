/*
 * A clock that jumps: the file that CLOCK_FILE names has how many seconds it is ahead, or behind. It is loaded in front of the C
 * library, by LD_PRELOAD. The steady clocks stay as they are.
 */
#define _GNU_SOURCE /* RTLD_NEXT */
#include <dlfcn.h>
#include <stdio.h>
#include <stdlib.h>
#include <time.h>

typedef int clock_of(clockid_t, struct timespec *);

static long jump(void) {
    const char *path = getenv("CLOCK_FILE");
    FILE *file = path != NULL ? fopen(path, "r") : NULL;
    long seconds = 0;
    if (file != NULL) {
        if (fscanf(file, "%ld", &seconds) != 1) {
            seconds = 0;
        }
        fclose(file);
    }
    return seconds;
}

int clock_gettime(clockid_t which, struct timespec *now) {
    int result = ((clock_of *)dlsym(RTLD_NEXT, "clock_gettime"))(which, now);
    if (result == 0 && which == CLOCK_REALTIME) {
        now->tv_sec += jump();
    }
    return result;
}
