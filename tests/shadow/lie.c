/*
 * A library that lies by one rule: LIE has two replies as numbers, and wherever the library gives the first, the second is
 * handed on. With SLOW each call takes so many milliseconds more. It is loaded in front of the library, by LD_PRELOAD.
 */
#define _GNU_SOURCE /* RTLD_NEXT */
#include <dlfcn.h>
#include <stdlib.h>
#include <time.h>
#include <zermuita.h>

typedef uint32_t judging(const struct zermuita_case *, uint8_t *, size_t, struct zermuita_report *);

uint32_t zermuita_judge_case(const struct zermuita_case *handed, uint8_t *out, size_t out_len, struct zermuita_report *report) {
    judging *const judge = (judging *)dlsym(RTLD_NEXT, "zermuita_judge_case");
    const char *rule = getenv("LIE"), *slowness = getenv("SLOW");
    char *rest;
    if (slowness != NULL) {
        nanosleep(&(struct timespec){.tv_nsec = 1000000 * atol(slowness)}, NULL);
    }
    uint32_t reply = judge(handed, out, out_len, report);
    unsigned long from = rule != NULL ? strtoul(rule, &rest, 10) : 0;
    if (rule == NULL || reply != from || handed->rtype == 43 || handed->rtype == 2) {
        return reply; /* the chain of trust, whose questions are for DS and NS, is not lied about */
    }
    report->len = 0;
    return (uint32_t)strtoul(rest, NULL, 10);
}
