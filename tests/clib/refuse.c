/*
 * Refuses each request of memory of a call in turn: of each call that a judgement or a walk takes. Then the reply is that memory ran
 * out, and nothing else is said but counts, of a walk nothing at all; or it is what it is with memory, extended error and all, since
 * some requests only make a call faster; and all memory was given back. Prints how many requests were refused, and how many of these
 * calls said the same as with memory.
 *
 * usage: refuse [MOST]      of a call with more requests so many, evenly spread
 */
#include "cases.h"
#include "heap.h"

#include <stdio.h>
#include <stdlib.h>

static unsigned long calls, refused, same, wrong;
static size_t most = SIZE_MAX;
/* What is replied without memory; its lists are those of the judgement with it. */
static struct judgement without;

/* Whether a reply says that memory ran out, and nothing of the zone. */
static bool is_out_of_memory(const struct judgement *it, bool is_walk) {
    const struct zermuita_report *report = &it->report;
    bool is_counted = report->verifications != 0 || report->hashes != 0;
    return it->reply == ZERMUITA_OUT_OF_MEMORY && report->len == 0 && report->ttl == 0 && report->until == 0 && report->ede == 0
        && report->delegates == ZERMUITA_DELEGATES_UNKNOWN && !(is_walk && is_counted);
}

/* One call, with a request refused or none. */
static struct heap called(const struct handed *handed, size_t request, struct judgement *judgement) {
    heap_begin(request);
    call(handed, judgement);
    return heap_end();
}

static void refuse_each(const struct handed *handed, struct judgement *with) {
    struct heap heap = called(handed, 0, with);
    size_t step = heap.requests < most ? 1 : heap.requests / most;
    buffer_reserve(&without.octets, with->octets.room);
    calls++;
    wrong += heap.in_use != 0;
    for (size_t request = 1 + calls % step; request <= heap.requests; request += step) {
        struct heap left = called(handed, request, &without);
        bool is = are_same_replies(with, &without);
        refused++;
        same += is;
        wrong += left.in_use != 0 || !(is || is_out_of_memory(&without, handed->is_walk));
    }
}

int main(int argc, char **argv) {
    static const struct caller refusing = {refuse_each, is_in_table, answer_wanted};
    struct cases cases = read_cases();
    struct judgement judgement = {0};
    most = argc > 1 ? strtoull(argv[1], NULL, 10) : most;
    buffer_reserve(&judgement.octets, 65536);
    for (size_t i = 0; i < cases.len; i++) {
        judge(handed_of(&cases.all[i]), &refusing, &judgement);
    }
    printf("%zu judged in %lu calls: %lu requests refused, %lu calls as with memory, %lu wrong\n", cases.len, calls, refused, same,
           wrong);
    judgement_free(&judgement);
    judgement_free(&without);
    cases_free(&cases);
    return wrong > 0;
}
