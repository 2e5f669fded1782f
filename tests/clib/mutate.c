/*
 * Judges mutated messages: those of answers of name servers, of which octets, counts, pointers and lengths are changed, cut and
 * joined, as a seeded sequence of numbers says; and walks over mutated evidence (evidence.h). No call may crash, none may say another
 * verdict than the zone's, and none may take more time or memory than is stated here; and each walk has an end.
 *
 * usage: mutate COUNT SEED [MICROSECONDS]      with no bound on time where the last is left out
 *
 * Prints how many were judged, what was replied, and the most that a call took. In front of that stands a line for each walk that says
 * another verdict than is expected of the question, or one of another question: `said TYPE ALGORITHMS NAME REPLY OCTETS`. Whoever
 * knows the tree of zones is to look whether it says so too.
 */
#define _POSIX_C_SOURCE 199309L
#include "evidence.h"
#include "heap.h"
#include "mutator.h"
#include "text.h"

#include <stdio.h>
#include <stdlib.h>
#include <time.h>

/* What a call may have in use: so many octets for each that it is handed in, and so many besides. */
enum { ROOM_EACH = 64, ROOM_BESIDES = 16384 };

static struct {
    unsigned long replies[64], calls, otherwise, over_memory, over_time, endless;
    double longest, bound;
    struct heap most;
} told;

static double now(void) {
    struct timespec time;
    clock_gettime(CLOCK_THREAD_CPUTIME_ID, &time);
    return (double)time.tv_sec * 1e6 + (double)time.tv_nsec / 1e3;
}

static size_t octets_in(const struct handed *handed) {
    const struct zermuita_evidence *walked = &handed->walked;
    const struct zermuita_case *judged = &handed->judged;
    return handed->is_walk ? walked->messages.len + walked->checked.len
                           : judged->dnskey.len + judged->answer.len + judged->checked.len;
}

/* A call, measured. */
static void call_measured(const struct handed *handed, struct judgement *judgement) {
    double begun = now();
    heap_begin(0);
    call(handed, judgement);
    struct heap heap = heap_end();
    double took = now() - begun;
    told.calls++;
    told.over_memory += heap.most > ROOM_EACH * octets_in(handed) + ROOM_BESIDES || heap.in_use != 0;
    told.over_time += told.bound > 0 && took > told.bound;
    told.longest = told.longest < took ? took : told.longest;
    told.most = told.most.most < heap.most ? heap : told.most;
}

static const struct caller measuring = {call_measured, is_in_table, answer_mutated};

static void print_told(size_t count) {
    printf("%zu mutated judged in %lu calls:", count, told.calls);
    for (int reply = 0; reply < 64; reply++) {
        if (told.replies[reply] > 0) {
            const char *text = zermuita_strerror((enum zermuita_reply)reply);
            printf(" %.*s %lu", (int)strcspn(text, ":") - 9, text + 9, told.replies[reply]);
        }
    }
    printf("\nnot as the zone says: %lu; over the bound of memory: %lu, of time: %lu; without an end: %lu; ", told.otherwise,
           told.over_memory, told.over_time, told.endless);
    printf("most octets in use: %zu, most microseconds: %.0f\n", told.most.most, told.longest);
}

/* A case with messages that are mutated. */
static void judge_mutated(const struct answered *it, const struct answered *other, struct judgement *judgement) {
    static struct buffer dnskey, answer;
    dnskey.len = answer.len = 0;
    buffer_append(&dnskey, it->dnskey.data, it->dnskey.len);
    buffer_append(&answer, it->answer.data, it->answer.len);
    size_t which = below(8);
    if (which != 0) {
        mutate(&answer, one_in(8) ? &it->dnskey : &other->answer);
    }
    if (which < 2) {
        mutate(&dnskey, &other->dnskey);
    }
    struct handed handed = handed_of(it);
    handed.judged.dnskey = octets_of(&dnskey);
    handed.judged.answer = octets_of(&answer);
    judge(handed, &measuring, judgement);
    enum zermuita_reply reply = judgement->reply;
    told.otherwise += zermuita_is_verdict(reply) ? !is_zones(it, judgement) : !zermuita_is_refusal(reply);
}

static void print_octets(struct zermuita_octets octets) {
    putchar(' ');
    if (octets.len == 0) {
        putchar('-');
    }
    print_hex(octets.data, octets.len);
}

static void print_said(const struct zermuita_evidence *walked, const struct judgement *judgement) {
    printf("said %u", (unsigned)walked->rtype);
    print_octets(walked->algorithms);
    print_octets(walked->name);
    printf(" %d", (int)judgement->reply);
    print_octets(octets_of(&judgement->octets));
    puts("");
}

/* Whether a walk may say so where it says no verdict: why, what is still wanted, or what cannot be read. */
static bool is_said_of_walks(enum zermuita_reply reply) {
    bool is_unread = ZERMUITA_BAD_APEX <= reply && reply <= ZERMUITA_BAD_MESSAGES;
    bool is_of_memory = reply == ZERMUITA_OUT_OF_MEMORY || reply == ZERMUITA_HASH_FAILED;
    return reply == ZERMUITA_WANT || is_unread || (zermuita_is_refusal(reply) && !is_of_memory);
}

/* A walk over evidence that is mutated. */
static void walk_mutated(const struct answered *it, const struct judgement *whole, const struct answered *other,
                         const struct judgement *others, struct judgement *judgement) {
    static struct evidence evidence;
    mutate_evidence(it, whole, other, others, &evidence, judgement);
    go_on(evidence.handed, &measuring, judgement);
    enum zermuita_reply reply = judgement->reply;
    told.endless += judgement->calls == MOST_CALLS;
    if (!zermuita_is_verdict(reply)) {
        told.otherwise += !is_said_of_walks(reply) || judgement->report.until != 0 || judgement->report.ttl != 0;
        return;
    }
    told.otherwise += reply == ZERMUITA_DELEGATED || (ZERMUITA_ALIAS <= reply && reply != ZERMUITA_DNAME);
    told.otherwise += judgement->report.until < evidence.handed.walked.now;
    if (evidence.is_of_another || !is_zones(it, judgement)) {
        print_said(&evidence.handed.walked, judgement);
    }
}

/* What each walk takes where nothing is mutated. */
static struct judgement *judge_all(const struct cases *cases) {
    struct judgement *all = calloc(cases->len + 1, sizeof *all);
    for (size_t i = 0; i < cases->len; i++) {
        if (cases->all[i].is_walk) {
            judge(handed_of(&cases->all[i]), &plainly, &all[i]);
        }
    }
    return all;
}

int main(int argc, char **argv) {
    size_t count = argc > 1 ? strtoull(argv[1], NULL, 10) : 1000;
    struct cases cases = read_cases();
    struct judgement judgement = {0}, *whole = judge_all(&cases);
    seed(argc > 2 ? strtoull(argv[2], NULL, 10) : 1);
    told.bound = argc > 3 ? strtod(argv[3], NULL) : 0;
    for (size_t i = 0; i < count; i++) {
        size_t which = below(cases.len), other = below(cases.len);
        const struct answered *it = &cases.all[which];
        if (it->is_walk) {
            walk_mutated(it, &whole[which], &cases.all[other], &whole[other], &judgement);
        } else {
            judge_mutated(it, &cases.all[other], &judgement);
        }
        told.replies[judgement.reply % 64]++;
    }
    print_told(count);
    for (size_t i = 0; i < cases.len; i++) {
        judgement_free(&whole[i]);
    }
    free(whole);
    judgement_free(&judgement);
    cases_free(&cases);
    return told.otherwise + told.over_memory + told.over_time + told.endless > 0;
}
