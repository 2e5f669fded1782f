/* Eight threads judge the same answers, or walk the same walks, at once, each beginning with another: all must be as of one alone. */
#include "cases.h"

#include <pthread.h>
#include <stdio.h>
#include <stdlib.h>

enum { THREADS = 8, ROUNDS = 20 };

static struct cases cases;
static struct judgement *alone;

/* How many judgements of a thread are unlike those of one alone, written where its number stood. */
static void *judge_all(void *number) {
    struct judgement judgement = {0};
    size_t *thread = number, unlike = 0;
    for (size_t i = 0; i < ROUNDS * cases.len; i++) {
        size_t which = (i + *thread * cases.len / THREADS) % cases.len;
        judge(handed_of(&cases.all[which]), &plainly, &judgement);
        unlike += !are_same_replies(&judgement, &alone[which]);
    }
    judgement_free(&judgement);
    *thread = unlike;
    return NULL;
}

int main(void) {
    pthread_t threads[THREADS];
    size_t numbers[THREADS], unlike = 0;
    cases = read_cases();
    alone = calloc(cases.len + 1, sizeof *alone);
    for (size_t i = 0; i < cases.len; i++) {
        judge(handed_of(&cases.all[i]), &plainly, &alone[i]);
    }
    for (size_t i = 0; i < THREADS; i++) {
        numbers[i] = i;
        if (pthread_create(&threads[i], NULL, judge_all, &numbers[i]) != 0) {
            perror("pthread_create");
            return 2;
        }
    }
    for (size_t i = 0; i < THREADS; i++) {
        pthread_join(threads[i], NULL);
        unlike += numbers[i];
    }
    printf("%d threads, each %d times %zu judged: %zu unlike those of one\n", THREADS, ROUNDS, cases.len, unlike);
    for (size_t i = 0; i < cases.len; i++) {
        judgement_free(&alone[i]);
    }
    free(alone);
    cases_free(&cases);
    return unlike > 0;
}
