/* Eight threads judge by one checker at once, each beginning with another case; it keeps fewer keys than there are. All must be said as
 * by one thread alone. */
#include "backend.h"

#include <pthread.h>
#include <stdio.h>
#include <stdlib.h>

enum { THREADS = 8, KEPT = 3 };

static struct cases cases;
static struct zermuita_openssl *checker;
static struct zermuita_openssl_result **alone;

/* How many results of a thread are unlike those of one alone, written where its number stood. */
static void *judge_all(void *number) {
    size_t *thread = number, unlike = 0;
    for (size_t i = 0; i < cases.len; i++) {
        size_t which = (i + *thread * cases.len / THREADS) % cases.len;
        struct zermuita_openssl_result *result = said_of(checker, &cases.all[which]);
        unlike += !are_same_results(result, alone[which], &cases.all[which]);
        zermuita_openssl_result_free(result);
    }
    *thread = unlike;
    return NULL;
}

int main(void) {
    pthread_t threads[THREADS];
    size_t numbers[THREADS], unlike = 0;
    cases = read_cases();
    checker = zermuita_openssl_new_in(NULL, NULL, KEPT);
    alone = calloc(cases.len + 1, sizeof *alone);
    for (size_t i = 0; i < cases.len; i++) {
        alone[i] = said_of(checker, &cases.all[i]);
    }
    for (size_t i = 0; i < THREADS; i++) {
        numbers[i] = i;
        if (pthread_create(&threads[i], NULL, judge_all, &numbers[i]) != 0) {
            perror("pthread_create");
            return 2;
        }
    }
    for (size_t i = 0; i < THREADS; i++) {
        pthread_join(threads[i], NULL);
        unlike += numbers[i];
    }
    printf("%d threads, %zu judged each: %zu unlike those of one\n", THREADS, cases.len, unlike);
    for (size_t i = 0; i < cases.len; i++) {
        zermuita_openssl_result_free(alone[i]);
    }
    free(alone);
    zermuita_openssl_free(checker);
    cases_free(&cases);
    return unlike > 0;
}
