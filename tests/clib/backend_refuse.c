/*
 * Refuses each request of memory in turn, of the backend, of the library and of OpenSSL: of a judgement with a checker that has no key,
 * and with one that has them. Then the reply is that memory ran out, and nothing else is said; or it is what it is with memory. All
 * memory of the backend and the library was given back. OpenSSL keeps what it has loaded, so that its memory is not counted.
 *
 * usage: backend_refuse [MOST]      of a judgement with more requests so many, evenly spread
 */
#include "backend.h"
#include "heap.h"

#include <openssl/crypto.h>
#include <stdio.h>
#include <stdlib.h>

static unsigned long refused, same, without_checker, wrong;
static size_t most = SIZE_MAX;

/* OpenSSL's requests are counted with the others. */
static void *take(size_t size, const char *file, int line) {
    (void)file;
    (void)line;
    return malloc(size);
}

static void *take_again(void *block, size_t size, const char *file, int line) {
    (void)file;
    (void)line;
    return realloc(block, size);
}

static void give(void *block, const char *file, int line) {
    (void)file;
    (void)line;
    free(block);
}

static bool says_no_memory(const struct zermuita_openssl_result *result) {
    const struct zermuita_report *report = zermuita_openssl_report(result);
    struct zermuita_octets rdata;
    return zermuita_openssl_reply(result) == ZERMUITA_OUT_OF_MEMORY && report->ttl == 0 && report->until == 0 && report->ede == 0
           && report->delegates == 0 && !zermuita_openssl_record(result, 0, &rdata)
           && zermuita_openssl_security(result) == ZERMUITA_OPENSSL_INDETERMINATE;
}

static size_t step_of(size_t requests) {
    return requests < most ? 1 : requests / most;
}

/* A checker that checks as many algorithms as another one has, or none: one that it lacks would make a zone insecure. */
static void expect_whole(const struct zermuita_openssl *made, const struct zermuita_openssl *whole) {
    without_checker += made == NULL;
    if (made != NULL && zermuita_openssl_algorithms(made).len != zermuita_openssl_algorithms(whole).len) {
        printf("a checker of %zu algorithms\n", zermuita_openssl_algorithms(made).len);
        wrong++;
    }
}

/* What a checker says with a request refused, or that there is none. */
static void expect_said(struct zermuita_openssl *checker, const struct answered *it, const struct zermuita_openssl_result *with,
                        size_t request) {
    heap_begin(request);
    struct zermuita_openssl_result *result = said_of(checker, it);
    heap_end();
    bool is = are_same_results(with, result, it);
    same += is;
    refused++;
    if (!is && !says_no_memory(result)) {
        printf("request %zu: %s, and with memory %s\n", request, zermuita_strerror(zermuita_openssl_reply(result)),
               zermuita_strerror(zermuita_openssl_reply(with)));
        wrong++;
    }
    zermuita_openssl_result_free(result);
}

/* How many requests a judgement makes by a new checker, and by one that has its keys. */
static size_t requests_of(struct zermuita_openssl *checker, const struct answered *it) {
    heap_begin(0);
    struct zermuita_openssl_result *result = said_of(checker, it);
    size_t requests = heap_end().requests;
    zermuita_openssl_result_free(result);
    return requests;
}

static void refuse_judgements(const struct answered *it) {
    struct zermuita_openssl *checker = zermuita_openssl_new(), *none = zermuita_openssl_new_in(NULL, NULL, 0);
    struct zermuita_openssl_result *with = said_of(checker, it);
    size_t cold = requests_of(none, it), warm = requests_of(checker, it);
    for (size_t request = 1; request <= cold; request += step_of(cold)) {
        expect_said(none, it, with, request);
    }
    for (size_t request = 1; request <= warm; request += step_of(warm)) {
        expect_said(checker, it, with, request);
    }
    zermuita_openssl_result_free(with);
    zermuita_openssl_free(checker);
    zermuita_openssl_free(none);
}

static void refuse_checkers(void) {
    struct zermuita_openssl *whole = zermuita_openssl_new();
    heap_begin(0);
    struct zermuita_openssl *made = zermuita_openssl_new_in(NULL, "?fips=yes", 64);
    size_t requests = heap_end().requests;
    zermuita_openssl_free(made);
    for (size_t request = 1; request <= requests; request++) {
        heap_begin(request);
        made = zermuita_openssl_new_in(NULL, "?fips=yes", 64);
        heap_end();
        expect_whole(made, whole);
        zermuita_openssl_free(made);
    }
    zermuita_openssl_free(whole);
}

int main(int argc, char **argv) {
    if (CRYPTO_set_mem_functions(take, take_again, give) != 1) {
        fputs("OpenSSL has taken memory already\n", stderr);
        return 2;
    }
    struct cases cases = read_cases();
    most = argc > 1 ? strtoull(argv[1], NULL, 10) : most;
    refuse_checkers();
    for (size_t i = 0; i < cases.len; i++) {
        refuse_judgements(&cases.all[i]);
    }
    printf("%zu judged: %lu requests refused, %lu said as with memory; %lu checkers not made, %lu wrong\n", cases.len, refused, same,
           without_checker, wrong);
    cases_free(&cases);
    return wrong > 0;
}
