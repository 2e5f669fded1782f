/*
 * Calls of libzermuita-openssl that cases do not make, in C and in C++: null, sizes of other versions, other functions that check, and
 * what may be left out. Prints nothing if all is as its header says; else the line.
 *
 * usage: backend_calls FOLDER     of examples/c/nsec.test
 */
#include <stdio.h>
#include <stdlib.h>
#include <string.h>
#include <zermuita_openssl.h>

static int faults;

static void check_at(int is_right, int line) {
    if (!is_right) {
        printf("backend_calls.c:%d\n", line);
        faults++;
    }
}

#define CHECK(condition) check_at(!!(condition), __LINE__)

enum { ROOM = 4096, MOMENT = 1790000000 };

static uint8_t room[3][ROOM];
static struct zermuita_openssl_name apex, name;

static struct zermuita_octets octets_of_file(const char *folder, const char *file, uint8_t *octets) {
    char path[512];
    struct zermuita_octets read = {octets, 0};
    snprintf(path, sizeof path, "%s/%s", folder, file);
    FILE *opened = fopen(path, "rb");
    read.len = opened == NULL ? 0 : fread(octets, 1, ROOM, opened);
    if (opened != NULL) {
        fclose(opened);
    }
    return read;
}

/* The answer of the example: nsec.test has A records at a.nsec.test. */
static struct zermuita_case example(const char *folder) {
    struct zermuita_case handed;
    zermuita_openssl_case_init(&handed, sizeof handed);
    CHECK(handed.size == sizeof handed && handed.rclass == 1 && handed.max_nsec3_iterations == 100 && handed.now > MOMENT);
    CHECK(zermuita_openssl_name_from_text("nsec.test", &apex) == ZERMUITA_OPENSSL_DONE);
    CHECK(zermuita_openssl_name_from_text("a.nsec.test.", &name) == ZERMUITA_OPENSSL_DONE);
    handed.apex = zermuita_openssl_name_octets(&apex);
    handed.name = zermuita_openssl_name_octets(&name);
    handed.ds = octets_of_file(folder, "ds", room[0]);
    handed.dnskey = octets_of_file(folder, "dnskey", room[1]);
    handed.answer = octets_of_file(folder, "answer", room[2]);
    handed.rtype = 1;
    handed.now = MOMENT;
    return handed;
}

static enum zermuita_reply reply_of(struct zermuita_openssl *checker, const struct zermuita_case *handed) {
    struct zermuita_openssl_result *result = zermuita_openssl_judge(checker, handed);
    enum zermuita_reply reply = zermuita_openssl_reply(result);
    zermuita_openssl_result_free(result);
    return reply;
}

static void call_without_result(void) {
    struct zermuita_octets octets;
    struct zermuita_wanted refused;
    uint32_t place;
    CHECK(zermuita_openssl_judge(NULL, NULL) == NULL && zermuita_openssl_resolve(NULL, NULL, NULL, NULL) == NULL);
    CHECK(zermuita_openssl_reply(NULL) == ZERMUITA_OUT_OF_MEMORY);
    CHECK(zermuita_openssl_security(NULL) == ZERMUITA_OPENSSL_INDETERMINATE);
    CHECK(zermuita_openssl_report(NULL)->until == 0 && zermuita_openssl_report(NULL)->size >= 16);
    CHECK(!zermuita_openssl_record(NULL, 0, &octets) && !zermuita_openssl_alias(NULL, 0, &octets));
    CHECK(!zermuita_openssl_place(NULL, 0, &place) && !zermuita_openssl_refused(NULL, &refused));
    CHECK(zermuita_openssl_ds(NULL).len == 0 && zermuita_openssl_target(NULL).len == 0 && zermuita_openssl_owner(NULL).len == 0);
    CHECK(zermuita_openssl_cut(NULL).len == 0 && zermuita_openssl_zone(NULL).len == 0);
    CHECK(zermuita_openssl_entries(NULL).len == 0 && zermuita_openssl_messages(NULL).len == 0);
    CHECK(zermuita_openssl_count(NULL, ZERMUITA_OPENSSL_PASSES) == 0);
    zermuita_openssl_result_free(NULL);
    zermuita_openssl_free(NULL);
    zermuita_openssl_anchors_free(NULL);
}

/* The result in full, and once more from the entries that it gives: no signature is checked then. */
static void judge_example(struct zermuita_openssl *checker, struct zermuita_case handed) {
    struct zermuita_octets rdata;
    struct zermuita_openssl_result *first = zermuita_openssl_judge(checker, &handed);
    CHECK(zermuita_openssl_reply(first) == ZERMUITA_RECORDS && zermuita_openssl_security(first) == ZERMUITA_OPENSSL_SECURE);
    CHECK(zermuita_openssl_report(first)->ttl == 3600 && zermuita_openssl_count(first, ZERMUITA_OPENSSL_PASSES) == 2);
    CHECK(zermuita_openssl_record(first, 0, &rdata) && rdata.len == 4 && memcmp(rdata.data, "\xc0\0\2\x09", 4) == 0);
    CHECK(zermuita_openssl_record(first, 1, &rdata) && rdata.len == 4 && memcmp(rdata.data, "\xc0\0\2\x0a", 4) == 0);
    CHECK(!zermuita_openssl_record(first, 2, &rdata) && zermuita_openssl_target(first).len == 0 && zermuita_openssl_ds(first).len == 0);
    handed.checked = zermuita_openssl_entries(first);
    struct zermuita_openssl_result *second = zermuita_openssl_judge(checker, &handed);
    CHECK(zermuita_openssl_reply(second) == ZERMUITA_RECORDS && zermuita_openssl_count(second, ZERMUITA_OPENSSL_PASSES) == 0);
    CHECK(zermuita_openssl_entries(second).len == handed.checked.len);
    zermuita_openssl_result_free(second);
    zermuita_openssl_result_free(first);
}

/* Sizes of other versions, octets that are null and have a length. */
static void judge_other_sizes(struct zermuita_openssl *checker, struct zermuita_case handed) {
    struct {
        struct zermuita_case handed;
        uint8_t more[ZERMUITA_CASE_ROOM];
    } larger = {handed, {0}};
    const size_t sizes[] = {0, 4, 8, sizeof handed - 8, sizeof handed + 8, ZERMUITA_CASE_ROOM, ZERMUITA_CASE_ROOM + 8, (size_t)-1};
    for (size_t i = 0; i < sizeof sizes / sizeof *sizes; i++) {
        larger.handed.size = sizes[i];
        CHECK(reply_of(checker, &larger.handed) == ZERMUITA_BAD_CASE);
    }
    struct zermuita_octets *const octets[] = {&handed.apex, &handed.ds, &handed.dnskey, &handed.answer, &handed.name, &handed.checked,
                                              &handed.algorithms};
    for (size_t i = 0; i < sizeof octets / sizeof *octets; i++) {
        struct zermuita_octets before = *octets[i];
        octets[i]->data = NULL;
        octets[i]->len = 1;
        CHECK(reply_of(checker, &handed) == ZERMUITA_BAD_CASE);
        *octets[i] = before;
    }
    struct zermuita_case small;
    memset(&small, 0xFF, sizeof small);
    zermuita_openssl_case_init(&small, 16);
    CHECK(small.size == 16 && small.apex.data == NULL && small.apex.len == (size_t)-1);
}

/* What another function is told, and what it says. */
struct other {
    enum zermuita_openssl_checked says;
    unsigned calls;
};

static enum zermuita_openssl_checked say(void *context, const struct zermuita_ask *ask) {
    struct other *other = (struct other *)context;
    other->calls++;
    CHECK(ask->algorithm == 13 && ask->key.len == 64 && ask->signature.len == 64);
    return other->says;
}

static void check_otherwise(struct zermuita_openssl *checker, const struct zermuita_case *handed) {
    static const struct {
        int says;
        enum zermuita_reply reply;
    } rows[] = {{0, ZERMUITA_NO_TRUSTED_KEY}, {1, ZERMUITA_RECORDS},        {2, ZERMUITA_NO_TRUSTED_KEY}, {3, ZERMUITA_NO_TRUSTED_KEY},
                {4, ZERMUITA_NO_TRUSTED_KEY}, {5, ZERMUITA_NO_TRUSTED_KEY}, {6, ZERMUITA_OUT_OF_MEMORY},  {7, ZERMUITA_ASK},
                {8, ZERMUITA_ASK},            {-1, ZERMUITA_ASK},           {257, ZERMUITA_ASK}};
    static const uint8_t own[] = {13};
    const struct zermuita_octets algorithms = {own, 1}, none = {own, 0}, many = {room[0], 17};
    for (size_t i = 0; i < sizeof rows / sizeof *rows; i++) {
        struct other other = {(enum zermuita_openssl_checked)rows[i].says, 0};
        CHECK(zermuita_openssl_set_check(checker, say, &other, algorithms) == 1);
        CHECK(zermuita_openssl_algorithms(checker).len == 1 && zermuita_openssl_algorithms(checker).data[0] == 13);
        CHECK(reply_of(checker, handed) == rows[i].reply && other.calls > 0);
        CHECK(zermuita_openssl_set_check(checker, say, &other, none) == 0 && zermuita_openssl_set_check(checker, say, &other, many) == 0);
    }
    CHECK(zermuita_openssl_set_check(checker, NULL, NULL, none) == 1 && reply_of(checker, handed) == ZERMUITA_RECORDS);
}

/* A function over the default one; and algorithms that the zone's is not one of, which make it insecure. */
static void check_by_default(struct zermuita_openssl *checker, struct zermuita_case handed) {
    static const uint8_t rsa[] = {8}, six[] = {8, 10, 13, 14, 15, 16};
    struct zermuita_octets algorithms = zermuita_openssl_algorithms(checker);
    CHECK(algorithms.len == sizeof six && memcmp(algorithms.data, six, sizeof six) == 0);
    CHECK(zermuita_openssl_set_check(checker, zermuita_openssl_check, checker, zermuita_openssl_algorithms(checker)) == 1);
    CHECK(reply_of(checker, &handed) == ZERMUITA_RECORDS);
    handed.algorithms.data = rsa;
    handed.algorithms.len = 1;
    struct zermuita_openssl_result *result = zermuita_openssl_judge(checker, &handed);
    CHECK(zermuita_openssl_reply(result) == ZERMUITA_INSECURE && zermuita_openssl_report(result)->ede == 1);
    CHECK(zermuita_openssl_security(result) == ZERMUITA_OPENSSL_INSECURE);
    zermuita_openssl_result_free(result);
}

/* Checkers over a context whose providers lack algorithms, and without keys. */
static void check_elsewhere(const struct zermuita_case *handed) {
    struct zermuita_openssl *none = zermuita_openssl_new_in(NULL, "provider=none", 1), *bare = zermuita_openssl_new_in(NULL, NULL, 0);
    CHECK(none != NULL && zermuita_openssl_algorithms(none).len == 0);
    CHECK(bare != NULL && reply_of(bare, handed) == ZERMUITA_RECORDS);
    zermuita_openssl_free(none);
    zermuita_openssl_free(bare);
}

static int fetch_nothing(void *context, const struct zermuita_wanted *wanted, unsigned attempt, struct zermuita_octets *message) {
    unsigned *calls = (unsigned *)context;
    CHECK(attempt == 0 && (wanted->rtype == 48 || wanted->rtype == 6) && wanted->zone.len == 11 && message->len == 0);
    ++*calls;
    return 0;
}

/* A walk whose servers are silent, and evidence that cannot be read. */
static void walk_in_vain(struct zermuita_openssl *checker, const struct zermuita_case *handed) {
    struct zermuita_evidence evidence;
    struct zermuita_wanted refused;
    unsigned calls = 0;
    zermuita_openssl_evidence_init(&evidence, sizeof evidence);
    CHECK(evidence.size == sizeof evidence && evidence.max_nsec3_iterations == 100 && evidence.now > MOMENT);
    evidence.anchor = handed->apex;
    evidence.ds = handed->ds;
    evidence.name = handed->apex;
    evidence.rtype = 6;
    struct zermuita_openssl_result *result = zermuita_openssl_resolve(checker, &evidence, fetch_nothing, &calls);
    CHECK(zermuita_openssl_reply(result) == ZERMUITA_WANT && zermuita_openssl_security(result) == ZERMUITA_OPENSSL_INDETERMINATE);
    CHECK(zermuita_openssl_refused(result, &refused) && refused.rtype == 48 && calls > 0);
    zermuita_openssl_result_free(result);
    evidence.messages.data = NULL;
    evidence.messages.len = 1;
    result = zermuita_openssl_resolve(checker, &evidence, fetch_nothing, &calls);
    CHECK(zermuita_openssl_reply(result) == ZERMUITA_BAD_CASE);
    zermuita_openssl_result_free(result);
    evidence.size = ZERMUITA_CASE_ROOM + 1;
    result = zermuita_openssl_resolve(checker, &evidence, fetch_nothing, &calls);
    CHECK(zermuita_openssl_reply(result) == ZERMUITA_BAD_CASE);
    zermuita_openssl_result_free(result);
}

int main(int argc, char **argv) {
    struct zermuita_case handed = example(argc > 1 ? argv[1] : ".");
    struct zermuita_openssl *checker = zermuita_openssl_new();
    call_without_result();
    judge_example(checker, handed);
    judge_other_sizes(checker, handed);
    check_otherwise(checker, &handed);
    check_by_default(checker, handed);
    check_elsewhere(&handed);
    walk_in_vain(checker, &handed);
    zermuita_openssl_free(checker);
    return faults > 0;
}
