/*
 * Walks by libzermuita-openssl over servers that send one altered message each: the messages are counted as they are wanted, and the one
 * of that number comes altered, up to twice, and then as it is. Prints for each walk its reply and output, and how often a message was
 * fetched again.
 *
 * usage: backend_again NUMBER TIMES HOW       TIMES: how often it comes altered; HOW: `cut` at its end, or `flip` bits all over
 */
#include "backend.h"
#include "text.h"

#include <stdio.h>
#include <stdlib.h>

struct server {
    const struct handed *handed;
    struct buffer list;
    unsigned count; /* the messages that were wanted, without those that were wanted again */
    unsigned again;
    struct buffer altered; /* the name of the question whose message is altered */
    uint16_t rtype;
};

static unsigned number, times;
static bool is_cut;

static void alter(struct zermuita_octets *message) {
    uint8_t *octets = (uint8_t *)(uintptr_t)message->data;
    if (is_cut) {
        message->len -= message->len > 12;
        return;
    }
    for (size_t i = 60; i < message->len; i += 30) {
        octets[i] ^= 1;
    }
}

/* Whether a question is the one whose message is altered. */
static bool is_altered(struct server *server, const struct zermuita_wanted *wanted, unsigned attempt) {
    if (attempt == 0 && server->count++ == number) {
        server->altered.len = 0;
        buffer_append(&server->altered, wanted->name.data, wanted->name.len);
        server->rtype = wanted->rtype;
        return times > 0;
    }
    bool is_it = server->rtype == wanted->rtype && server->altered.len == wanted->name.len
                 && memcmp(server->altered.data, wanted->name.data, wanted->name.len) == 0;
    return is_it && attempt < times;
}

static int fetch(void *context, const struct zermuita_wanted *wanted, unsigned attempt, struct zermuita_octets *message) {
    struct server *server = context;
    struct zermuita_wanted its;
    server->list.len = 0;
    if (!answer_wanted(server->handed, wanted, &server->list)) {
        return 0;
    }
    struct zermuita_octets rest = octets_of(&server->list);
    int is_there = take_message(&rest, &its, message);
    server->again += attempt > 0;
    if (is_there && is_altered(server, wanted, attempt)) {
        alter(message);
    }
    return is_there;
}

static void walk(struct zermuita_openssl *checker, const struct answered *answered) {
    struct handed handed = handed_of(answered);
    struct server server = {.handed = &handed};
    struct buffer out = {0};
    struct zermuita_openssl_result *result = zermuita_openssl_resolve(checker, &handed.walked, fetch, &server);
    append_output(result, answered, &out);
    printf("%d %u ", (int)zermuita_openssl_reply(result), server.again);
    print_hex(out.data, out.len);
    puts("");
    buffer_free(&out);
    buffer_free(&server.list);
    buffer_free(&server.altered);
    zermuita_openssl_result_free(result);
}

int main(int argc, char **argv) {
    struct cases cases = read_cases();
    struct zermuita_openssl *checker = zermuita_openssl_new();
    if (argc != 4) {
        return 2;
    }
    number = (unsigned)strtoul(argv[1], NULL, 10);
    times = (unsigned)strtoul(argv[2], NULL, 10);
    is_cut = strcmp(argv[3], "cut") == 0;
    for (size_t i = 0; i < cases.len; i++) {
        walk(checker, &cases.all[i]);
    }
    zermuita_openssl_free(checker);
    cases_free(&cases);
    return 0;
}
