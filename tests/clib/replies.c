/*
 * Brings the replies that no answer of a server brings by itself, of the first answer that has records, and prints the number of each:
 * what the library needs, what of a case cannot be read, memory that runs out, and a message that is too long in canonical form.
 */
#include "cases.h"
#include "heap.h"

#include <stdio.h>
#include <stdlib.h>

static int wrong;

/* Prints a reply, which must be the one that is wanted. */
static void print_reply(struct zermuita_case handed, size_t room, enum zermuita_reply wanted) {
    static uint8_t out[65536];
    struct zermuita_report report = {.size = sizeof report};
    enum zermuita_reply reply = zermuita_judge(&handed, out, room, &report);
    wrong |= reply != wanted;
    printf("%d\n", (int)reply);
}

/* Octets that are no name, no set, no entry; a size that is none. */
static void print_unread(struct zermuita_case good) {
    static const uint8_t unread[] = {3, 'a'};
    struct zermuita_case handed = good;
    const struct {
        struct zermuita_octets *part;
        enum zermuita_reply reply;
    } parts[] = {
        {&handed.apex, ZERMUITA_BAD_APEX},
        {&handed.ds, ZERMUITA_BAD_DS_SET},
        {&handed.name, ZERMUITA_BAD_NAME},
        {&handed.checked, ZERMUITA_BAD_SIGNATURES},
    };
    for (size_t i = 0; i < sizeof parts / sizeof *parts; i++) {
        *parts[i].part = (struct zermuita_octets){unread, sizeof unread};
        print_reply(handed, 0, parts[i].reply);
        handed = good;
    }
    handed.size = 128;
    print_reply(handed, 0, ZERMUITA_BAD_CASE);
}

static void put(struct buffer *octets, uint32_t number, int width) {
    for (int i = width - 1; i >= 0; i--) {
        uint8_t octet = (uint8_t)(number >> 8 * i);
        buffer_append(octets, &octet, 1);
    }
}

/* A message of MX records, whose names have 255 octets each once they are written out, and 2 as they came. */
static void print_too_long(struct zermuita_case handed) {
    static const uint8_t header[] = {0, 0, 0x84, 0, 0, 1, 1, 0x2c, 0, 0, 0, 0};
    struct buffer message = {0};
    buffer_append(&message, header, sizeof header);
    for (int label = 0; label < 127; label++) {
        put(&message, 0x0161, 2);
    }
    put(&message, 0, 1);
    put(&message, 15u << 16 | 1, 4);
    for (uint32_t number = 0; number < 300; number++) {
        put(&message, 0xc00c, 2);
        put(&message, 15u << 16 | 1, 4);
        put(&message, 3600, 4);
        put(&message, 4, 2);
        put(&message, number << 16 | 0xc00c, 4);
    }
    handed.answer = octets_of(&message);
    print_reply(handed, 0, ZERMUITA_MESSAGE_TOO_LONG);
    buffer_free(&message);
}

int main(void) {
    struct cases cases = read_cases();
    const struct answered *it = cases.all;
    while (it < cases.all + cases.len && (it->may_be_len == 0 || it->may_be[0].reply != ZERMUITA_RECORDS || it->ds.len == 0)) {
        it++;
    }
    if (it == cases.all + cases.len) {
        fputs("no answer with records\n", stderr);
        return 2;
    }
    struct zermuita_case handed = handed_of(it).judged;
    print_reply(handed, 65536, ZERMUITA_ASK);
    print_reply(handed, 1, ZERMUITA_BUFFER_TOO_SMALL);
    heap_begin(1);
    print_reply(handed, 65536, ZERMUITA_OUT_OF_MEMORY);
    heap_end();
    handed.max_signatures = 1;
    print_reply(handed, 65536, ZERMUITA_TOO_MANY_SIGNATURES);
    handed.max_signatures = 0;
    print_unread(handed);
    print_too_long(handed);
    cases_free(&cases);
    return wrong;
}
