/*
 * What memory a call takes at most, by the size of the messages: of answers and DNSKEY answers made as large as a size allows, in the
 * shapes that take most. Every signature that is asked for counts as passing, so that all of a message is read and judged.
 *
 * Prints a row for each shape: for each size the most octets that a call had in use, and at the end the reply. The status is 1 where
 * a call took more than so many octets for each that it was handed, and so many besides.
 */
#include "heap.h"
#include "judgement.h"

#include <openssl/sha.h>
#include <stdio.h>
#include <stdlib.h>

enum { ROOM_EACH = 64, ROOM_ANEW = 128, ROOM_BESIDES = 16384, NOW = 1790000000 };
/* Of more than 64 in a long message none is judged. */
enum { MOST_SIGNED = 60 };
enum { A = 1, MX = 15, TXT = 16, RRSIG = 46, NSEC = 47, DNSKEY = 48 };

static const size_t sizes[] = {512, 1232, 4096, 16384, 65535};

/* A name of 255 octets, and the last label of it with its end, which is 3 octets. */
static uint8_t long_name[255];
static const struct zermuita_octets whole = {long_name, 255}, last = {long_name + 252, 3};

static void make_names(void) {
    static const uint8_t lengths[] = {63, 63, 63, 59, 1};
    uint8_t *at = long_name;
    for (size_t i = 0; i < sizeof lengths; i++) {
        *at = lengths[i];
        memset(at + 1, 'n', lengths[i]);
        at += 1 + lengths[i];
    }
    *at = 0;
}

static void put(struct buffer *octets, uint64_t number, int width) {
    for (int i = width - 1; i >= 0; i--) {
        uint8_t octet = (uint8_t)(number >> 8 * i);
        buffer_append(octets, &octet, 1);
    }
}

static void put_octets(struct buffer *octets, struct zermuita_octets part) {
    buffer_append(octets, part.data, part.len);
}

/* A header and a question; the name stands at place 12. */
static void begin(struct buffer *message, struct zermuita_octets name, uint16_t rtype) {
    static const uint8_t header[] = {0, 0, 0x84, 0, 0, 1, 0, 0, 0, 0, 0, 0};
    message->len = 0;
    buffer_append(message, header, sizeof header);
    put_octets(message, name);
    put(message, rtype, 2);
    put(message, 1, 2);
}

/* Counts one record more in the answer section (0) or the authority section (1). */
static void count(struct buffer *message, int section) {
    uint8_t *at = message->data + 6 + 2 * section;
    size_t number = zermuita_number(at, 2) + 1;
    at[0] = (uint8_t)(number >> 8);
    at[1] = (uint8_t)number;
}

/* The head of a record whose owner is the name at place 12 with so many octets in front of it. */
static void head(struct buffer *message, struct zermuita_octets front, uint16_t rtype, size_t len) {
    put_octets(message, front);
    put(message, 0xc00c, 2);
    put(message, rtype, 2);
    put(message, 1, 2);
    put(message, 3600, 4);
    put(message, len, 2);
}

static const struct zermuita_octets nothing = {long_name, 0};

/* A signature of one octet by a key of the apex. */
static void sign(struct buffer *message, struct zermuita_octets front, uint16_t rtype, int labels, struct zermuita_octets apex,
                 uint16_t tag) {
    head(message, front, RRSIG, 18 + apex.len + 1);
    put(message, rtype, 2);
    put(message, 13, 1);
    put(message, (uint64_t)labels, 1);
    put(message, 3600, 4);
    put(message, NOW + 1000, 4);
    put(message, NOW - 1000, 4);
    put(message, tag, 2);
    put_octets(message, apex);
    put(message, 1, 1);
}

static uint16_t tag_of(const uint8_t *rdata, size_t len) {
    uint32_t sum = 0;
    for (size_t i = 0; i < len; i++) {
        sum += i % 2 == 0 ? (uint32_t)rdata[i] << 8 : rdata[i];
    }
    return (uint16_t)(sum + (sum >> 16));
}

/* The data of the zone's key that signs, which has the tag of a DS record: flags 257, protocol 3, algorithm 13 and one octet. */
static const uint8_t signer[] = {1, 1, 3, 13, 7};

/* A DNSKEY answer of at most so many octets, with keys that are alike in nothing, and a DS set of its first. */
static void make_keys(struct buffer *keys, struct buffer *ds, struct zermuita_octets apex, int labels, size_t size) {
    struct buffer hashed = {0};
    uint8_t digest[SHA256_DIGEST_LENGTH];
    put_octets(&hashed, apex);
    buffer_append(&hashed, signer, sizeof signer);
    SHA256(hashed.data, hashed.len, digest);
    ds->len = 0;
    put(ds, 4 + sizeof digest, 2);
    put(ds, tag_of(signer, sizeof signer), 2);
    put(ds, 13, 1);
    put(ds, 2, 1);
    buffer_append(ds, digest, sizeof digest);
    buffer_free(&hashed);

    begin(keys, apex, DNSKEY);
    head(keys, nothing, DNSKEY, sizeof signer);
    buffer_append(keys, signer, sizeof signer);
    count(keys, 0);
    for (size_t key = 0; keys->len + 12 + 6 + 12 + 19 + apex.len <= size; key++) {
        head(keys, nothing, DNSKEY, 6);
        put(keys, 0x0100030d, 4);
        put(keys, 0x1000 + key, 2);
        count(keys, 0);
    }
    sign(keys, nothing, DNSKEY, labels, apex, tag_of(signer, sizeof signer));
    count(keys, 0);
}

/* One RRset of addresses, as many as there is room for, at the long name. */
static void make_records(struct buffer *answer, size_t size) {
    begin(answer, whole, A);
    for (size_t number = 0; answer->len + 16 + 34 <= size; number++) {
        head(answer, nothing, A, 4);
        put(answer, number, 4);
        count(answer, 0);
    }
    sign(answer, nothing, A, 5, last, tag_of(signer, sizeof signer));
    count(answer, 0);
}

/* One RRset of mail exchanges, each the long name by a pointer, as many as there is room for in canonical form too. */
static void make_exchanges(struct buffer *answer, size_t size) {
    begin(answer, whole, MX);
    for (size_t number = 0; number < 120 && answer->len + 16 + 34 <= size; number++) {
        head(answer, nothing, MX, 4);
        put(answer, number, 2);
        put(answer, 0xc00c, 2);
        count(answer, 0);
    }
    sign(answer, nothing, MX, 5, last, tag_of(signer, sizeof signer));
    count(answer, 0);
}

/* One record with all octets that there is room for. */
static void make_text(struct buffer *answer, size_t size) {
    begin(answer, whole, TXT);
    size_t len = size - answer->len - 12 - 34;
    head(answer, nothing, TXT, len);
    for (size_t i = 0; i < len; i++) {
        put(answer, i % 256 == 0 ? (len - i > 255 ? 255 : len - i - 1) : 't', 1);
    }
    count(answer, 0);
    sign(answer, nothing, TXT, 5, last, tag_of(signer, sizeof signer));
    count(answer, 0);
}

/* As many NSEC records as there is room for, the first 60 signed, at names with one label more than a name of 251 octets. */
static void make_chain(struct buffer *answer, size_t size) {
    struct zermuita_octets asked = {long_name + 4, 251};
    long_name[4] = 59;
    begin(answer, asked, A);
    for (unsigned number = 0; answer->len + 16 + 7 + 16 + 25 <= size; number++) {
        uint8_t label[] = {3, (uint8_t)('a' + number / 676 % 26), (uint8_t)('a' + number / 26 % 26), (uint8_t)('a' + number % 26)};
        struct zermuita_octets front = {label, 4};
        head(answer, front, NSEC, 6);
        put_octets(answer, last);
        put(answer, 0x000140, 3);
        count(answer, 1);
        if (number < MOST_SIGNED) {
            sign(answer, front, NSEC, 6, last, tag_of(signer, sizeof signer));
            count(answer, 1);
        }
    }
    long_name[4] = 'n';
}

static bool passes(const struct zermuita_ask *ask) {
    return ask->dnskey.len > 0;
}

static int wrong;

static size_t most;

/* A call, measured. */
static void call_measured(const struct handed *handed, struct judgement *judgement) {
    const struct zermuita_case *its = &handed->judged;
    size_t each = its->as_received ? ROOM_EACH : ROOM_ANEW;
    heap_begin(0);
    call(handed, judgement);
    struct heap heap = heap_end();
    most = most < heap.most ? heap.most : most;
    wrong |= heap.most > each * (its->dnskey.len + its->answer.len + its->checked.len) + ROOM_BESIDES;
}

/* A row: DNSKEY answers of these sizes, or answers. */
static void print_row(const char *shape, void (*make)(struct buffer *, size_t), uint16_t rtype, uint32_t as_received) {
    struct buffer keys = {0}, ds = {0}, answer = {0};
    static const struct caller measuring = {call_measured, passes, NULL};
    struct judgement judgement = {0};
    printf("%s:", shape);
    for (size_t i = 0; i < sizeof sizes / sizeof *sizes; i++) {
        bool is_keys = make == NULL;
        make_keys(&keys, &ds, is_keys ? whole : last, is_keys ? 5 : 1, is_keys ? sizes[i] < 700 ? 700 : sizes[i] : 0);
        if (is_keys) {
            begin(&answer, whole, A);
        } else {
            make(&answer, sizes[i]);
        }
        struct zermuita_octets name = {answer.data + 12, 255};
        name.len = make == make_chain ? 251 : 255;
        struct handed handed = {.is_walk = false};
        handed.judged = (struct zermuita_case){
            .size = sizeof handed.judged, .apex = is_keys ? whole : last, .ds = octets_of(&ds), .dnskey = octets_of(&keys),
            .answer = octets_of(&answer), .name = name, .now = NOW, .rtype = rtype, .rclass = 1, .max_nsec3_iterations = 100,
            .as_received = as_received, .max_signatures = UINT32_MAX,
        };
        most = 0;
        judge(handed, &measuring, &judgement);
        printf(" %zu", most);
        fflush(stdout);
    }
    printf("; %.*s\n", (int)strcspn(zermuita_strerror(judgement.reply), ":"), zermuita_strerror(judgement.reply));
    judgement_free(&judgement);
    buffer_free(&keys);
    buffer_free(&ds);
    buffer_free(&answer);
}

int main(void) {
    make_names();
    printf("octets in use, messages of:");
    for (size_t i = 0; i < sizeof sizes / sizeof *sizes; i++) {
        printf(" %zu", sizes[i]);
    }
    puts("");
    for (uint32_t as_received = 0; as_received < 2; as_received++) {
        puts(as_received ? "judged as received" : "judged in canonical form");
        print_row("one record", make_text, TXT, as_received);
        print_row("records of one name", make_records, A, as_received);
        print_row("NSEC records", make_chain, A, as_received);
        print_row("mail exchanges", make_exchanges, MX, as_received);
        print_row("keys", NULL, A, as_received);
    }
    return wrong;
}
