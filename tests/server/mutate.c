/*
 * Hands mutated queries to the name server of examples/server, in this process: to the function that its sockets hand them to.
 * Replies are looked at here, octet by octet.
 *
 * usage: mutate FOLDER COUNT SEED      FOLDER as a server has it, with a journal and keys; no server runs there
 *
 * A query is one that clients send, for names and types of all kinds, or an earlier one that was answered with records, with one to
 * four changes: bits, octets, letters, insertions, cuts, octets repeated, counts and lengths at their limits. Half come by a
 * datagram, half by a stream. Each must get nothing or a message: with the query's number and operation, the bit of a reply, a known
 * code, and as many records as its header counts, whose names end, and nothing behind them; within what the client takes. Each
 * thousandth is answered once more, by the same octets.
 */
#define main server_main
#include "../../examples/server/server.c"
#undef main
#include <assert.h>

enum { QUERY_ROOM = 4096, POOL = 4096, MOST = 1232 };

struct query {
    uint8_t octets[QUERY_ROOM];
    size_t len;
};

static struct query pool[POOL];
static size_t pool_count;
static uint64_t state;
static uint8_t before[OUT_ROOM];

/* A number below a bound, by xorshift. */
static size_t below(size_t bound) {
    state ^= state << 13;
    state ^= state >> 7;
    state ^= state << 17;
    return (size_t)(state >> 11) % bound;
}

static size_t put16(uint8_t *at, size_t number) {
    at[0] = (uint8_t)(number >> 8);
    at[1] = (uint8_t)number;
    return 2;
}

/* Adds a query for a name in text. */
static void add_query(const char *name, size_t rtype, bool has_edns, bool wants_signatures, size_t size) {
    struct query *query = &pool[pool_count++];
    uint8_t *at = query->octets;
    at += put16(at, 4660);
    at += put16(at, 0x100);
    at += put16(at, 1);
    at += put16(at, 0);
    at += put16(at, 0);
    at += put16(at, has_edns);
    for (const char *label = name; *label != 0;) {
        size_t len = strcspn(label, ".");
        *at++ = (uint8_t)len;
        memcpy(at, label, len);
        at += len;
        label += len + (label[len] == '.');
    }
    *at++ = 0;
    at += put16(at, rtype);
    at += put16(at, 1);
    if (has_edns) {
        *at++ = 0;
        at += put16(at, 41);
        at += put16(at, size);
        at += put16(at, 0);
        at += put16(at, wants_signatures ? 0x8000 : 0);
        at += put16(at, 0);
    }
    query->len = (size_t)(at - query->octets);
}

static void add_queries(void) {
    static const char *const names[] = {
        "example.", "www.example.", "wWw.ExAmple.", "none.example.", "a.www.example.", "wild.example.", "*.wild.example.",
        "a.b.wild.example.", "below.example.", "host.below.example.", "other.", ".", "mail.example.",
        "a.b.c.d.e.f.g.h.i.j.k.l.m.n.o.p.q.r.s.t.u.v.w.x.y.z.example.",
    };
    static const uint16_t rtypes[] = {1, 2, 6, 15, 16, 28, 43, 46, 47, 48, 50, 51, 59, 252, 255, 257, 65280};
    for (size_t i = 0; i < sizeof names / sizeof *names; i++) {
        for (size_t j = 0; j < sizeof rtypes / sizeof *rtypes; j++) {
            add_query(names[i], rtypes[j], true, true, 1232);
        }
        add_query(names[i], 1, false, false, 0);
        add_query(names[i], 48, true, true, 512);
        add_query(names[i], 16, true, false, 4096);
    }
}

/* Moves what stands behind a place. */
static void widen(struct query *query, size_t at, size_t count) {
    count = count < QUERY_ROOM - query->len ? count : QUERY_ROOM - query->len;
    memmove(query->octets + at + count, query->octets + at, query->len - at);
    for (size_t i = 0; i < count; i++) {
        query->octets[at + i] = (uint8_t)below(256);
    }
    query->len += count;
}

static void mutate(struct query *query) {
    static const uint8_t limits[] = {0, 1, 63, 64, 127, 128, 191, 192, 255};
    size_t at = query->len > 0 ? below(query->len) : 0;
    switch (below(12)) {
    case 0:
        query->octets[at] ^= (uint8_t)(1U << below(8));
        return;
    case 1:
        query->octets[at] = (uint8_t)below(256);
        return;
    case 2:
        widen(query, at, 1 + below(12));
        return;
    case 3: {
        size_t count = 1 + below(12);
        count = count < query->len - at ? count : query->len - at;
        memmove(query->octets + at, query->octets + at + count, query->len - at - count);
        query->len -= count;
        return;
    }
    case 4:
        query->len = at;
        return;
    case 5:
        query->octets[at] = limits[below(sizeof limits)];
        return;
    case 6: {
        /* Octets of the query once more behind it. */
        size_t count = query->len < QUERY_ROOM - query->len ? query->len : QUERY_ROOM - query->len;
        count = count > 0 ? below(count + 1) : 0;
        memcpy(query->octets + query->len, query->octets, count);
        query->len += count;
        return;
    }
    case 7:
        /* A count of the header, or the flags. */
        query->octets[2 + below(10)] = limits[below(sizeof limits)];
        return;
    default:
        /* A letter, of a name as a rule. */
        query->octets[query->len > 13 ? 13 + below(query->len - 13) : at] = (uint8_t)"abwxz*AW"[below(8)];
    }
}

/* Where a name ends that begins at a place; 0 where it does not. Pointers lead to what stands in front of them. */
static size_t passed_name(const uint8_t *octets, size_t len, size_t at) {
    size_t end = 0, room = 255;
    for (;;) {
        if (at >= len) {
            return 0;
        }
        uint8_t head = octets[at];
        if (head >= 192) {
            if (at + 1 >= len) {
                return 0;
            }
            size_t target = (size_t)(head & 63) << 8 | octets[at + 1];
            end = end == 0 ? at + 2 : end;
            if (target >= at) {
                return 0;
            }
            at = target;
            continue;
        }
        if (head > 63 || head + 1U > room) {
            return 0;
        }
        room -= head + 1U;
        at += head + 1U;
        if (head == 0) {
            return end == 0 ? at : end;
        }
    }
}

static size_t number16(const uint8_t *at) {
    return (size_t)at[0] << 8 | at[1];
}

/* Whether octets are a message with all records that its header counts, and nothing behind them. */
static bool is_message(const uint8_t *octets, size_t len) {
    size_t at = 12, records = number16(octets + 6) + number16(octets + 8) + number16(octets + 10);
    for (size_t i = 0; i < number16(octets + 4); i++) {
        at = passed_name(octets, len, at);
        if (at == 0 || len - at < 4) {
            return false;
        }
        at += 4;
    }
    for (size_t i = 0; i < records; i++) {
        at = passed_name(octets, len, at);
        if (at == 0 || len - at < 10 || len - at - 10 < number16(octets + at + 8)) {
            return false;
        }
        at += 10 + number16(octets + at + 8);
    }
    return at == len;
}

/* Whether a reply is one that may come; `most` is how many octets it may have. */
static bool is_reply(const struct query *query, const uint8_t *out, size_t len, size_t most) {
    uint8_t rcode = len >= 12 ? out[3] & 15 : 15;
    bool is_known = rcode == 0 || rcode == 1 || rcode == 3 || rcode == 4 || rcode == 5;
    return len >= 12 && len <= most && query->len >= 12 && (query->octets[2] & 0x80) == 0 && memcmp(out, query->octets, 2) == 0
        && (out[2] & 0x80) != 0 && (out[2] & 0x78) == (query->octets[2] & 0x78) && is_known && is_message(out, len);
}

static void show(const char *what, const uint8_t *octets, size_t len) {
    fprintf(stderr, "%s:", what);
    for (size_t i = 0; i < len; i++) {
        fprintf(stderr, "%02x", octets[i]);
    }
    fputc('\n', stderr);
}

/* Answers a query; gives whether what came of it may come. Codes of replies are counted, nothing as 16. */
static bool answers(struct served *served, const struct query *query, bool is_stream, bool twice, size_t counts[17]) {
    uint8_t *exact = malloc(query->len > 0 ? query->len : 1); /* so that the sanitizer sees each octet that is read behind it */
    assert(exact != NULL);
    memcpy(exact, query->octets, query->len);
    begin_answers(served);
    size_t len = respond(served, exact, query->len, is_stream);
    counts[len == 0 ? 16 : served->out[3] & 15]++;
    bool is_right = len == 0 ? query->len < 12 || (query->octets[2] & 0x80) != 0
                             : is_reply(query, served->out, len, is_stream ? 65535 : MOST);
    if (is_right && twice) {
        memcpy(before, served->out, len);
        is_right = answer_query(served, exact, query->len, is_stream) == len && memcmp(before, served->out, len) == 0;
        before[0] ^= len > 0;
        exact[0] ^= len > 0; /* another id: a response that was kept is given with that */
        is_right = is_right && respond(served, exact, query->len, is_stream) == len && memcmp(before, served->out, len) == 0;
    }
    end_turn(served);
    free(exact);
    if (!is_right) {
        show("query", query->octets, query->len);
        show("reply", served->out, len);
    }
    return is_right;
}

int main(int argc, char **argv) {
    char *words[] = {argv[0], "--rate=0", "--step=86400", argc == 4 ? argv[1] : NULL, NULL};
    struct options options;
    struct server *server = calloc(1, sizeof *server);
    size_t counts[17] = {0}, seen = 0;
    if (argc != 4 || server == NULL || !read_options(&options, 4, words)) {
        fputs("usage: mutate FOLDER COUNT SEED\n", stderr);
        return EXIT_FAILURE;
    }
    state = 0x9e3779b97f4a7c15U ^ strtoull(argv[3], NULL, 10);
    open_folder(&server->served, &options);
    add_queries();
    for (unsigned long i = 0, count = strtoul(argv[2], NULL, 10); i < count; i++) {
        struct query query = pool[below(pool_count)];
        for (size_t changes = below(2) == 0 ? 1 : 1 + below(4); changes > 0; changes--) {
            mutate(&query);
        }
        if (!answers(&server->served, &query, i % 2 == 1, i % 1000 == 0, counts)) {
            return EXIT_FAILURE;
        }
        /* Some of those that are answered with records are changed further. */
        size_t records = number16(server->served.out + 6) + number16(server->served.out + 8);
        if (records > 0 && below(100) == 0) {
            pool[pool_count < POOL ? pool_count++ : POOL / 2 + seen++ % (POOL / 2)] = query;
        }
    }
    printf("%s mutated queries:", argv[2]);
    for (size_t i = 0; i < 17; i++) {
        if (counts[i] > 0) {
            printf(i == 16 ? " nothing %zu" : " code %2$zu %1$zu,", counts[i], i);
        }
    }
    printf("; signatures: %" PRIu64 " made, %" PRIu64 " found again; responses given again: %" PRIu64 "\n", server->served.cache.made,
           server->served.cache.found, server->served.responses.found);
    for (size_t i = 0; i < CONNECTIONS; i++) {
        server->polled[FIRST + i].fd = -1;
    }
    close_all(server);
    return EXIT_SUCCESS;
}
