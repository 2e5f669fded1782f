/*
 * A resolver's loop: prints what the tree of zones says about names and types, for how many seconds that may be kept, an extended
 * error, and where aliases lead on the way. Arguments: a server of the root, and a file of trust anchors such as
 * /usr/share/dns/root.ds. To build it: cc resolver.c $(pkg-config --cflags --libs zermuita-openssl) -lresolv
 */
#include "server.h"

#include <arpa/inet.h>
#include <stdio.h>

enum { SERVERS = 64, ATTEMPTS = 3 };

/* A server of a zone, as a referral names it. The first one is the root's. */
struct server {
    uint8_t zone[256];
    size_t len;
    struct in_addr address;
};

struct servers {
    struct server all[SERVERS];
    size_t count;
    uint8_t answer[MESSAGE_ROOM];
};

/* Whether a name is at or below a zone. A zone's name is in lower case, as referrals have it, or in that of the question. */
static int is_below(struct zermuita_octets name, const struct server *server) {
    return name.len >= server->len && memcmp(name.data + name.len - server->len, server->zone, server->len) == 0;
}

/* The server of the lowest zone at or above a name: a server may have the zone below too. */
static const struct server *server_of(const struct servers *servers, struct zermuita_octets zone) {
    const struct server *found = &servers->all[0];
    for (size_t i = 0; i < servers->count; i++) {
        found = is_below(zone, &servers->all[i]) && servers->all[i].len > found->len ? &servers->all[i] : found;
    }
    return found;
}

/* Asks a server of the zone, and notes the one of a zone below that its referral names. */
static int fetch(void *context, const struct zermuita_wanted *wanted, unsigned attempt, struct zermuita_octets *message) {
    struct servers *servers = context;
    const struct server *server = server_of(servers, wanted->zone);
    *message = ask(server->address, wanted, servers->answer);
    struct server *next = &servers->all[servers->count];
    if (servers->count < SERVERS && read_referral(*message, next->zone, &next->len, &next->address)) {
        struct zermuita_octets zone = {next->zone, next->len};
        servers->count += is_below(wanted->name, next) && is_below(zone, server) && server_of(servers, zone)->len < next->len;
    }
    return message->len > 0 && attempt < ATTEMPTS;
}

static void print_result(const struct zermuita_openssl_result *result, const char *name, unsigned rtype) {
    char text[ZERMUITA_OPENSSL_TEXT_ROOM];
    struct zermuita_octets alias;
    const struct zermuita_report *report = zermuita_openssl_report(result);
    printf("%s %u: %s; TTL %u, EDE %u", name, rtype, zermuita_strerror(zermuita_openssl_reply(result)), (unsigned)report->ttl, report->ede);
    for (size_t i = 0; zermuita_openssl_alias(result, i, &alias); i++) {
        zermuita_openssl_name_to_text(alias, text);
        printf("%s %s", i == 0 ? "; through" : "", text);
    }
    puts("");
}

int main(int argc, char **argv) {
    static struct servers servers = {.all = {{.len = 1}}, .count = 1};
    char text[1024];
    unsigned rtype;
    struct zermuita_openssl_name name;
    struct zermuita_openssl *checker = zermuita_openssl_new();
    struct zermuita_openssl_anchors *anchors = zermuita_openssl_anchors_new();
    int is_set = argc == 3 && inet_pton(AF_INET, argv[1], &servers.all[0].address) == 1 && res_init() == 0
                 && zermuita_openssl_anchors_read(anchors, argv[2]) == ZERMUITA_OPENSSL_DONE;
    _res.nscount = 1;
    while (is_set && scanf("%1023s %u", text, &rtype) == 2 && zermuita_openssl_name_from_text(text, &name) == ZERMUITA_OPENSSL_DONE) {
        struct zermuita_evidence handed;
        zermuita_openssl_evidence_init(&handed, sizeof handed);
        handed.name = zermuita_openssl_name_octets(&name);
        handed.rtype = (uint16_t)rtype;
        zermuita_openssl_anchor(anchors, handed.name, handed.rtype, &handed.anchor, &handed.ds);
        struct zermuita_openssl_result *result = zermuita_openssl_resolve(checker, &handed, fetch, &servers);
        print_result(result, text, rtype);
        fflush(stdout);
        zermuita_openssl_result_free(result);
    }
    zermuita_openssl_anchors_free(anchors);
    zermuita_openssl_free(checker);
    return is_set && feof(stdin) ? EXIT_SUCCESS : EXIT_FAILURE;
}
