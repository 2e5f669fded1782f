/* Asks servers by TCP (RFC 7766) for a set of the zone's apex. */
#ifndef ASK_H
#define ASK_H

#include "words.h"
#include <netdb.h>
#include <stdio.h>
#include <sys/random.h>
#include <sys/socket.h>
#include <time.h>
#include <unistd.h>
#include <zermuita_zone.h>

enum { SET_ROOM = 16384, ASK_SECONDS = 5, TYPE_SOA = 6, TYPE_DS = 43, TYPE_RRSIG = 46, TYPE_DNSKEY = 48 };

/* A set, each record a line: DNSKEY and DS records by their data; the signatures of the SOA record by algorithm and tag. */
struct set {
    char lines[SET_ROOM];
    size_t len;
    uint32_t ttl;
};

/* A server that is asked. */
struct peer {
    const char *name;
    struct sockaddr_storage at;
    socklen_t at_len;
};

/* A server at HOST:PORT, numbers both. */
static bool read_peer(struct peer *peer, const char *host, const char *port) {
    struct addrinfo wanted = {.ai_flags = AI_NUMERICHOST | AI_NUMERICSERV, .ai_socktype = SOCK_STREAM}, *at = NULL;
    uint64_t number;
    if (!read_number(port, 2, &number) || getaddrinfo(host, port, &wanted, &at) != 0) {
        return false;
    }
    memcpy(&peer->at, at->ai_addr, at->ai_addrlen);
    peer->at_len = at->ai_addrlen;
    freeaddrinfo(at);
    return true;
}

/* The same, in one word. An IPv6 address may stand in brackets. */
static bool read_address(struct peer *peer, const char *word) {
    char host[128];
    const char *colon = strrchr(word, ':');
    bool has_brackets = word[0] == '[' && colon != NULL && colon > word + 1 && colon[-1] == ']';
    size_t len = colon != NULL ? (size_t)(colon - word) : 0;
    peer->name = word;
    snprintf(host, sizeof host, "%.*s", (int)(has_brackets ? len - 2 : len), word + has_brackets);
    return colon != NULL && len < sizeof host && read_peer(peer, host, colon + 1);
}

/* Sends or receives so many octets until a second. */
static bool pass_octets(int fd, uint8_t *octets, size_t len, bool is_sent, time_t until) {
    for (size_t at = 0; at < len;) {
        ssize_t count = is_sent ? send(fd, octets + at, len - at, MSG_NOSIGNAL) : recv(fd, octets + at, len - at, 0);
        if (count <= 0 || time(NULL) > until) {
            return false;
        }
        at += (size_t)count;
    }
    return true;
}

/* Sends a query behind its length, and gives how many octets its response has, or 0. */
static size_t ask(const struct peer *peer, uint8_t *query, size_t len, uint8_t response[65535]) {
    struct timeval seconds = {.tv_sec = ASK_SECONDS};
    time_t until = time(NULL) + 2 * ASK_SECONDS;
    uint8_t head[2];
    int fd = socket(peer->at.ss_family, SOCK_STREAM | SOCK_CLOEXEC, 0);
    bool is_asked = fd >= 0 && setsockopt(fd, SOL_SOCKET, SO_SNDTIMEO, &seconds, sizeof seconds) == 0
        && setsockopt(fd, SOL_SOCKET, SO_RCVTIMEO, &seconds, sizeof seconds) == 0
        && connect(fd, (const struct sockaddr *)&peer->at, peer->at_len) == 0 && pass_octets(fd, query, len, true, until)
        && pass_octets(fd, head, 2, false, until);
    size_t count = is_asked ? zermuita_number(head, 2) : 0;
    count = count >= 12 && pass_octets(fd, response, count, false, until) && memcmp(response, query + 2, 2) == 0 ? count : 0;
    if (fd >= 0) {
        close(fd);
    }
    return count;
}

/* Writes a query for a type at the apex, with DO, behind its length. */
static size_t write_query(const struct name *name, uint16_t rtype, uint8_t query[512]) {
    const uint8_t behind[] = {0, (uint8_t)rtype, 0, 1, 0, 0, 41, 4, 208, 0, 0, 0x80, 0, 0, 0};
    size_t len = 12 + name->len + sizeof behind;
    memset(query, 0, 14);
    query[0] = (uint8_t)(len >> 8);
    query[1] = (uint8_t)len;
    if (getrandom(query + 2, 2, 0) != 2) {
        return 0;
    }
    query[7] = query[13] = 1; /* a question, and the record of EDNS */
    memcpy(query + 14, name->octets, name->len);
    memcpy(query + 14 + name->len, behind, sizeof behind);
    return 2 + len;
}

/* Where a name ends; 0 where it does not. */
static size_t name_end(const uint8_t *octets, size_t len, size_t at) {
    while (at < len && octets[at] != 0 && octets[at] < 64) {
        at += 1 + (size_t)octets[at];
    }
    return at >= len ? 0 : octets[at] == 0 ? at + 1 : at + 2;
}

/* Adds a line of hexadecimal digits. */
static bool add_line(struct set *set, const uint8_t *octets, size_t len) {
    if (2 * len + 2 > sizeof set->lines - set->len) {
        return false;
    }
    for (size_t i = 0; i < len; i++) {
        set->len += (size_t)snprintf(set->lines + set->len, 3, "%02x", octets[i]);
    }
    set->lines[set->len++] = '\n';
    set->lines[set->len] = 0;
    return true;
}

/* Takes a record of a response into a set, if it belongs there. `is_answer` where it is of the answer section. */
static bool take_record(struct set *set, uint16_t rtype, bool is_answer, const uint8_t *fixed, size_t len) {
    size_t found = zermuita_number(fixed, 2);
    uint32_t ttl = (uint32_t)zermuita_number(fixed + 4, 4);
    const uint8_t *data = fixed + 10;
    if (rtype == TYPE_SOA) {
        if (is_answer && found == TYPE_RRSIG && len >= 18 && zermuita_number(data, 2) == TYPE_SOA) {
            const uint8_t signer[] = {data[2], data[16], data[17]};
            return add_line(set, signer, sizeof signer);
        }
    } else if (!is_answer && found == TYPE_SOA && len >= 20) {
        /* What is not there is kept as long as the SOA record's TTL and its minimum allow (RFC 2308, 5). */
        uint32_t minimum = (uint32_t)zermuita_number(data + len - 4, 4);
        set->ttl = ttl < minimum ? ttl : minimum;
    } else if (is_answer && found == rtype) {
        set->ttl = ttl > set->ttl ? ttl : set->ttl;
        return add_line(set, data, len);
    }
    return true;
}

/* Reads the set of a response, which is to be one of authority. */
static bool read_set(const uint8_t *octets, size_t len, uint16_t rtype, struct set *set) {
    *set = (struct set){.len = 0};
    if (len < 12 || (octets[2] & 0x86) != 0x84 || (octets[3] & 15) != 0 || zermuita_number(octets + 4, 2) != 1) {
        return false;
    }
    size_t answers = zermuita_number(octets + 6, 2), records = answers + zermuita_number(octets + 8, 2);
    size_t at = name_end(octets, len, 12);
    at = at == 0 ? 0 : at + 4;
    for (size_t i = 0; i < records && at != 0; i++) {
        at = at <= len ? name_end(octets, len, at) : 0;
        size_t data = at == 0 || at > len || len - at < 10 ? len + 1 : zermuita_number(octets + at + 8, 2);
        if (data > len - 10 || at > len - 10 - data) {
            return false;
        }
        if (!take_record(set, rtype, i < answers, octets + at, data)) {
            return false;
        }
        at += 10 + data;
    }
    return at != 0;
}

/* Asks a server for a set. */
static bool ask_set(const struct peer *peer, const struct name *name, uint16_t rtype, struct set *set) {
    uint8_t query[512], response[65535];
    size_t len = write_query(name, rtype, query);
    size_t count = len > 0 ? ask(peer, query, len, response) : 0;
    return count > 0 && read_set(response, count, rtype, set);
}

/* Whether each line of a set is one of another. */
static bool is_within(const struct set *set, const struct set *other) {
    for (const char *line = set->lines; *line != 0; line = strchr(line, '\n') + 1) {
        size_t len = strcspn(line, "\n") + 1;
        bool is_there = false;
        for (const char *at = other->lines; *at != 0 && !is_there; at = strchr(at, '\n') + 1) {
            is_there = strncmp(at, line, len) == 0;
        }
        if (!is_there) {
            return false;
        }
    }
    return true;
}

static bool is_same(const struct set *one, const struct set *other) {
    return is_within(one, other) && is_within(other, one);
}


#endif
