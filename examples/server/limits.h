/*
 * How often one network is answered by datagrams: a request whose source is forged floods nobody then. A network is the first 24 bits
 * of an IPv4 address, or the first 56 of an IPv6 address. Of the requests above the rate each second one gets a reply without records
 * that says to ask by TCP, and the others get none.
 */
#ifndef LIMITS_H
#define LIMITS_H

#include <netinet/in.h>
#include <stdbool.h>
#include <stdint.h>
#include <stdlib.h>
#include <string.h>
#include <sys/random.h>
#include <time.h>

enum { NETWORKS = 65536 };
enum turn { ANSWER, SAY_TCP, DROP };

struct network {
    uint64_t name;
    time_t second;
    uint32_t count;
};

struct limits {
    uint32_t rate; /* responses to a network in a second; 0: any number */
    uint64_t salt;
    struct network *networks;
    uint64_t said_tcp, dropped;
};

static bool begin_limits(struct limits *limits, uint32_t rate) {
    limits->rate = rate;
    limits->networks = calloc(NETWORKS, sizeof *limits->networks);
    return limits->networks != NULL && getrandom(&limits->salt, sizeof limits->salt, 0) == (ssize_t)sizeof limits->salt;
}

/* The number of an address's network. An IPv4 address may stand in an IPv6 one (RFC 4291, 2.5.5.2). */
static uint64_t network_of(const struct sockaddr_storage *from) {
    uint8_t octets[8] = {0};
    size_t len = 3;
    if (from->ss_family == AF_INET6) {
        struct sockaddr_in6 at;
        memcpy(&at, from, sizeof at);
        bool is_mapped = IN6_IS_ADDR_V4MAPPED(&at.sin6_addr);
        memcpy(octets, at.sin6_addr.s6_addr + (is_mapped ? 12 : 0), is_mapped ? 4 : 8);
        len = is_mapped ? 3 : 7;
    } else {
        struct sockaddr_in at;
        memcpy(&at, from, sizeof at);
        memcpy(octets, &at.sin_addr, 4);
    }
    uint64_t name = len;
    for (size_t i = 0; i < len; i++) {
        name = name << 8 | octets[i];
    }
    return name;
}

/* What a request by a datagram gets at a second. Networks that share a place forget each other's counts. */
static enum turn turn_of(struct limits *limits, const struct sockaddr_storage *from, time_t now) {
    uint64_t name = network_of(from), mixed = (name ^ limits->salt) * 0x9e3779b97f4a7c15U;
    struct network *network = &limits->networks[(mixed ^ mixed >> 32) % NETWORKS];
    if (network->name != name || network->second != now) {
        *network = (struct network){.name = name, .second = now};
    }
    network->count++;
    if (limits->rate == 0 || network->count <= limits->rate) {
        return ANSWER;
    }
    bool is_told = network->count % 2 == 1;
    limits->said_tcp += is_told;
    limits->dropped += !is_told;
    return is_told ? SAY_TCP : DROP;
}

#endif
