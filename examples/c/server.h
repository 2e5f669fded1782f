/* Asks name servers by the C library's resolver, with -lresolv: res_init first, and set _res.nscount to 1. */
#ifndef SERVER_H
#define SERVER_H

#include <resolv.h>
#include <stdlib.h>
#include <strings.h>
#include <zermuita_openssl.h>

enum { MESSAGE_ROOM = 65536 };

/* Asks a server, by TCP where the answer was cut off. Where there is no answer it has no bytes. */
static struct zermuita_octets ask(struct in_addr server, const struct zermuita_wanted *wanted, uint8_t *answer) {
    uint8_t query[ZERMUITA_OPENSSL_QUERY_ROOM];
    size_t query_len = zermuita_openssl_query(wanted, (uint16_t)arc4random(), query);
    _res.nsaddr_list[0] = (struct sockaddr_in){.sin_family = AF_INET, .sin_port = htons(53), .sin_addr = server};
    int len = res_send(query, (int)query_len, answer, MESSAGE_ROOM);
    return (struct zermuita_octets){answer, len < 0 ? 0 : (size_t)len};
}

/* The owner of the NS records of a referral, in wire form, and the last address in its additional section. Nothing signs them. */
static int read_referral(struct zermuita_octets answer, uint8_t *zone, size_t *zone_len, struct in_addr *server) {
    ns_msg message;
    ns_rr record;
    struct zermuita_openssl_name owner = {0};
    int found = 0;
    if (ns_initparse(answer.data, (int)answer.len, &message) != 0) {
        return 0;
    }
    for (int i = 0; i < ns_msg_count(message, ns_s_ns) && ns_parserr(&message, ns_s_ns, i, &record) == 0; i++) {
        if (ns_rr_type(record) == ns_t_ns && zermuita_openssl_name_from_text(ns_rr_name(record), &owner) == ZERMUITA_OPENSSL_DONE) {
            *zone_len = owner.len;
            memcpy(zone, owner.octets, owner.len);
        }
    }
    for (int i = 0; i < ns_msg_count(message, ns_s_ar) && ns_parserr(&message, ns_s_ar, i, &record) == 0; i++) {
        if (ns_rr_type(record) == ns_t_a && ns_rr_rdlen(record) == sizeof *server && ns_msg_count(message, ns_s_an) == 0) {
            memcpy(server, ns_rr_rdata(record), sizeof *server);
            found = owner.len > 0;
        }
    }
    return found;
}

#endif
