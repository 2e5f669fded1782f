/* Reads answers and checks denials by ldns, without signatures. */
#include "asked.h"

#include <ldns/ldns.h>

static bool reads(const struct buffer *octets) {
    ldns_pkt *message = NULL;
    bool is_read = ldns_wire2pkt(&message, octets->data, octets->len) == LDNS_STATUS_OK;
    ldns_pkt_free(message);
    return is_read;
}

static bool read_answer(const struct asked *asked) {
    return reads(&asked->answer);
}

static bool read_dnskey(const struct asked *asked) {
    return reads(&asked->dnskey);
}

/* The records of a type in the authority section, none of them copied. */
static ldns_rr_list *authority(const ldns_pkt *message, ldns_rr_type rtype) {
    ldns_rr_list *all = ldns_pkt_authority(message), *found = ldns_rr_list_new();
    for (size_t i = 0; i < ldns_rr_list_rr_count(all); i++) {
        ldns_rr *record = ldns_rr_list_rr(all, i);
        if (ldns_rr_get_type(record) == rtype) {
            ldns_rr_list_push_rr(found, record);
        }
    }
    return found;
}

/* Whether records of either chain deny the question; a function of its own, so that its part is told apart. Signatures are looked
   for by owner and type, and not verified. */
__attribute__((noinline)) static bool denies(const ldns_pkt *message) {
    ldns_rr *question = ldns_rr_list_rr(ldns_pkt_question(message), 0);
    ldns_rr_list *signatures = authority(message, LDNS_RR_TYPE_RRSIG);
    ldns_rr_list *names = authority(message, LDNS_RR_TYPE_NSEC), *hashes = authority(message, LDNS_RR_TYPE_NSEC3);
    ldns_status status = ldns_rr_list_rr_count(names) > 0
        ? ldns_dnssec_verify_denial(question, names, signatures)
        : ldns_dnssec_verify_denial_nsec3(question, hashes, signatures, ldns_pkt_get_rcode(message),
                                          ldns_rr_get_type(question), ldns_pkt_ancount(message) == 0);
    ldns_rr_list_free(signatures);
    ldns_rr_list_free(names);
    ldns_rr_list_free(hashes);
    return status == LDNS_STATUS_OK;
}

static bool read_and_check(const struct asked *asked) {
    ldns_pkt *message = NULL;
    bool is_done = ldns_wire2pkt(&message, asked->answer.data, asked->answer.len) == LDNS_STATUS_OK && denies(message);
    ldns_pkt_free(message);
    return is_done;
}

int main(void) {
    const struct reader reader = {read_answer, read_dnskey, read_and_check};
    count_reader(&reader);
    return 0;
}
