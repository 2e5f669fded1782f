/* Reads answers and checks denials by libdns of BIND, without signatures, in the steps of its validator. */
#include "asked.h"

#include <isc/buffer.h>
#include <isc/mem.h>
#include <isc/result.h>

#include <dns/fixedname.h>
#include <dns/message.h>
#include <dns/name.h>
#include <dns/nsec.h>
#include <dns/nsec3.h>
#include <dns/rdataset.h>

static isc_mem_t *memory;

/* What is known of a question, from one record of the chain after another. */
struct proof {
    dns_message_t *message;
    dns_name_t *question;
    dns_rdatatype_t rtype;
    dns_name_t *zone, *closest, *nearest, *wild;
    bool is_name_denied, is_wild_denied;
};

typedef void step(struct proof *proof, dns_name_t *owner, dns_rdataset_t *set);

static void keep_silent(void *nothing, int level, const char *format, ...) {
    (void)nothing, (void)level, (void)format;
}

/* Takes a step with each set of a type in the authority section. */
static void each_set(struct proof *proof, dns_rdatatype_t rtype, step *take) {
    dns_message_t *message = proof->message;
    isc_result_t result = dns_message_firstname(message, DNS_SECTION_AUTHORITY);
    for (; result == ISC_R_SUCCESS; result = dns_message_nextname(message, DNS_SECTION_AUTHORITY)) {
        dns_name_t *owner = NULL;
        dns_rdataset_t *set = NULL;
        dns_message_currentname(message, DNS_SECTION_AUTHORITY, &owner);
        if (dns_message_findtype(owner, rtype, 0, &set) == ISC_R_SUCCESS) {
            take(proof, owner, set);
        }
    }
}

/* Whether there is no such name, and which wildcard would stand for it. */
static void deny_name(struct proof *proof, dns_name_t *owner, dns_rdataset_t *set) {
    bool exists = true, data = true;
    if (dns_nsec_noexistnodata(proof->rtype, proof->question, owner, set, &exists, &data, proof->wild, keep_silent, NULL)
            == ISC_R_SUCCESS
        && !exists) {
        proof->is_name_denied = true;
    }
}

static void deny_wild(struct proof *proof, dns_name_t *owner, dns_rdataset_t *set) {
    bool exists = true, data = true;
    if (dns_nsec_noexistnodata(proof->rtype, proof->wild, owner, set, &exists, &data, NULL, keep_silent, NULL)
            == ISC_R_SUCCESS
        && !exists) {
        proof->is_wild_denied = true;
    }
}

/* Finds the zone that the hashed records are of. */
static void find_zone(struct proof *proof, dns_name_t *owner, dns_rdataset_t *set) {
    dns_nsec3_noexistnodata(proof->rtype, proof->question, owner, set, proof->zone, NULL, NULL, NULL, NULL, NULL, NULL, NULL,
                            NULL, keep_silent, NULL);
}

/* Finds the name that encloses the question, and whether the name below it is not there. */
static void deny_hashed_name(struct proof *proof, dns_name_t *owner, dns_rdataset_t *set) {
    bool exists = true, data = true, optout = false, unknown = false, is_closest = false, is_nearest = false;
    if (dns_nsec3_noexistnodata(proof->rtype, proof->question, owner, set, proof->zone, &exists, &data, &optout, &unknown,
                                &is_closest, &is_nearest, proof->closest, proof->nearest, keep_silent, NULL)
            == ISC_R_SUCCESS
        && !exists && is_nearest) {
        proof->is_name_denied = true;
    }
}

static void deny_hashed_wild(struct proof *proof, dns_name_t *owner, dns_rdataset_t *set) {
    bool exists = true, data = true;
    if (dns_nsec3_noexistnodata(proof->rtype, proof->wild, owner, set, proof->zone, &exists, &data, NULL, NULL, NULL, NULL,
                                NULL, NULL, keep_silent, NULL)
            == ISC_R_SUCCESS
        && !exists) {
        proof->is_wild_denied = true;
    }
}

static void deny_by_names(struct proof *proof) {
    each_set(proof, dns_rdatatype_nsec, deny_name);
    if (proof->is_name_denied) {
        each_set(proof, dns_rdatatype_nsec, deny_wild);
    }
}

static void deny_by_hashes(struct proof *proof) {
    each_set(proof, dns_rdatatype_nsec3, find_zone);
    if (dns_name_countlabels(proof->zone) == 0) {
        return;
    }
    each_set(proof, dns_rdatatype_nsec3, deny_hashed_name);
    if (proof->is_name_denied && dns_name_issubdomain(proof->nearest, proof->closest)
        && dns_name_concatenate(dns_wildcardname, proof->closest, proof->wild, NULL) == ISC_R_SUCCESS) {
        each_set(proof, dns_rdatatype_nsec3, deny_hashed_wild);
    }
}

/* Whether records of either chain deny the question; a function of its own, so that its part is told apart. */
__attribute__((noinline)) static bool denies(dns_message_t *message, dns_rdatatype_t rtype) {
    dns_fixedname_t zone, closest, nearest, wild;
    struct proof proof = {
        .message = message,
        .rtype = rtype,
        .zone = dns_fixedname_initname(&zone),
        .closest = dns_fixedname_initname(&closest),
        .nearest = dns_fixedname_initname(&nearest),
        .wild = dns_fixedname_initname(&wild),
    };
    if (dns_message_firstname(message, DNS_SECTION_QUESTION) != ISC_R_SUCCESS) {
        return false;
    }
    dns_message_currentname(message, DNS_SECTION_QUESTION, &proof.question);
    deny_by_names(&proof);
    if (!proof.is_name_denied) {
        deny_by_hashes(&proof);
    }
    return proof.is_name_denied && proof.is_wild_denied;
}

/* The message of some octets; none where they are not a message. */
static dns_message_t *message_of(const struct buffer *octets) {
    isc_buffer_t source;
    dns_message_t *message = NULL;
    isc_buffer_init(&source, octets->data, (unsigned int)octets->len);
    isc_buffer_add(&source, (unsigned int)octets->len);
    dns_message_create(memory, DNS_MESSAGE_INTENTPARSE, &message);
    if (dns_message_parse(message, &source, 0) != ISC_R_SUCCESS) {
        dns_message_detach(&message);
    }
    return message;
}

static bool reads(const struct buffer *octets) {
    dns_message_t *message = message_of(octets);
    if (message == NULL) {
        return false;
    }
    dns_message_detach(&message);
    return true;
}

static bool read_answer(const struct asked *asked) {
    return reads(&asked->answer);
}

static bool read_dnskey(const struct asked *asked) {
    return reads(&asked->dnskey);
}

static bool read_and_check(const struct asked *asked) {
    dns_message_t *message = message_of(&asked->answer);
    if (message == NULL) {
        return false;
    }
    bool is_done = denies(message, asked->rtype);
    dns_message_detach(&message);
    return is_done;
}

int main(void) {
    const struct reader reader = {read_answer, read_dnskey, read_and_check};
    isc_mem_create(&memory);
    count_reader(&reader);
    isc_mem_destroy(&memory);
    return 0;
}
