/*
 * Judges cases by the calls of libldns, a line for a case: apex, DS set, DNSKEY message, answer, name (hexadecimal; DS data joined by
 * commas), type and moment. Prints a line each: secure, bogus or not-asked, what it is, and the library's words.
 *
 * The library verifies RRsets (ldns_verify_time), makes digests of keys (ldns_key_rr2ds) and checks denials
 * (ldns_dnssec_verify_denial, ldns_dnssec_verify_denial_nsec3). It has no call for referrals, nor for what has to be shown beside a
 * wildcard's records: these are not asked.
 */
#include <ldns/ldns.h>
#include <stdio.h>
#include <stdlib.h>
#include <string.h>
#include <sys/wait.h>
#include <unistd.h>

enum { LINE = 1 << 20 };

struct octets {
    uint8_t *data;
    size_t len;
};

static struct octets from_hex(const char *text) {
    struct octets found = {malloc(strlen(text) / 2 + 1), strlen(text) / 2};
    for (size_t at = 0; at < found.len; at++) {
        unsigned octet = 0;
        sscanf(text + 2 * at, "%2x", &octet);
        found.data[at] = (uint8_t)octet;
    }
    return found;
}

static void say(const char *result, const char *which, const char *why) {
    printf("%s\t%s\t%s\n", result, which, why);
}

static ldns_rdf *name_of(const char *text) {
    struct octets name = from_hex(text);
    ldns_rdf *found = ldns_rdf_new_frm_data(LDNS_RDF_TYPE_DNAME, name.len, name.data);
    free(name.data);
    return found;
}

static ldns_pkt *message_of(const char *text) {
    struct octets message = from_hex(text);
    ldns_pkt *found = NULL;
    ldns_status status = ldns_wire2pkt(&found, message.data, message.len);
    free(message.data);
    return status == LDNS_STATUS_OK ? found : NULL;
}

/* Whether DS data name a key. */
static int is_named(const ldns_rr *key, const char *ds) {
    struct octets data = from_hex(ds);
    ldns_hash hash = data.len > 4 && data.data[3] == 4 ? LDNS_SHA384 : data.len > 4 && data.data[3] == 1 ? LDNS_SHA1 : LDNS_SHA256;
    ldns_rr *made = ldns_key_rr2ds(key, hash);
    int is_so = 0;
    if (made != NULL && data.len > 4) {
        const ldns_rdf *digest = ldns_rr_rdf(made, 3);
        is_so = ldns_calc_keytag(key) == (data.data[0] << 8 | data.data[1])
            && ldns_rdf2native_int8(ldns_rr_dnskey_algorithm(key)) == data.data[2] && (uint8_t)hash == data.data[3]
            && ldns_rdf_size(digest) == data.len - 4 && memcmp(ldns_rdf_data(digest), data.data + 4, data.len - 4) == 0;
    }
    ldns_rr_free(made);
    free(data.data);
    return is_so;
}

/* The keys that a DS set names. */
static ldns_rr_list *named_of(const ldns_rr_list *keys, char *ds) {
    ldns_rr_list *found = ldns_rr_list_new();
    for (size_t at = 0; at < ldns_rr_list_rr_count(keys); at++) {
        char *copy = strdup(ds);
        for (char *it = strtok(copy, ","); it != NULL; it = strtok(NULL, ",")) {
            if (is_named(ldns_rr_list_rr(keys, at), it)) {
                ldns_rr_list_push_rr(found, ldns_rr_list_rr(keys, at));
                break;
            }
        }
        free(copy);
    }
    return found;
}

static ldns_status verified(const ldns_rr_list *rrset, ldns_pkt *message, ldns_rr_type type, const ldns_rr_list *keys, time_t now) {
    ldns_rr_list *signatures = ldns_dnssec_pkt_get_rrsigs_for_name_and_type(message, ldns_rr_owner(ldns_rr_list_rr(rrset, 0)), type);
    ldns_rr_list *good = ldns_rr_list_new();
    ldns_status status = signatures == NULL ? LDNS_STATUS_CRYPTO_NO_RRSIG : ldns_verify_time(rrset, signatures, keys, now, good);
    ldns_rr_list_free(good);
    ldns_rr_list_deep_free(signatures);
    return status;
}

static int is_expanded(ldns_pkt *message, const ldns_rdf *name, ldns_rr_type type) {
    ldns_rr_list *signatures = ldns_dnssec_pkt_get_rrsigs_for_name_and_type(message, name, type);
    int is_so = 0;
    for (size_t at = 0; signatures != NULL && at < ldns_rr_list_rr_count(signatures); at++) {
        uint8_t labels = ldns_rdf2native_int8(ldns_rr_rrsig_labels(ldns_rr_list_rr(signatures, at)));
        is_so |= labels < ldns_dname_label_count(name) - (ldns_dname_is_wildcard(name) ? 1 : 0);
    }
    ldns_rr_list_deep_free(signatures);
    return is_so;
}

/* The records of a chain that verify, with their signatures. */
static ldns_rr_list *chain_of(ldns_pkt *message, ldns_rr_type type, const ldns_rr_list *keys, time_t now, ldns_rr_list *signatures) {
    ldns_rr_list *all = ldns_pkt_rr_list_by_type(message, type, LDNS_SECTION_AUTHORITY), *found = ldns_rr_list_new();
    for (size_t at = 0; all != NULL && at < ldns_rr_list_rr_count(all); at++) {
        ldns_rr *record = ldns_rr_list_rr(all, at);
        ldns_rr_list *rrset = ldns_pkt_rr_list_by_name_and_type(message, ldns_rr_owner(record), type, LDNS_SECTION_AUTHORITY);
        if (verified(rrset, message, type, keys, now) == LDNS_STATUS_OK) {
            ldns_rr_list_push_rr(found, record);
            ldns_rr_list *of = ldns_dnssec_pkt_get_rrsigs_for_name_and_type(message, ldns_rr_owner(record), type);
            ldns_rr_list_cat(signatures, of);
            ldns_rr_list_free(of);
        }
        ldns_rr_list_deep_free(rrset);
    }
    return found;
}

static void judge_denial(ldns_pkt *answer, const ldns_rdf *name, ldns_rr_type type, const ldns_rr_list *keys, time_t now) {
    ldns_rr_list *signatures = ldns_rr_list_new();
    ldns_rr_list *by_names = chain_of(answer, LDNS_RR_TYPE_NSEC, keys, now, signatures);
    ldns_rr_list *by_hashes = chain_of(answer, LDNS_RR_TYPE_NSEC3, keys, now, signatures);
    ldns_rr *question = ldns_rr_new();
    ldns_rr_set_owner(question, ldns_rdf_clone(name));
    ldns_rr_set_type(question, type);
    ldns_status status = LDNS_STATUS_DNSSEC_NSEC_RR_NOT_COVERED;
    if (ldns_rr_list_rr_count(by_names) > 0) {
        status = ldns_dnssec_verify_denial(question, by_names, signatures);
    }
    if (status != LDNS_STATUS_OK && ldns_rr_list_rr_count(by_hashes) > 0) {
        int is_empty = ldns_pkt_ancount(answer) == 0;
        status = ldns_dnssec_verify_denial_nsec3(question, by_hashes, signatures, ldns_pkt_get_rcode(answer), type, is_empty);
    }
    say(status == LDNS_STATUS_OK ? "secure" : "bogus", status == LDNS_STATUS_OK ? "denied" : "", ldns_get_errorstr_by_id(status));
    ldns_rr_free(question);
}

static int is_referral(ldns_pkt *answer) {
    ldns_rr_list *servers = ldns_pkt_rr_list_by_type(answer, LDNS_RR_TYPE_NS, LDNS_SECTION_AUTHORITY);
    ldns_rr_list *soa = ldns_pkt_rr_list_by_type(answer, LDNS_RR_TYPE_SOA, LDNS_SECTION_AUTHORITY);
    int is_so = ldns_pkt_ancount(answer) == 0 && servers != NULL && soa == NULL;
    ldns_rr_list_deep_free(servers);
    ldns_rr_list_deep_free(soa);
    return is_so;
}

static void judge_answer(ldns_pkt *answer, const ldns_rdf *name, ldns_rr_type type, const ldns_rr_list *keys, time_t now) {
    ldns_rr_list *rrset = ldns_pkt_rr_list_by_name_and_type(answer, name, type, LDNS_SECTION_ANSWER);
    if (rrset == NULL && (ldns_pkt_ancount(answer) > 0 || is_referral(answer))) {
        say("not asked", "", "no call for referrals and aliases");
    } else if (rrset == NULL) {
        judge_denial(answer, name, type, keys, now);
    } else if (is_expanded(answer, name, type)) {
        say("not asked", "", "no call for what is shown beside a wildcard's records");
    } else {
        ldns_status status = verified(rrset, answer, type, keys, now);
        say(status == LDNS_STATUS_OK ? "secure" : "bogus", status == LDNS_STATUS_OK ? "answer" : "", ldns_get_errorstr_by_id(status));
    }
}

static void judge(char *words[7]) {
    ldns_rdf *apex = name_of(words[0]), *name = name_of(words[4]);
    ldns_pkt *dnskey = message_of(words[2]), *answer = message_of(words[3]);
    time_t now = atoll(words[6]);
    if (dnskey == NULL || answer == NULL) {
        say("bogus", "", "a message cannot be read");
        return;
    }
    ldns_rr_list *keys = ldns_pkt_rr_list_by_name_and_type(dnskey, apex, LDNS_RR_TYPE_DNSKEY, LDNS_SECTION_ANSWER);
    if (keys == NULL) {
        say("bogus", "", "no DNSKEY set");
        return;
    }
    ldns_rr_list *trusted = named_of(keys, words[1]);
    ldns_status status = verified(keys, dnskey, LDNS_RR_TYPE_DNSKEY, trusted, now);
    if (status != LDNS_STATUS_OK) {
        say("bogus", "", ldns_get_errorstr_by_id(status));
        return;
    }
    judge_answer(answer, name, (ldns_rr_type)atoi(words[5]), keys, now);
}

/* In a process of its own: an assertion of the library ends it. */
static void judge_apart(char *words[7]) {
    fflush(stdout);
    pid_t child = fork();
    if (child == 0) {
        judge(words);
        fflush(stdout);
        _exit(0);
    }
    int status = 0;
    waitpid(child, &status, 0);
    if (!WIFEXITED(status)) {
        say("ended", "", "an assertion of the library ended the process");
    }
}

int main(void) {
    char *line = malloc(LINE);
    while (fgets(line, LINE, stdin) != NULL) {
        char *words[7], *rest = line;
        for (int at = 0; at < 7; at++) {
            words[at] = strsep(&rest, " \n");
        }
        judge_apart(words);
    }
    free(line);
    return 0;
}
