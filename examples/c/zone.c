/*
 * Serves a signed zone for one question: reads a master file, begins a journal with it, puts a key into the zone, and prints the
 * response in hexadecimal digits.
 *
 * usage: zone MASTER-FILE KEY.pem NAME TYPE-NUMBER
 *
 * The key is one of ECDSA P-256. To build it: cc zone.c $(pkg-config --cflags --libs zermuita) -lcrypto
 * A server keeps the journal, the signatures and the time: docs/use/SERVER.md says how.
 */
#include <openssl/bn.h>
#include <openssl/core_names.h>
#include <openssl/ecdsa.h>
#include <openssl/evp.h>
#include <openssl/pem.h>
#include <stdio.h>
#include <stdlib.h>
#include <string.h>
#include <time.h>
#include <zermuita_zone.h>

enum { ROOM = 1 << 20, BACKDATE = 3600 };

static struct zermuita_zone zone = ZERMUITA_ZONE_CLOSED;
static uint8_t text[ROOM], journal[ROOM], out[ROOM], made[ROOM];

static void check(int is_right, const char *what) {
    if (!is_right) {
        fprintf(stderr, "%s\n", what);
        exit(EXIT_FAILURE);
    }
}

/* Applies a line at a moment. */
static void apply(const char *words, uint64_t moment) {
    char line[512];
    struct zermuita_zone_report report = {.size = sizeof report};
    int len = snprintf(line, sizeof line, "%s %llu", words, (unsigned long long)moment);
    uint32_t reply = zermuita_zone_apply(&zone, (const uint8_t *)line, (size_t)len, out, sizeof out, &report);
    check(reply == ZERMUITA_ZONE_DONE, zermuita_zone_strerror(reply));
}

/* The zone's first key: no cache knows the zone, so nothing is waited for. */
static void add_key(EVP_PKEY *key, uint64_t moment) {
    static const char *const calls[] = {"start algorithm-roll - first", "report1 algorithm-roll 0", "wait1 algorithm-roll",
                                        "report2 algorithm-roll 0", "wait2 algorithm-roll", "done algorithm-roll"};
    uint8_t point[65], octets[89];
    size_t len = 0;
    char line[256];
    EVP_PKEY_get_octet_string_param(key, OSSL_PKEY_PARAM_PUB_KEY, point, sizeof point, &len);
    check(len == sizeof point, "the key is not one of P-256");
    EVP_EncodeBlock(octets, point + 1, 64);
    snprintf(line, sizeof line, "key csk first 13 %s", (const char *)octets);
    apply(line, moment);
    for (size_t i = 0; i < sizeof calls / sizeof *calls; i++) {
        apply(calls[i], moment);
    }
}

/* Makes the signature that an entry asks for: two numbers of 32 octets (RFC 6605, 4). */
static int sign(EVP_PKEY *key, const struct zermuita_sign *entry) {
    uint8_t der[80];
    const uint8_t *next = der;
    size_t len = sizeof der;
    EVP_MD_CTX *context = EVP_MD_CTX_new();
    int is_made = entry->signature_len == 64 && context != NULL
        && EVP_DigestSignInit(context, NULL, EVP_sha256(), NULL, key) == 1
        && EVP_DigestSign(context, der, &len, entry->octets.data, entry->octets.len) == 1;
    ECDSA_SIG *pair = is_made ? d2i_ECDSA_SIG(NULL, &next, (long)len) : NULL;
    is_made = pair != NULL && BN_bn2binpad(ECDSA_SIG_get0_r(pair), entry->signature, 32) == 32
        && BN_bn2binpad(ECDSA_SIG_get0_s(pair), entry->signature + 32, 32) == 32;
    ECDSA_SIG_free(pair);
    EVP_MD_CTX_free(context);
    return is_made;
}

/* A question with DO (RFC 1035, 4.1; RFC 3225). */
static size_t write_query(const char *name, unsigned rtype, uint8_t query[512]) {
    uint8_t *at = query + 12;
    memcpy(query, (const uint8_t[]){0, 1, 0, 0, 0, 1, 0, 0, 0, 0, 0, 1}, 12);
    while (*name != 0) {
        size_t len = strcspn(name, ".");
        check(len > 0 && len < 64 && at - query < 200, "a name has labels of 1 to 63 octets");
        *at++ = (uint8_t)len;
        memcpy(at, name, len);
        at += len;
        name += len + (name[len] == '.');
    }
    memcpy(at, (const uint8_t[]){0, (uint8_t)(rtype >> 8), (uint8_t)rtype, 0, 1, 0, 0, 41, 4, 208, 0, 0, 128, 0, 0, 0}, 16);
    return (size_t)(at + 16 - query);
}

/* Answers a query, with signatures that are made where the answer lacks them. */
static size_t respond(EVP_PKEY *key, const uint8_t *query, size_t len, uint64_t now) {
    struct zermuita_zone_report report = {.size = sizeof report};
    struct zermuita_request request = {
        .size = sizeof request, .request = {query, len}, .now = now, .backdate = BACKDATE, .limit = 1232, .udp_size = 1232,
    };
    uint32_t reply = zermuita_zone_respond(&zone, &request, out, sizeof out, &report);
    if (reply == ZERMUITA_ZONE_SIGN) {
        struct zermuita_sign entry;
        uint8_t *next = out;
        for (size_t left = report.len; zermuita_next_sign(&next, &left, &entry);) {
            check(sign(key, &entry), "a signature cannot be made");
        }
        memcpy(made, out, report.len);
        request.made = (struct zermuita_octets){made, report.len};
        reply = zermuita_zone_respond(&zone, &request, out, sizeof out, &report);
    }
    check(reply == ZERMUITA_ZONE_RESPONSE, zermuita_zone_strerror(reply));
    return report.len;
}

int main(int argc, char **argv) {
    uint64_t now = (uint64_t)time(NULL);
    FILE *file = argc == 5 ? fopen(argv[1], "r") : NULL, *pem = argc == 5 ? fopen(argv[2], "r") : NULL;
    check(file != NULL && pem != NULL, "usage: zone MASTER-FILE KEY.pem NAME TYPE-NUMBER");
    EVP_PKEY *key = PEM_read_PrivateKey(pem, NULL, NULL, NULL);
    check(key != NULL, "the key cannot be read");
    struct zermuita_zone_report report = {.size = sizeof report};
    struct zermuita_master master = {
        .size = sizeof master, .text = {text, fread(text, 1, sizeof text, file)}, .chain = {(const uint8_t *)"nsec 0 604800", 13},
    };
    uint32_t reply = zermuita_zone_lines(&master, journal, sizeof journal, &report);
    check(reply == ZERMUITA_ZONE_DONE, zermuita_zone_strerror(reply));
    reply = zermuita_zone_open(&zone, journal, report.len, out, sizeof out, &report);
    check(reply == ZERMUITA_ZONE_DONE, zermuita_zone_strerror(reply));
    add_key(key, now - BACKDATE);
    uint8_t query[512];
    size_t len = respond(key, query, write_query(argv[3], (unsigned)strtoul(argv[4], NULL, 10), query), now);
    for (size_t i = 0; i < len; i++) {
        printf("%02x", out[i]);
    }
    putchar('\n');
    zermuita_zone_close(&zone);
    EVP_PKEY_free(key);
    fclose(file);
    fclose(pem);
    return EXIT_SUCCESS;
}
