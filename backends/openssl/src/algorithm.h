/* The algorithms that are checked, and keys of OpenSSL made of those of DNSKEY records. */
#ifndef ALGORITHM_H
#define ALGORITHM_H

#include "zermuita_openssl.h"

#include <openssl/evp.h>
#include <stdbool.h>

/* An algorithm by its number (RFC 8624, 3.1), with OpenSSL's names. */
struct algorithm {
    uint8_t number;
    const char *key_type;
    const char *signature_type;
    const char *curve;    /* of an elliptic curve its name, else null */
    const char *digest;   /* null: the signature has its own */
    size_t key_len;       /* 0: RSA */
    size_t signature_len; /* 0: that of the key */
    int least_bits;       /* of RSA keys */
};

enum { ALGORITHMS = 6, MOST_SIGNATURE = 114 };

extern const struct algorithm algorithms[ALGORITHMS];

/* The algorithm with a number; null if there is none. */
const struct algorithm *algorithm_of(uint8_t number);

/* Where OpenSSL's methods come from. */
struct source {
    struct ossl_lib_ctx_st *context;
    char *properties; /* or null */
};

/* Whether OpenSSL has an algorithm. False with `is_known` false: it could not say. */
bool has_algorithm(const struct source *source, const struct algorithm *algorithm, bool *is_known);

/* Makes a key. If it is null, `checked` says why. */
EVP_PKEY *make_key(const struct source *source, const struct algorithm *algorithm, struct zermuita_octets octets,
                   enum zermuita_openssl_checked *checked);

/* What an error of OpenSSL means: that memory ran out, or else what the caller says. */
enum zermuita_openssl_checked meaning_of_error(enum zermuita_openssl_checked otherwise);

#endif
