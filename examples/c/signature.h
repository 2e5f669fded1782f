/* Whether a signature that the library asks for passes, by OpenSSL 3: RSA, ECDSA, Ed25519 and Ed448 (RFC 8624, 3.1). */
#ifndef SIGNATURE_H
#define SIGNATURE_H

#include <openssl/bn.h>
#include <openssl/core_names.h>
#include <openssl/ecdsa.h>
#include <openssl/evp.h>
#include <openssl/param_build.h>
#include <stdbool.h>
#include <zermuita.h>

/* The algorithms of the signatures that are checked here. */
static const uint8_t signature_algorithms[] = {8, 10, 13, 14, 15, 16};

/* A key of an OpenSSL type and parameters, which are freed; none where they are not whole. */
static EVP_PKEY *key_of(const char *type, OSSL_PARAM_BLD *build, bool is_whole) {
    OSSL_PARAM *params = is_whole ? OSSL_PARAM_BLD_to_param(build) : NULL;
    EVP_PKEY_CTX *context = EVP_PKEY_CTX_new_from_name(NULL, type, NULL);
    EVP_PKEY *key = NULL;
    if (params != NULL && context != NULL && EVP_PKEY_fromdata_init(context) > 0) {
        if (EVP_PKEY_fromdata(context, &key, EVP_PKEY_PUBLIC_KEY, params) <= 0) {
            key = NULL;
        }
    }
    EVP_PKEY_CTX_free(context);
    OSSL_PARAM_free(params);
    OSSL_PARAM_BLD_free(build);
    return key;
}

/* A point of a curve, both coordinates in so many octets (RFC 6605, 4). */
static EVP_PKEY *ecdsa_key(const char *curve, size_t width, struct zermuita_octets key) {
    uint8_t point[1 + 2 * 48] = {4};
    if (key.len != 2 * width) {
        return NULL;
    }
    memcpy(point + 1, key.data, key.len);
    OSSL_PARAM_BLD *build = OSSL_PARAM_BLD_new();
    bool is_whole = build != NULL && OSSL_PARAM_BLD_push_utf8_string(build, OSSL_PKEY_PARAM_GROUP_NAME, curve, 0) == 1
        && OSSL_PARAM_BLD_push_octet_string(build, OSSL_PKEY_PARAM_PUB_KEY, point, 1 + key.len) == 1;
    return key_of("EC", build, is_whole);
}

/* An exponent behind its length in one octet, or in three, and the modulus (RFC 3110, 2). */
static EVP_PKEY *rsa_key(struct zermuita_octets key) {
    if (key.len < 3) {
        return NULL;
    }
    size_t head = key.data[0] != 0 ? 1 : 3;
    size_t len = head == 1 ? key.data[0] : zermuita_number(key.data + 1, 2);
    if (len == 0 || key.len <= head + len) {
        return NULL;
    }
    BIGNUM *exponent = BN_bin2bn(key.data + head, (int)len, NULL);
    BIGNUM *modulus = BN_bin2bn(key.data + head + len, (int)(key.len - head - len), NULL);
    OSSL_PARAM_BLD *build = OSSL_PARAM_BLD_new();
    bool is_whole = build != NULL && exponent != NULL && modulus != NULL
        && OSSL_PARAM_BLD_push_BN(build, OSSL_PKEY_PARAM_RSA_N, modulus) == 1
        && OSSL_PARAM_BLD_push_BN(build, OSSL_PKEY_PARAM_RSA_E, exponent) == 1;
    EVP_PKEY *made = key_of("RSA", build, is_whole);
    BN_free(exponent);
    BN_free(modulus);
    return made;
}

/* Whether a signature, as OpenSSL writes it, passes under a key, which is freed. */
static bool verifies(EVP_PKEY *key, const EVP_MD *digest, struct zermuita_octets octets, struct zermuita_octets signature) {
    EVP_MD_CTX *context = EVP_MD_CTX_new();
    bool passes = key != NULL && context != NULL && EVP_DigestVerifyInit(context, NULL, digest, NULL, key) > 0
        && EVP_DigestVerify(context, signature.data, signature.len, octets.data, octets.len) == 1;
    EVP_MD_CTX_free(context);
    EVP_PKEY_free(key);
    return passes;
}

/* Whether a curve's signature passes, which is two numbers of `width` octets each (RFC 6605, 4). */
static bool ecdsa_verifies(const char *curve, size_t width, const EVP_MD *digest, const struct zermuita_ask *ask) {
    if (ask->signature.len != 2 * width) {
        return false;
    }
    const uint8_t *numbers = ask->signature.data;
    BIGNUM *first = BN_bin2bn(numbers, (int)width, NULL), *second = BN_bin2bn(numbers + width, (int)width, NULL);
    ECDSA_SIG *pair = ECDSA_SIG_new();
    if (pair == NULL || ECDSA_SIG_set0(pair, first, second) != 1) {
        BN_free(first);
        BN_free(second);
        ECDSA_SIG_free(pair);
        return false;
    }
    uint8_t *der = NULL;
    int len = i2d_ECDSA_SIG(pair, &der);
    struct zermuita_octets written = {der, len < 0 ? 0 : (size_t)len};
    bool passes = verifies(ecdsa_key(curve, width, ask->key), digest, ask->octets, written);
    OPENSSL_free(der);
    ECDSA_SIG_free(pair);
    return passes;
}

static EVP_PKEY *edwards_key(int type, struct zermuita_octets key) {
    return EVP_PKEY_new_raw_public_key(type, NULL, key.data, key.len);
}

/* Whether a signature passes. One of an algorithm that isn't here doesn't. */
static bool signature_passes(const struct zermuita_ask *ask) {
    switch (ask->algorithm) {
    case 8:
        return verifies(rsa_key(ask->key), EVP_sha256(), ask->octets, ask->signature);
    case 10:
        return verifies(rsa_key(ask->key), EVP_sha512(), ask->octets, ask->signature);
    case 13:
        return ecdsa_verifies("P-256", 32, EVP_sha256(), ask);
    case 14:
        return ecdsa_verifies("P-384", 48, EVP_sha384(), ask);
    case 15:
        return verifies(edwards_key(EVP_PKEY_ED25519, ask->key), NULL, ask->octets, ask->signature);
    case 16:
        return verifies(edwards_key(EVP_PKEY_ED448, ask->key), NULL, ask->octets, ask->signature);
    default:
        return false;
    }
}

/* Answers all signatures that a reply asks for. */
static inline void answer_all(uint8_t *asks, size_t len) {
    struct zermuita_ask ask;
    while (zermuita_next_ask(&asks, &len, &ask)) {
        zermuita_answer(&ask, signature_passes(&ask));
    }
}

#endif
