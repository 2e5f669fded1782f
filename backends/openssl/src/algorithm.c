#include "algorithm.h"

#include <openssl/bn.h>
#include <openssl/core_names.h>
#include <openssl/ec.h>
#include <openssl/err.h>
#include <openssl/param_build.h>

/* RFC 3110, 2, and RFC 5702, 2, limit RSA keys to 4,096 bits. */
enum { MOST_MODULUS_BITS = 4096, MOST_EXPONENT_BITS = 64, MOST_RSA_OCTETS = 512, MOST_COORDINATES = 96 };

const struct algorithm algorithms[ALGORITHMS] = {
    {8, "RSA", "RSA", NULL, "SHA256", 0, 0, 512},
    {10, "RSA", "RSA", NULL, "SHA512", 0, 0, 1024},
    {13, "EC", "ECDSA", "P-256", "SHA256", 64, 64, 0},
    {14, "EC", "ECDSA", "P-384", "SHA384", 96, 96, 0},
    {15, "ED25519", "ED25519", NULL, NULL, 32, 64, 0},
    {16, "ED448", "ED448", NULL, NULL, 57, MOST_SIGNATURE, 0},
};

const struct algorithm *algorithm_of(uint8_t number) {
    for (size_t i = 0; i < ALGORITHMS; i++) {
        if (algorithms[i].number == number) {
            return &algorithms[i];
        }
    }
    return NULL;
}

enum zermuita_openssl_checked meaning_of_error(enum zermuita_openssl_checked otherwise) {
    enum zermuita_openssl_checked checked = otherwise;
    for (unsigned long error; (error = ERR_get_error()) != 0;) {
        if (ERR_GET_REASON(error) == ERR_R_MALLOC_FAILURE) {
            checked = ZERMUITA_OPENSSL_NO_MEMORY;
        }
    }
    return checked;
}

/* Whether all errors say that OpenSSL has no such method. */
static bool are_of_absence(void) {
    bool are = ERR_peek_error() != 0;
    for (unsigned long error; (error = ERR_get_error()) != 0;) {
        are = are && ERR_GET_LIB(error) == ERR_LIB_EVP && ERR_GET_REASON(error) == ERR_R_UNSUPPORTED;
    }
    return are;
}

static bool has_methods(const struct source *source, const struct algorithm *algorithm) {
    EVP_KEYMGMT *keys = EVP_KEYMGMT_fetch(source->context, algorithm->key_type, source->properties);
    EVP_SIGNATURE *signatures = keys == NULL ? NULL : EVP_SIGNATURE_fetch(source->context, algorithm->signature_type, source->properties);
    bool has = keys != NULL && signatures != NULL;
    if (has && algorithm->digest != NULL) {
        EVP_MD *digest = EVP_MD_fetch(source->context, algorithm->digest, source->properties);
        has = digest != NULL;
        EVP_MD_free(digest);
    }
    EVP_SIGNATURE_free(signatures);
    EVP_KEYMGMT_free(keys);
    return has;
}

bool has_algorithm(const struct source *source, const struct algorithm *algorithm, bool *is_known) {
    ERR_clear_error();
    bool has = has_methods(source, algorithm);
    *is_known = has || are_of_absence();
    ERR_clear_error();
    return has;
}

/* A key of parameters, which are freed. */
static EVP_PKEY *key_of_parameters(const struct source *source, const char *type, OSSL_PARAM_BLD *build, bool is_whole) {
    OSSL_PARAM *parameters = is_whole ? OSSL_PARAM_BLD_to_param(build) : NULL;
    EVP_PKEY_CTX *context = parameters == NULL ? NULL : EVP_PKEY_CTX_new_from_name(source->context, type, source->properties);
    EVP_PKEY *key = NULL;
    bool is_made = context != NULL && EVP_PKEY_fromdata_init(context) == 1
                   && EVP_PKEY_fromdata(context, &key, EVP_PKEY_PUBLIC_KEY, parameters) == 1;
    if (!is_made) {
        EVP_PKEY_free(key);
        key = NULL;
    }
    EVP_PKEY_CTX_free(context);
    OSSL_PARAM_free(parameters);
    OSSL_PARAM_BLD_free(build);
    return key;
}

/* A point of a curve, as its two coordinates (RFC 6605, 4). OpenSSL refuses one that is not on the curve. */
static EVP_PKEY *curve_key(const struct source *source, const struct algorithm *algorithm, struct zermuita_octets octets) {
    uint8_t point[1 + MOST_COORDINATES] = {POINT_CONVERSION_UNCOMPRESSED};
    memcpy(point + 1, octets.data, octets.len);
    OSSL_PARAM_BLD *build = OSSL_PARAM_BLD_new();
    bool is_whole = build != NULL
                    && OSSL_PARAM_BLD_push_utf8_string(build, OSSL_PKEY_PARAM_GROUP_NAME, algorithm->curve, 0) == 1
                    && OSSL_PARAM_BLD_push_octet_string(build, OSSL_PKEY_PARAM_PUB_KEY, point, 1 + octets.len) == 1;
    return key_of_parameters(source, algorithm->key_type, build, is_whole);
}

/* Cuts a key into its exponent, behind the exponent's length in one byte, or in three, and its modulus (RFC 3110, 2). */
static bool cut_rsa_key(struct zermuita_octets octets, struct zermuita_octets *exponent, struct zermuita_octets *modulus) {
    bool is_long = octets.len > 0 && octets.data[0] == 0;
    struct zermuita_octets rest = {octets.data + is_long, octets.len - is_long};
    if (octets.len == 0 || !zermuita_next_part(&rest, is_long ? 2 : 1, exponent)) {
        return false;
    }
    *modulus = rest;
    return exponent->len > 0 && modulus->len > 0;
}

/* What RSA's numbers and the limits demand of a key. */
static enum zermuita_openssl_checked limited(const struct algorithm *algorithm, const BIGNUM *exponent, const BIGNUM *modulus) {
    int bits = BN_num_bits(modulus);
    if (bits < algorithm->least_bits || bits > MOST_MODULUS_BITS || BN_num_bits(exponent) > MOST_EXPONENT_BITS) {
        return ZERMUITA_OPENSSL_BAD_KEY_SIZE;
    }
    bool are_odd = BN_is_odd(exponent) && BN_is_odd(modulus);
    return are_odd && !BN_is_one(exponent) ? ZERMUITA_OPENSSL_PASSES : ZERMUITA_OPENSSL_BAD_KEY;
}

static EVP_PKEY *key_of_numbers(const struct source *source, const BIGNUM *exponent, const BIGNUM *modulus) {
    OSSL_PARAM_BLD *build = OSSL_PARAM_BLD_new();
    bool is_whole = build != NULL && OSSL_PARAM_BLD_push_BN(build, OSSL_PKEY_PARAM_RSA_N, modulus) == 1
                    && OSSL_PARAM_BLD_push_BN(build, OSSL_PKEY_PARAM_RSA_E, exponent) == 1;
    return key_of_parameters(source, "RSA", build, is_whole);
}

static EVP_PKEY *rsa_key(const struct source *source, const struct algorithm *algorithm, struct zermuita_octets octets,
                         enum zermuita_openssl_checked *checked) {
    struct zermuita_octets parts[2];
    *checked = ZERMUITA_OPENSSL_BAD_KEY;
    if (!cut_rsa_key(octets, &parts[0], &parts[1])) {
        return NULL;
    }
    *checked = ZERMUITA_OPENSSL_BAD_KEY_SIZE;
    if (parts[0].len > MOST_RSA_OCTETS || parts[1].len > MOST_RSA_OCTETS) {
        return NULL;
    }
    BIGNUM *exponent = BN_bin2bn(parts[0].data, (int)parts[0].len, NULL);
    BIGNUM *modulus = BN_bin2bn(parts[1].data, (int)parts[1].len, NULL);
    bool are_read = exponent != NULL && modulus != NULL;
    *checked = are_read ? limited(algorithm, exponent, modulus) : ZERMUITA_OPENSSL_NO_MEMORY;
    EVP_PKEY *key = *checked == ZERMUITA_OPENSSL_PASSES ? key_of_numbers(source, exponent, modulus) : NULL;
    BN_free(exponent);
    BN_free(modulus);
    return key;
}

EVP_PKEY *make_key(const struct source *source, const struct algorithm *algorithm, struct zermuita_octets octets,
                   enum zermuita_openssl_checked *checked) {
    EVP_PKEY *key = NULL;
    ERR_clear_error();
    *checked = ZERMUITA_OPENSSL_BAD_KEY;
    if (algorithm->key_len == 0) {
        key = rsa_key(source, algorithm, octets, checked);
    } else if (octets.len != algorithm->key_len) {
        return NULL;
    } else if (algorithm->curve != NULL) {
        key = curve_key(source, algorithm, octets);
    } else {
        key = EVP_PKEY_new_raw_public_key_ex(source->context, algorithm->key_type, source->properties, octets.data, octets.len);
    }
    bool is_named = *checked != ZERMUITA_OPENSSL_PASSES && *checked != ZERMUITA_OPENSSL_BAD_KEY;
    if (key == NULL && !is_named) {
        *checked = meaning_of_error(ZERMUITA_OPENSSL_BAD_KEY);
    }
    ERR_clear_error();
    return key;
}
