/* Private keys in PEM files, by OpenSSL 3: P-256, P-384, Ed25519, Ed448 and RSA with SHA-256 (RFC 8624, 3.1). */
#ifndef KEYS_H
#define KEYS_H

#include <openssl/bn.h>
#include <openssl/core_names.h>
#include <openssl/ecdsa.h>
#include <openssl/evp.h>
#include <openssl/pem.h>
#include <stdbool.h>
#include <stdio.h>
#include <string.h>
#include <zermuita_zone.h>

enum { KEY_COUNT = 64, KEY_NAME = 128, KEY_ROOM = 1024, SIGNATURE_ROOM = 512 };

struct key {
    EVP_PKEY *pair;
    uint8_t algorithm;
    uint8_t octets[KEY_ROOM]; /* as a DNSKEY record has them */
    size_t len;
};

struct keys {
    const char *folder;
    struct key list[KEY_COUNT];
    size_t count;
};

/* Both coordinates of a point (RFC 6605, 4). */
static bool read_point(struct key *key, size_t width) {
    uint8_t point[1 + 2 * 66];
    size_t len = 0;
    if (EVP_PKEY_get_octet_string_param(key->pair, OSSL_PKEY_PARAM_PUB_KEY, point, sizeof point, &len) != 1
        || len != 1 + 2 * width) {
        return false;
    }
    key->algorithm = width == 32 ? 13 : 14;
    memcpy(key->octets, point + 1, key->len = len - 1);
    return true;
}

/* The exponent behind its length, and the modulus (RFC 3110, 2), which has as many octets as a signature: 512 at most. */
static bool read_rsa(struct key *key) {
    BIGNUM *modulus = NULL, *exponent = NULL;
    bool is_read = EVP_PKEY_get_bn_param(key->pair, OSSL_PKEY_PARAM_RSA_N, &modulus) == 1
        && EVP_PKEY_get_bn_param(key->pair, OSSL_PKEY_PARAM_RSA_E, &exponent) == 1 && BN_num_bytes(exponent) < 256
        && BN_num_bytes(modulus) <= SIGNATURE_ROOM;
    if (is_read) {
        size_t len = (size_t)BN_num_bytes(exponent);
        key->algorithm = 8;
        key->octets[0] = (uint8_t)len;
        BN_bn2bin(exponent, key->octets + 1);
        key->len = 1 + len + (size_t)BN_bn2bin(modulus, key->octets + 1 + len);
    }
    BN_free(modulus);
    BN_free(exponent);
    return is_read;
}

static bool read_octets(struct key *key) {
    char curve[32] = "";
    switch (EVP_PKEY_get_base_id(key->pair)) {
    case EVP_PKEY_EC:
        EVP_PKEY_get_group_name(key->pair, curve, sizeof curve, NULL);
        return strcmp(curve, "prime256v1") == 0 ? read_point(key, 32) : strcmp(curve, "secp384r1") == 0 && read_point(key, 48);
    case EVP_PKEY_ED25519:
    case EVP_PKEY_ED448:
        key->algorithm = EVP_PKEY_get_base_id(key->pair) == EVP_PKEY_ED25519 ? 15 : 16;
        key->len = KEY_ROOM;
        return EVP_PKEY_get_raw_public_key(key->pair, key->octets, &key->len) == 1;
    case EVP_PKEY_RSA:
        return read_rsa(key);
    default:
        return false;
    }
}

/* A file with a password is not read: nobody is there to type it. */
static int no_password(char *room, int len, int is_new, void *context) {
    (void)room, (void)len, (void)is_new, (void)context;
    return -1;
}

/* Reads the key of NAME.pem. False where there is none that this server signs with. */
static bool read_key(const struct keys *keys, const char *name, struct key *key) {
    char path[512];
    int written = snprintf(path, sizeof path, "%s/%s.pem", keys->folder, name);
    FILE *file = written > 0 && (size_t)written < sizeof path ? fopen(path, "r") : NULL;
    if (file == NULL) {
        return false;
    }
    key->pair = PEM_read_PrivateKey(file, NULL, no_password, NULL);
    fclose(file);
    if (key->pair == NULL || !read_octets(key)) {
        EVP_PKEY_free(key->pair);
        return false;
    }
    return true;
}

/* The key of these octets, if it was read. */
static struct key *find_key(struct keys *keys, uint8_t algorithm, struct zermuita_octets octets) {
    for (size_t i = 0; i < keys->count; i++) {
        struct key *key = &keys->list[i];
        if (key->algorithm == algorithm && key->len == octets.len && memcmp(key->octets, octets.data, octets.len) == 0) {
            return key;
        }
    }
    return NULL;
}

/* The key of a name, as NAME.pem has it now: since it was read last another one may have been put there. */
static struct key *key_named(struct keys *keys, const char *name) {
    struct key read = {0};
    if (strchr(name, '/') != NULL || strlen(name) >= KEY_NAME || !read_key(keys, name, &read)) {
        return NULL;
    }
    struct key *known = find_key(keys, read.algorithm, (struct zermuita_octets){read.octets, read.len});
    if (known != NULL || keys->count == KEY_COUNT) {
        EVP_PKEY_free(read.pair);
        return known;
    }
    keys->list[keys->count] = read;
    return &keys->list[keys->count++];
}

/* Both numbers of an ECDSA signature, in as many octets each as the curve has (RFC 6605, 4). */
static bool write_pair(const uint8_t *der, size_t len, const struct zermuita_sign *sign) {
    int width = (int)sign->signature_len / 2;
    ECDSA_SIG *pair = d2i_ECDSA_SIG(NULL, &der, (long)len);
    bool is_written = pair != NULL && BN_bn2binpad(ECDSA_SIG_get0_r(pair), sign->signature, width) == width
        && BN_bn2binpad(ECDSA_SIG_get0_s(pair), sign->signature + width, width) == width;
    ECDSA_SIG_free(pair);
    return is_written;
}

/* Makes the signature that an entry asks for, in its place. */
static bool make_signature(struct keys *keys, const struct zermuita_sign *sign) {
    struct key *key = find_key(keys, sign->algorithm, sign->key);
    EVP_MD_CTX *context = EVP_MD_CTX_new();
    const EVP_MD *digest = sign->algorithm == 14 ? EVP_sha384() : sign->algorithm >= 15 ? NULL : EVP_sha256();
    uint8_t room[KEY_ROOM];
    size_t len = sizeof room;
    bool is_made = key != NULL && context != NULL && EVP_DigestSignInit(context, NULL, digest, NULL, key->pair) == 1
        && EVP_DigestSign(context, room, &len, sign->octets.data, sign->octets.len) == 1;
    EVP_MD_CTX_free(context);
    if (is_made && (sign->algorithm == 13 || sign->algorithm == 14)) {
        return write_pair(room, len, sign);
    }
    if (!is_made || len != sign->signature_len) {
        return false;
    }
    memcpy(sign->signature, room, len);
    return true;
}

#endif
