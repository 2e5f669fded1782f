/* Signatures that were made, by key and octets. Those of a moment are of no use behind it, so all are dropped then. */
#ifndef CACHE_H
#define CACHE_H

#include "keys.h"

enum { CACHE_PLACES = 16384 };

struct kept {
    uint8_t digest[32];
    uint16_t len;
    uint8_t signature[SIGNATURE_ROOM];
};

struct cache {
    struct kept *places; /* CACHE_PLACES of them; a place without signature has no octets */
    size_t count;
    uint64_t moment;
    uint64_t made, found;
};

/* SHA-256 of an entry's key and octets. */
static bool digest_of(const struct zermuita_sign *sign, uint8_t digest[32]) {
    EVP_MD_CTX *context = EVP_MD_CTX_new();
    size_t len = sign->dnskey.len; /* first, so that no other key and octets make the same row */
    bool is_made = context != NULL && EVP_DigestInit_ex(context, EVP_sha256(), NULL) == 1
        && EVP_DigestUpdate(context, &len, sizeof len) == 1
        && EVP_DigestUpdate(context, sign->dnskey.data, sign->dnskey.len) == 1
        && EVP_DigestUpdate(context, sign->octets.data, sign->octets.len) == 1 && EVP_DigestFinal_ex(context, digest, NULL) == 1;
    EVP_MD_CTX_free(context);
    return is_made;
}

/* The place of a digest, or the first free one behind where it would be. */
static struct kept *place_of(struct cache *cache, const uint8_t digest[32]) {
    size_t at = zermuita_number(digest, 4) % CACHE_PLACES;
    while (cache->places[at].len != 0 && memcmp(cache->places[at].digest, digest, 32) != 0) {
        at = (at + 1) % CACHE_PLACES;
    }
    return &cache->places[at];
}

/* Writes the signature that an entry asks for: one that is kept, or a new one. */
static bool answer_sign(struct cache *cache, struct keys *keys, uint64_t moment, const struct zermuita_sign *sign) {
    uint8_t digest[32];
    if (cache->moment != moment || cache->count > CACHE_PLACES / 2) {
        memset(cache->places, 0, CACHE_PLACES * sizeof *cache->places);
        cache->moment = moment;
        cache->count = 0;
    }
    if (sign->signature_len == 0 || sign->signature_len > SIGNATURE_ROOM || !digest_of(sign, digest)) {
        return false;
    }
    struct kept *place = place_of(cache, digest);
    if (place->len == sign->signature_len) {
        memcpy(sign->signature, place->signature, place->len);
        cache->found++;
        return true;
    }
    if (!make_signature(keys, sign)) {
        return false;
    }
    memcpy(place->digest, digest, 32);
    memcpy(place->signature, sign->signature, place->len = (uint16_t)sign->signature_len);
    cache->count++;
    cache->made++;
    return true;
}

#endif
