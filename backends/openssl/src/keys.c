#include "keys.h"

#include <openssl/crypto.h>
#include <stdlib.h>

/* A key with what it was read from; free if `key` is null. */
struct slot {
    const struct algorithm *algorithm;
    uint8_t *octets;
    size_t len;
    EVP_PKEY *key;
    uint64_t used;
};

struct keys {
    CRYPTO_RWLOCK *lock;
    struct slot *slots;
    size_t most;
    uint64_t clock;
};

struct keys *keys_new(size_t most) {
    struct keys *keys = calloc(1, sizeof *keys);
    if (keys == NULL) {
        return NULL;
    }
    keys->most = most;
    keys->lock = CRYPTO_THREAD_lock_new();
    keys->slots = most == 0 ? NULL : calloc(most, sizeof *keys->slots);
    if (keys->lock == NULL || (most > 0 && keys->slots == NULL)) {
        keys_free(keys);
        return NULL;
    }
    return keys;
}

static void empty(struct slot *slot) {
    EVP_PKEY_free(slot->key);
    free(slot->octets);
    *slot = (struct slot){0};
}

void keys_free(struct keys *keys) {
    if (keys == NULL) {
        return;
    }
    for (size_t i = 0; i < keys->most && keys->slots != NULL; i++) {
        empty(&keys->slots[i]);
    }
    free(keys->slots);
    CRYPTO_THREAD_lock_free(keys->lock);
    free(keys);
}

/* The slot of a key; null if it is not kept. */
static struct slot *find(const struct keys *keys, const struct algorithm *algorithm, struct zermuita_octets octets) {
    for (struct slot *it = keys->slots; it < keys->slots + keys->most; it++) {
        if (it->key != NULL && it->algorithm == algorithm && it->len == octets.len && memcmp(it->octets, octets.data, octets.len) == 0) {
            return it;
        }
    }
    return NULL;
}

/* A free slot, or that of the key that was not used for the longest time. */
static struct slot *oldest(const struct keys *keys) {
    struct slot *found = keys->slots;
    for (struct slot *it = keys->slots; it < keys->slots + keys->most; it++) {
        found = it->used < found->used ? it : found;
    }
    return found;
}

/* A key that is kept, with one reference more; null if it is not. */
static EVP_PKEY *kept(struct keys *keys, const struct algorithm *algorithm, struct zermuita_octets octets) {
    EVP_PKEY *key = NULL;
    if (keys->most == 0 || CRYPTO_THREAD_write_lock(keys->lock) != 1) {
        return NULL;
    }
    struct slot *slot = find(keys, algorithm, octets);
    if (slot != NULL && EVP_PKEY_up_ref(slot->key) == 1) {
        slot->used = ++keys->clock;
        key = slot->key;
    }
    CRYPTO_THREAD_unlock(keys->lock);
    return key;
}

/* Keeps a key, if memory suffices and no other thread has done so. */
static void keep(struct keys *keys, const struct algorithm *algorithm, struct zermuita_octets octets, EVP_PKEY *key) {
    uint8_t *copy = keys->most == 0 ? NULL : malloc(octets.len);
    if (copy == NULL) {
        return;
    }
    memcpy(copy, octets.data, octets.len);
    if (CRYPTO_THREAD_write_lock(keys->lock) != 1) {
        free(copy);
        return;
    }
    if (find(keys, algorithm, octets) == NULL && EVP_PKEY_up_ref(key) == 1) {
        struct slot *slot = oldest(keys);
        empty(slot);
        *slot = (struct slot){algorithm, copy, octets.len, key, ++keys->clock};
        copy = NULL;
    }
    CRYPTO_THREAD_unlock(keys->lock);
    free(copy);
}

EVP_PKEY *keys_take(struct keys *keys, const struct source *source, const struct algorithm *algorithm,
                    struct zermuita_octets octets, enum zermuita_openssl_checked *checked) {
    EVP_PKEY *key = kept(keys, algorithm, octets);
    if (key == NULL) {
        key = make_key(source, algorithm, octets, checked);
        if (key != NULL) {
            keep(keys, algorithm, octets, key);
        }
    }
    return key;
}
