/* Keys that were read, kept so that they are not read again: the least used go first. Threads may use them at once. */
#ifndef KEYS_H
#define KEYS_H

#include "algorithm.h"

struct keys;

/* Room for so many keys. Null if memory runs out. */
struct keys *keys_new(size_t most);

void keys_free(struct keys *keys);

/* A key that is kept, or else read and kept; the caller frees it. If it is null, `checked` says why. */
EVP_PKEY *keys_take(struct keys *keys, const struct source *source, const struct algorithm *algorithm,
                    struct zermuita_octets octets, enum zermuita_openssl_checked *checked);

#endif
