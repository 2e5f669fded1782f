#include "checker.h"

#include <openssl/err.h>
#include <stdlib.h>

enum { KEPT_KEYS = 64, MOST_KEPT_KEYS = 4096 };

/* Two numbers of 48 bytes with their heads: all that the DER form of a pair has at most. */
enum { MOST_WIDTH = 48, MOST_DER = 2 + 2 * (3 + MOST_WIDTH) };

static char *copied(const char *text) {
    size_t len = strlen(text) + 1;
    char *copy = malloc(len);
    if (copy != NULL) {
        memcpy(copy, text, len);
    }
    return copy;
}

/* Finds the algorithms that OpenSSL has. False if it cannot say: one that it has must not count as one that it lacks. */
static bool find_own_algorithms(struct zermuita_openssl *checker) {
    for (size_t i = 0; i < ALGORITHMS; i++) {
        bool is_known = false;
        if (has_algorithm(&checker->source, &algorithms[i], &is_known)) {
            checker->own[checker->own_count++] = algorithms[i].number;
        } else if (!is_known) {
            return false;
        }
    }
    return true;
}

/* Has signatures checked by OpenSSL. */
static void set_own_check(struct zermuita_openssl *checker) {
    checker->check = zermuita_openssl_check;
    checker->context = checker;
    memcpy(checker->numbers, checker->own, checker->own_count);
    checker->count = checker->own_count;
}

static bool set_up(struct zermuita_openssl *checker, const char *properties, size_t keys) {
    checker->keys = keys_new(keys);
    checker->source.properties = properties == NULL ? NULL : copied(properties);
    bool has_memory = checker->keys != NULL && (properties == NULL || checker->source.properties != NULL);
    if (!has_memory || !find_own_algorithms(checker)) {
        return false;
    }
    set_own_check(checker);
    return true;
}

struct zermuita_openssl *zermuita_openssl_new_in(struct ossl_lib_ctx_st *context, const char *properties, size_t keys) {
    struct zermuita_openssl *checker = calloc(1, sizeof *checker);
    if (checker == NULL) {
        return NULL;
    }
    checker->source.context = context;
    if (!set_up(checker, properties, keys < MOST_KEPT_KEYS ? keys : MOST_KEPT_KEYS)) {
        zermuita_openssl_free(checker);
        return NULL;
    }
    return checker;
}

struct zermuita_openssl *zermuita_openssl_new(void) {
    return zermuita_openssl_new_in(NULL, NULL, KEPT_KEYS);
}

void zermuita_openssl_free(struct zermuita_openssl *checker) {
    if (checker != NULL) {
        keys_free(checker->keys);
        free(checker->source.properties);
        free(checker);
    }
}

struct zermuita_octets zermuita_openssl_algorithms(const struct zermuita_openssl *checker) {
    return (struct zermuita_octets){checker->numbers, checker->count};
}

int zermuita_openssl_set_check(struct zermuita_openssl *checker, zermuita_openssl_check_function *check, void *context,
                               struct zermuita_octets numbers) {
    if (check == NULL) {
        set_own_check(checker);
        return 1;
    }
    if (numbers.data == NULL || numbers.len == 0 || numbers.len > MOST_ALGORITHMS) {
        return 0;
    }
    memcpy(checker->numbers, numbers.data, numbers.len);
    checker->count = numbers.len;
    checker->check = check;
    checker->context = context;
    return 1;
}

/* Writes a number in DER: without zeros in front, but behind one if it would be negative without. Returns how many bytes. */
static size_t write_number(uint8_t *out, const uint8_t *number, size_t width) {
    while (width > 1 && *number == 0) {
        number++;
        width--;
    }
    size_t zero = *number >> 7;
    out[0] = 2;
    out[1] = (uint8_t)(zero + width);
    out[2] = 0;
    memcpy(out + 2 + zero, number, width);
    return 2 + zero + width;
}

/* Writes a signature of two numbers (RFC 6605, 4) in DER, as OpenSSL reads it. */
static struct zermuita_octets write_pair(uint8_t *der, struct zermuita_octets signature) {
    size_t width = signature.len / 2;
    size_t len = write_number(der + 2, signature.data, width);
    len += write_number(der + 2 + len, signature.data + width, width);
    der[0] = 0x30;
    der[1] = (uint8_t)len;
    return (struct zermuita_octets){der, 2 + len};
}

/* Whether a key made a signature, which is as OpenSSL reads it. */
static enum zermuita_openssl_checked verify(const struct source *source, const char *digest, EVP_PKEY *key,
                                            struct zermuita_octets octets, struct zermuita_octets signature) {
    EVP_MD_CTX *context = EVP_MD_CTX_new();
    enum zermuita_openssl_checked checked = ZERMUITA_OPENSSL_NO_MEMORY;
    if (context == NULL) {
        return checked;
    }
    /* Nothing is added behind what is verified, so no copies have to be made. */
    EVP_MD_CTX_set_flags(context, EVP_MD_CTX_FLAG_FINALISE);
    if (EVP_DigestVerifyInit_ex(context, NULL, digest, source->context, source->properties, key, NULL) != 1) {
        checked = meaning_of_error(ZERMUITA_OPENSSL_BAD_KEY);
    } else if (EVP_DigestVerify(context, signature.data, signature.len, octets.data, octets.len) == 1) {
        checked = ZERMUITA_OPENSSL_PASSES;
    } else {
        checked = meaning_of_error(ZERMUITA_OPENSSL_FAILS);
    }
    EVP_MD_CTX_free(context);
    return checked;
}

/* Checks a signature by a key that is read. */
static enum zermuita_openssl_checked check_by_key(const struct source *source, const struct algorithm *algorithm, EVP_PKEY *key,
                                                  const struct zermuita_ask *ask) {
    uint8_t der[MOST_DER];
    if (algorithm->signature_len == 0 && (int)ask->signature.len != EVP_PKEY_get_size(key)) {
        return ZERMUITA_OPENSSL_BAD_SIGNATURE;
    }
    struct zermuita_octets signature = algorithm->curve != NULL ? write_pair(der, ask->signature) : ask->signature;
    return verify(source, algorithm->digest, key, ask->octets, signature);
}

/* Checks a signature whose algorithm is checked and whose length is one of it. */
static enum zermuita_openssl_checked check_once(struct zermuita_openssl *checker, const struct algorithm *algorithm,
                                                const struct zermuita_ask *ask) {
    enum zermuita_openssl_checked checked = ZERMUITA_OPENSSL_BAD_KEY;
    EVP_PKEY *key = keys_take(checker->keys, &checker->source, algorithm, ask->key, &checked);
    if (key != NULL) {
        ERR_clear_error();
        checked = check_by_key(&checker->source, algorithm, key, ask);
        EVP_PKEY_free(key);
    }
    ERR_clear_error();
    return checked;
}

enum zermuita_openssl_checked zermuita_openssl_check(void *checker, const struct zermuita_ask *ask) {
    struct zermuita_openssl *own = checker;
    const struct algorithm *algorithm = algorithm_of(ask->algorithm);
    if (algorithm == NULL || memchr(own->own, ask->algorithm, own->own_count) == NULL) {
        return ZERMUITA_OPENSSL_UNSUPPORTED;
    }
    if (algorithm->signature_len != 0 && ask->signature.len != algorithm->signature_len) {
        return ZERMUITA_OPENSSL_BAD_SIGNATURE;
    }
    enum zermuita_openssl_checked checked = check_once(own, algorithm, ask);
    if (checked == ZERMUITA_OPENSSL_FAILS || checked == ZERMUITA_OPENSSL_BAD_KEY) {
        /* OpenSSL does not always say that memory ran out, as for Ed25519. What fails for that alone does not fail twice. */
        checked = check_once(own, algorithm, ask);
    }
    return checked;
}

static const char *const texts[ZERMUITA_OPENSSL_CHECKED_COUNT] = {
    [ZERMUITA_OPENSSL_FAILS] = "ZERMUITA_OPENSSL_FAILS: the key did not make this signature over these bytes",
    [ZERMUITA_OPENSSL_PASSES] = "ZERMUITA_OPENSSL_PASSES: the key made this signature over these bytes",
    [ZERMUITA_OPENSSL_BAD_KEY] = "ZERMUITA_OPENSSL_BAD_KEY: the key cannot be read, or cannot be one of its algorithm",
    [ZERMUITA_OPENSSL_BAD_KEY_SIZE] =
        "ZERMUITA_OPENSSL_BAD_KEY_SIZE: an RSA key is too small or too large, or its exponent is",
    [ZERMUITA_OPENSSL_BAD_SIGNATURE] =
        "ZERMUITA_OPENSSL_BAD_SIGNATURE: the signature does not have the length that its algorithm and key demand",
    [ZERMUITA_OPENSSL_UNSUPPORTED] = "ZERMUITA_OPENSSL_UNSUPPORTED: the algorithm is not one that is checked",
    [ZERMUITA_OPENSSL_NO_MEMORY] = "ZERMUITA_OPENSSL_NO_MEMORY: memory ran out: nothing is known about the signature",
    [ZERMUITA_OPENSSL_BROKEN] =
        "ZERMUITA_OPENSSL_BROKEN: it could not be checked for another reason, such as a device that is gone",
};

const char *zermuita_openssl_checked_text(enum zermuita_openssl_checked checked) {
    bool is_one = (unsigned)checked < ZERMUITA_OPENSSL_CHECKED_COUNT;
    return is_one ? texts[checked] : "not a result of a check";
}
