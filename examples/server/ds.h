/*
 * Whether a parent's DS set names the keys that it is to name. Parents choose the digests that they publish: some have SHA-384, or
 * both, while the server tells SHA-256 (RFC 4509; RFC 6605, 2).
 */
#ifndef DS_H
#define DS_H

#include "ask.h"
#include <ctype.h>
#include <openssl/evp.h>

enum { KEY_DIGITS = 6, TYPE_DIGITS = 8 }; /* of a line: key tag and algorithm, and the digest's type behind them */

/* The octets that a line of digits spells. */
static size_t read_line(const char *line, uint8_t *octets, size_t room) {
    size_t len = 0;
    for (; len < room && isxdigit((unsigned char)line[0]) && isxdigit((unsigned char)line[1]); line += 2) {
        const char pair[] = {line[0], line[1], 0};
        octets[len++] = (uint8_t)strtoul(pair, NULL, 16);
    }
    return len;
}

/* RFC 4034, appendix B. */
static uint16_t key_tag(const uint8_t *key, size_t len) {
    uint32_t sum = 0;
    for (size_t i = 0; i < len; i++) {
        sum += i % 2 == 0 ? (uint32_t)key[i] << 8 : key[i];
    }
    return (uint16_t)(sum + (sum >> 16));
}

/* Adds the DS data of a DNSKEY record, with a digest of SHA-256 and one of SHA-384 (RFC 4034, 5.1.4). */
static bool add_digests(struct set *set, const struct name *owner, const uint8_t *key, size_t len) {
    uint8_t hashed[256 + SET_ROOM / 2], data[4 + 48];
    unsigned digest_len;
    uint16_t tag = key_tag(key, len);
    if (len < 4) {
        return false;
    }
    for (size_t i = 0; i < owner->len; i++) {
        hashed[i] = (uint8_t)tolower(owner->octets[i]); /* lengths of labels are below the letters */
    }
    memcpy(hashed + owner->len, key, len);
    memcpy(data, (const uint8_t[]){(uint8_t)(tag >> 8), (uint8_t)tag, key[3], 2}, 4);
    if (EVP_Digest(hashed, owner->len + len, data + 4, &digest_len, EVP_sha256(), NULL) != 1 || !add_line(set, data, 4 + 32)) {
        return false;
    }
    data[3] = 4;
    return EVP_Digest(hashed, owner->len + len, data + 4, &digest_len, EVP_sha384(), NULL) == 1 && add_line(set, data, 4 + 48);
}

/* The DS data of all keys of a DNSKEY set. */
static bool digests_of(const struct set *keys, const struct name *owner, struct set *digests) {
    *digests = (struct set){.len = 0};
    for (const char *line = keys->lines; *line != 0; line = strchr(line, '\n') + 1) {
        uint8_t key[SET_ROOM / 2];
        if (!add_digests(digests, owner, key, read_line(line, key, sizeof key))) {
            return false;
        }
    }
    return true;
}

/* Whether some line of a set begins with the same digits. */
static bool has_start(const struct set *set, const char *line, size_t digits) {
    for (const char *at = set->lines; *at != 0; at = strchr(at, '\n') + 1) {
        if (strncmp(at, line, digits) == 0) {
            return true;
        }
    }
    return false;
}

static bool has_line(const struct set *set, const char *line) {
    return has_start(set, line, strcspn(line, "\n") + 1);
}

/*
 * Whether a parent's set names exactly the wanted keys: it has no other key's record, each of its digests that can be made here is
 * right, and of each key it has one of these. `made` has the DS data of the keys that the zone publishes.
 */
static bool names_wanted(const struct set *found, const struct set *wanted, const struct set *made) {
    for (const char *line = found->lines; *line != 0; line = strchr(line, '\n') + 1) {
        bool can_be_made = has_start(wanted, line, TYPE_DIGITS) || has_start(made, line, TYPE_DIGITS);
        if (!has_start(wanted, line, KEY_DIGITS) || (can_be_made && !has_line(wanted, line) && !has_line(made, line))) {
            return false;
        }
    }
    for (const char *line = wanted->lines; *line != 0; line = strchr(line, '\n') + 1) {
        bool is_named = has_line(found, line);
        for (const char *at = made->lines; *at != 0 && !is_named; at = strchr(at, '\n') + 1) {
            is_named = strncmp(at, line, KEY_DIGITS) == 0 && has_line(found, at);
        }
        if (!is_named) {
            return false;
        }
    }
    return true;
}

#endif
