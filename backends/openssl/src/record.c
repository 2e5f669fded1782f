#include "record.h"

#include <openssl/err.h>
#include <openssl/evp.h>

enum {
    DS_HEAD = 4,
    SHA1_DIGEST = 1,
    SHA256_DIGEST = 2,
    SHA384_DIGEST = 4,
    DNSKEY_HEAD = 4,
    ZONE_FLAG = 0x100,
    REVOKE_FLAG = 0x80,
    DNSKEY_PROTOCOL = 3,
    /* The keys of all algorithms that are known are shorter. */
    MOST_DNSKEY = 2048,
    VALID = 2,
    MISSING = 3
};

static bool is_blank(char letter) {
    return letter == ' ' || letter == '\t' || letter == '\r' || letter == '\n' || letter == '\f' || letter == '\v';
}

bool next_word(struct text *rest, struct text *word) {
    while (rest->len > 0 && is_blank(*rest->data)) {
        rest->data++;
        rest->len--;
    }
    *word = (struct text){rest->data, 0};
    while (rest->len > 0 && !is_blank(*rest->data)) {
        rest->data++;
        rest->len--;
        word->len++;
    }
    return word->len > 0;
}

static char lowered(char letter) {
    return letter >= 'A' && letter <= 'Z' ? (char)(letter + ('a' - 'A')) : letter;
}

bool is_word(struct text word, const char *keyword) {
    size_t len = strlen(keyword);
    bool is = word.len == len;
    for (size_t i = 0; is && i < len; i++) {
        is = lowered(word.data[i]) == lowered(keyword[i]);
    }
    return is;
}

/* The number that a word is, if it is one and not over a limit. */
static bool read_number(struct text word, unsigned long most, unsigned long *number) {
    *number = 0;
    for (size_t i = 0; i < word.len; i++) {
        if (word.data[i] < '0' || word.data[i] > '9') {
            return false;
        }
        *number = *number * 10 + (unsigned long)(word.data[i] - '0');
        if (*number > most) {
            return false;
        }
    }
    return word.len > 0;
}

/* Removes a number from a text. */
static bool next_number(struct text *rest, unsigned long most, unsigned long *number) {
    struct text word;
    return next_word(rest, &word) && read_number(word, most, number);
}

static int digit_of(char letter) {
    if (letter >= '0' && letter <= '9') {
        return letter - '0';
    }
    char lower = lowered(letter);
    return lower >= 'a' && lower <= 'f' ? lower - 'a' + 10 : -1;
}

/* Appends the bytes of all words, which are hexadecimal digits. False if they are not, or too many. */
static bool read_digits(struct text words, uint8_t *out, size_t room, size_t *len) {
    size_t digits = 0;
    for (struct text word; next_word(&words, &word);) {
        for (size_t i = 0; i < word.len; i++, digits++) {
            int digit = digit_of(word.data[i]);
            if (digit < 0 || digits / 2 >= room) {
                return false;
            }
            out[digits / 2] = (uint8_t)(digits % 2 == 0 ? digit << 4 : out[digits / 2] | digit);
        }
    }
    *len = digits / 2;
    return digits > 0 && digits % 2 == 0;
}

/* How many bytes a digest has; 0 if its type is not known. */
static size_t digest_len(unsigned long type) {
    switch (type) {
    case SHA1_DIGEST:
        return 20;
    case SHA256_DIGEST:
        return 32;
    case SHA384_DIGEST:
        return 48;
    default:
        return 0;
    }
}

/* Writes the numbers of a DS record, and the length of the whole behind which its digest is. */
static void put_head(struct zermuita_openssl_ds_record *ds, unsigned long tag, unsigned long algorithm, unsigned long type, size_t len) {
    size_t data = DS_HEAD + len;
    const uint8_t head[] = {(uint8_t)(data >> 8), (uint8_t)data,      (uint8_t)(tag >> 8),
                            (uint8_t)tag,         (uint8_t)algorithm, (uint8_t)type};
    memcpy(ds->octets, head, sizeof head);
    ds->len = sizeof head + len;
}

enum zermuita_openssl_error read_ds(struct text words, struct zermuita_openssl_ds_record *ds, bool *is_known) {
    enum { HEAD = 2 + DS_HEAD };
    unsigned long tag, algorithm, type;
    *ds = (struct zermuita_openssl_ds_record){0};
    *is_known = false;
    if (!next_number(&words, UINT16_MAX, &tag) || !next_number(&words, UINT8_MAX, &algorithm)
        || !next_number(&words, UINT8_MAX, &type)) {
        return ZERMUITA_OPENSSL_BAD_RECORD;
    }
    size_t len = 0, wanted = digest_len(type);
    *is_known = wanted > 0;
    if (!read_digits(words, ds->octets + HEAD, sizeof ds->octets - HEAD, &len) || len != wanted) {
        return ZERMUITA_OPENSSL_BAD_DIGEST;
    }
    put_head(ds, tag, algorithm, type, len);
    return ZERMUITA_OPENSSL_DONE;
}

enum zermuita_openssl_error zermuita_openssl_ds_from_text(const char *text, struct zermuita_openssl_ds_record *ds) {
    struct zermuita_openssl_ds_record read;
    bool is_known;
    enum zermuita_openssl_error error = read_ds((struct text){text, strlen(text)}, &read, &is_known);
    if (error == ZERMUITA_OPENSSL_DONE) {
        *ds = read;
    }
    return error;
}

/* The tag of a key (RFC 4034, appendix B). */
static unsigned long key_tag(struct zermuita_octets dnskey) {
    unsigned long sum = 0;
    for (size_t i = 0; i < dnskey.len; i++) {
        sum += i % 2 == 0 ? (unsigned long)dnskey.data[i] << 8 : dnskey.data[i];
    }
    return (sum + (sum >> 16)) & 0xFFFF;
}

/* A name in wire form in lower case, as it is digested. */
static void lower_name(struct zermuita_octets zone, uint8_t *out) {
    for (size_t i = 0; i < zone.len; i++) {
        out[i] = (uint8_t)lowered((char)zone.data[i]);
    }
}

/* The digest of a name and a key (RFC 4034, 5.1.4). False if memory runs out. */
static bool digest_key(struct zermuita_octets zone, struct zermuita_octets dnskey, const EVP_MD *digest, uint8_t *out) {
    uint8_t name[255];
    EVP_MD_CTX *context = EVP_MD_CTX_new();
    lower_name(zone, name);
    bool is_made = context != NULL && EVP_DigestInit_ex(context, digest, NULL) == 1 && EVP_DigestUpdate(context, name, zone.len) == 1
                   && EVP_DigestUpdate(context, dnskey.data, dnskey.len) == 1 && EVP_DigestFinal_ex(context, out, NULL) == 1;
    EVP_MD_CTX_free(context);
    ERR_clear_error();
    return is_made;
}

/* Whether the data of a DNSKEY record are those of a zone's key that may be trusted. */
static bool is_zone_key(struct zermuita_octets dnskey) {
    return dnskey.len > DNSKEY_HEAD && (zermuita_number(dnskey.data, 2) & ZONE_FLAG) != 0 && dnskey.data[2] == DNSKEY_PROTOCOL;
}

enum zermuita_openssl_error zermuita_openssl_ds_from_key(struct zermuita_octets zone, struct zermuita_octets dnskey,
                                                         uint8_t digest_type, struct zermuita_openssl_ds_record *ds) {
    struct zermuita_octets rest = zone, name;
    struct zermuita_openssl_ds_record made = {0};
    bool is_long = digest_type == SHA384_DIGEST;
    if (!zermuita_octets_are(&rest) || !zermuita_next_name(&rest, &name) || rest.len != 0) {
        return ZERMUITA_OPENSSL_BAD_NAME;
    }
    if (!is_long && digest_type != SHA256_DIGEST) {
        return ZERMUITA_OPENSSL_BAD_DIGEST;
    }
    if (!is_zone_key(dnskey)) {
        return ZERMUITA_OPENSSL_BAD_ZONE_KEY;
    }
    put_head(&made, key_tag(dnskey), dnskey.data[3], digest_type, digest_len(digest_type));
    if (!digest_key(name, dnskey, is_long ? EVP_sha384() : EVP_sha256(), made.octets + 2 + DS_HEAD)) {
        return ZERMUITA_OPENSSL_TEXT_MEMORY;
    }
    *ds = made;
    return ZERMUITA_OPENSSL_DONE;
}

static int value_of(char letter) {
    static const char alphabet[] = "ABCDEFGHIJKLMNOPQRSTUVWXYZabcdefghijklmnopqrstuvwxyz0123456789+/";
    const char *at = letter == 0 ? NULL : strchr(alphabet, letter);
    return at == NULL ? -1 : (int)(at - alphabet);
}

/* The bytes of all words, which are base64 (RFC 4648, 4) with its padding. False if they are not, or too many. */
static bool read_base64(struct text words, uint8_t *out, size_t room, size_t *len) {
    uint32_t bits = 0;
    size_t letters = 0, padding = 0;
    for (struct text word; next_word(&words, &word);) {
        for (size_t i = 0; i < word.len; i++, letters++) {
            bool is_padding = word.data[i] == '=';
            int value = is_padding ? 0 : value_of(word.data[i]);
            padding += is_padding;
            if (value < 0 || (padding > 0 && !is_padding) || padding > 2 || letters / 4 * 3 + 3 > room) {
                return false;
            }
            bits = bits << 6 | (uint32_t)value;
            if (letters % 4 == 3) {
                uint8_t *group = out + letters / 4 * 3;
                group[0] = (uint8_t)(bits >> 16);
                group[1] = (uint8_t)(bits >> 8);
                group[2] = (uint8_t)bits;
            }
        }
    }
    *len = letters / 4 * 3 - padding;
    return letters > 0 && letters % 4 == 0;
}

/* The DS record of a DNSKEY record's words. A revoked key does not count. */
static enum zermuita_openssl_error read_dnskey(struct text words, struct record *record) {
    uint8_t data[MOST_DNSKEY];
    unsigned long flags, protocol, algorithm;
    size_t len = 0;
    if (!next_number(&words, UINT16_MAX, &flags) || !next_number(&words, UINT8_MAX, &protocol)
        || !next_number(&words, UINT8_MAX, &algorithm)) {
        return ZERMUITA_OPENSSL_BAD_RECORD;
    }
    if (!read_base64(words, data + DNSKEY_HEAD, sizeof data - DNSKEY_HEAD, &len)) {
        return ZERMUITA_OPENSSL_BAD_ZONE_KEY;
    }
    const uint8_t head[DNSKEY_HEAD] = {(uint8_t)(flags >> 8), (uint8_t)flags, (uint8_t)protocol, (uint8_t)algorithm};
    memcpy(data, head, sizeof head);
    record->counts = record->counts && (flags & REVOKE_FLAG) == 0;
    struct zermuita_octets zone = zermuita_openssl_name_octets(&record->owner), dnskey = {data, DNSKEY_HEAD + len};
    return zermuita_openssl_ds_from_key(zone, dnskey, SHA256_DIGEST, &record->ds);
}

static enum zermuita_openssl_error read_owner(struct text word, struct zermuita_openssl_name *owner) {
    /* A name of 255 bytes that are all escaped is shorter. */
    char text[ZERMUITA_OPENSSL_TEXT_ROOM];
    if (word.len >= sizeof text) {
        return ZERMUITA_OPENSSL_BAD_NAME;
    }
    memcpy(text, word.data, word.len);
    text[word.len] = 0;
    return zermuita_openssl_name_from_text(text, owner);
}

/* Removes a TTL and a class, in either order, and the type behind them. */
static bool next_type(struct text *rest, struct text *type) {
    unsigned long ttl;
    bool has_ttl = false, has_class = false;
    while (next_word(rest, type)) {
        if (!has_class && is_word(*type, "IN")) {
            has_class = true;
        } else if (!has_ttl && read_number(*type, UINT32_MAX, &ttl)) {
            has_ttl = true;
        } else {
            return true;
        }
    }
    return false;
}

enum zermuita_openssl_error read_record(struct text line, int state, struct record *record) {
    struct text word;
    bool is_known = true;
    *record = (struct record){0};
    record->counts = state == VALID || state == MISSING;
    enum zermuita_openssl_error error = next_word(&line, &word) ? read_owner(word, &record->owner) : ZERMUITA_OPENSSL_BAD_RECORD;
    if (error != ZERMUITA_OPENSSL_DONE) {
        return error;
    }
    if (!next_type(&line, &word)) {
        return ZERMUITA_OPENSSL_BAD_RECORD;
    }
    if (is_word(word, "DNSKEY")) {
        return read_dnskey(line, record);
    }
    if (!is_word(word, "DS")) {
        return ZERMUITA_OPENSSL_BAD_RECORD;
    }
    error = read_ds(line, &record->ds, &is_known);
    record->counts = record->counts && is_known;
    return error == ZERMUITA_OPENSSL_BAD_DIGEST && !is_known ? ZERMUITA_OPENSSL_DONE : error;
}
