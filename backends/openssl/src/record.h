/* DS records, and the records of trust anchors in the presentation form. */
#ifndef RECORD_H
#define RECORD_H

#include "zermuita_openssl.h"

#include <stdbool.h>

/* Text without a terminating zero. */
struct text {
    const char *data;
    size_t len;
};

/* A record of a trust anchor. */
struct record {
    struct zermuita_openssl_name owner;
    struct zermuita_openssl_ds_record ds;
    bool counts; /* it is trusted, and its digest is known */
};

/* Removes the first word from a text, up to a blank. False if there is none. */
bool next_word(struct text *rest, struct text *word);

/* Whether a word is a keyword, in any case. */
bool is_word(struct text word, const char *keyword);

/* The data of a DS record from its words. A digest of an unknown type is ZERMUITA_OPENSSL_BAD_DIGEST, and `is_known` false. */
enum zermuita_openssl_error read_ds(struct text words, struct zermuita_openssl_ds_record *ds, bool *is_known);

/*
 * A record of a line, parentheses taken out. `state` is that of RFC 5011 as unbound writes it behind its comment, or 2, VALID, if
 * there is none.
 */
enum zermuita_openssl_error read_record(struct text line, int state, struct record *record);

#endif
