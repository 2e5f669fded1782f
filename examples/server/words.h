/* Numbers and names, as text has them. */
#ifndef WORDS_H
#define WORDS_H

#include <ctype.h>
#include <stdbool.h>
#include <stdint.h>
#include <stdlib.h>
#include <string.h>

enum { NAME_TEXT = 1024 }; /* room for the text of a name, of which each octet may take four characters */

/* A name in wire form. */
struct name {
    uint8_t octets[255];
    size_t len;
};

/* A number of at most so many octets, in digits alone. */
static bool read_number(const char *text, size_t width, uint64_t *number) {
    char *end;
    *number = strtoull(text, &end, 10);
    return isdigit((unsigned char)text[0]) && *end == 0 && strlen(text) <= 10 && *number >> (8 * width) == 0;
}

/* Takes an octet of a label off the front of a text: itself, or behind a backslash as it is or in three digits (RFC 1035, 5.1). */
static uint8_t next_octet(const char **text) {
    const char *at = *text;
    at += *at == '\\' && at[1] != 0;
    if (at != *text && isdigit((unsigned char)at[0]) && isdigit((unsigned char)at[1]) && isdigit((unsigned char)at[2])) {
        *text = at + 3;
        return (uint8_t)((at[0] - '0') * 100 + (at[1] - '0') * 10 + (at[2] - '0'));
    }
    *text = at + 1;
    return (uint8_t)*at;
}

/* Reads a name, each label behind its length. Its last dot may be missing. */
static bool read_name(const char *text, struct name *name) {
    size_t head = 0;
    *name = (struct name){.len = 1};
    text += strcmp(text, ".") == 0;
    while (*text != 0) {
        if (name->len == sizeof name->octets || name->octets[head] == (*text == '.' ? 0 : 63)) {
            return false;
        } else if (*text == '.') {
            head = name->len++;
            text++;
        } else {
            name->octets[name->len++] = next_octet(&text);
            name->octets[head]++;
        }
    }
    if (name->octets[head] > 0 && name->len < sizeof name->octets) {
        head = name->len++;
    }
    return name->octets[head] == 0;
}

#endif
