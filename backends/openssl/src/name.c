#include "zermuita_openssl.h"

#include <stdbool.h>

enum { MOST_LABEL = 63, MOST_NAME = 255 };

static bool is_digit(char letter) {
    return letter >= '0' && letter <= '9';
}

/* Reads a byte of a label, with its escape. False if the escape is wrong. */
static bool next_octet(const char **text, uint8_t *octet) {
    const char *at = *text;
    if (at[0] != '\\') {
        *octet = (uint8_t)at[0];
        *text = at + 1;
        return true;
    }
    if (!is_digit(at[1])) {
        *octet = (uint8_t)at[1];
        *text = at + 2;
        return at[1] != 0;
    }
    if (!is_digit(at[2]) || !is_digit(at[3])) {
        return false;
    }
    int number = (at[1] - '0') * 100 + (at[2] - '0') * 10 + (at[3] - '0');
    *octet = (uint8_t)number;
    *text = at + 4;
    return number <= UINT8_MAX;
}

/* Reads a label, which is not empty, behind those that a name has. */
static bool take_label(const char **text, struct zermuita_openssl_name *name) {
    size_t head = name->len, len = 0;
    while (**text != 0 && **text != '.') {
        /* Room for the head, this byte, and the root's label. */
        if (len == MOST_LABEL || head + 1 + len + 1 >= MOST_NAME) {
            return false;
        }
        if (!next_octet(text, &name->octets[head + 1 + len])) {
            return false;
        }
        len++;
    }
    name->octets[head] = (uint8_t)len;
    name->len += 1 + len;
    return len > 0;
}

enum zermuita_openssl_error zermuita_openssl_name_from_text(const char *text, struct zermuita_openssl_name *name) {
    struct zermuita_openssl_name read = {0};
    if (strcmp(text, ".") == 0) {
        text++;
    } else if (*text == 0) {
        return ZERMUITA_OPENSSL_BAD_NAME;
    }
    while (*text != 0) {
        if (!take_label(&text, &read)) {
            return ZERMUITA_OPENSSL_BAD_NAME;
        }
        text += *text == '.';
    }
    read.octets[read.len++] = 0;
    *name = read;
    return ZERMUITA_OPENSSL_DONE;
}

struct zermuita_octets zermuita_openssl_name_octets(const struct zermuita_openssl_name *name) {
    return (struct zermuita_octets){name->octets, name->len};
}

/* Writes a byte of a label, and returns behind it. */
static char *put_octet(char *text, uint8_t octet) {
    if (octet < ' ' || octet > '~') {
        *text++ = '\\';
        *text++ = (char)('0' + octet / 100);
        *text++ = (char)('0' + octet / 10 % 10);
        *text++ = (char)('0' + octet % 10);
        return text;
    }
    if (octet == '.' || octet == '\\' || octet == ' ') {
        *text++ = '\\';
    }
    *text++ = (char)octet;
    return text;
}

size_t zermuita_openssl_name_to_text(struct zermuita_octets name, char *text) {
    struct zermuita_octets rest = name, whole, label;
    char *at = text;
    bool is_name = zermuita_octets_are(&rest) && zermuita_next_name(&rest, &whole) && rest.len == 0;
    while (is_name && zermuita_next_part(&whole, 1, &label) && label.len > 0) {
        for (size_t i = 0; i < label.len; i++) {
            at = put_octet(at, label.data[i]);
        }
        *at++ = '.';
    }
    if (is_name && at == text) {
        *at++ = '.';
    }
    *at = 0;
    return (size_t)(at - text);
}
