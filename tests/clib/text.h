/* Octets of text. */
#ifndef TEXT_H
#define TEXT_H

#include "buffer.h"

#include <stdbool.h>

/* The octets of hexadecimal digits in lower case, of "-" none. False where the digits are none. */
bool octets_of_hex(const char *digits, struct buffer *octets);

void print_hex(const uint8_t *octets, size_t len);

#endif
