/* Octets that grow. */
#ifndef BUFFER_H
#define BUFFER_H

#include <stddef.h>
#include <stdint.h>

struct buffer {
    uint8_t *data;
    size_t len;
    size_t room;
};

/* Makes room for so many octets in all. Out of memory ends the program. */
void buffer_reserve(struct buffer *buffer, size_t room);

/* Puts octets at the end. */
void buffer_append(struct buffer *buffer, const uint8_t *octets, size_t len);

void buffer_free(struct buffer *buffer);

#endif
