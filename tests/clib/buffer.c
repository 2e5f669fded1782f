#include "buffer.h"

#include <stdio.h>
#include <stdlib.h>
#include <string.h>

void buffer_reserve(struct buffer *buffer, size_t room) {
    if (room <= buffer->room && buffer->data != NULL) {
        return;
    }
    size_t more = 2 * buffer->room + 64;
    room = room < more ? more : room;
    uint8_t *data = realloc(buffer->data, room);
    if (data == NULL) {
        fputs("out of memory\n", stderr);
        exit(2);
    }
    buffer->data = data;
    buffer->room = room;
}

void buffer_append(struct buffer *buffer, const uint8_t *octets, size_t len) {
    buffer_reserve(buffer, buffer->len + len);
    if (len > 0) {
        memcpy(buffer->data + buffer->len, octets, len);
    }
    buffer->len += len;
}

void buffer_free(struct buffer *buffer) {
    free(buffer->data);
    *buffer = (struct buffer){0};
}
