#include "buffer.h"

#include <stdlib.h>

bool buffer_reserve(struct buffer *buffer, size_t room) {
    if (room <= buffer->room) {
        return true;
    }
    size_t more = buffer->room + buffer->room / 2;
    size_t wanted = room < more ? more : room;
    uint8_t *data = realloc(buffer->data, wanted);
    if (data == NULL) {
        return false;
    }
    buffer->data = data;
    buffer->room = wanted;
    return true;
}

bool buffer_append(struct buffer *buffer, struct zermuita_octets octets) {
    if (octets.len == 0) {
        return true;
    }
    if (octets.len > SIZE_MAX - buffer->len || !buffer_reserve(buffer, buffer->len + octets.len)) {
        return false;
    }
    memcpy(buffer->data + buffer->len, octets.data, octets.len);
    buffer->len += octets.len;
    return true;
}

void buffer_cut(struct buffer *buffer, size_t at, size_t len) {
    memmove(buffer->data + at, buffer->data + at + len, buffer->len - at - len);
    buffer->len -= len;
}

void buffer_free(struct buffer *buffer) {
    free(buffer->data);
    *buffer = (struct buffer){0};
}
