/* Bytes that grow. A buffer that is all zeros is empty. */
#ifndef BUFFER_H
#define BUFFER_H

#include <stdbool.h>
#include <zermuita.h>

struct buffer {
    uint8_t *data;
    size_t len;
    size_t room;
};

/* Makes room for so many bytes in all. False, and nothing changed, if memory runs out. */
bool buffer_reserve(struct buffer *buffer, size_t room);

/* Appends bytes. False, and nothing changed, if memory runs out. */
bool buffer_append(struct buffer *buffer, struct zermuita_octets octets);

/* Removes so many bytes at a place. */
void buffer_cut(struct buffer *buffer, size_t at, size_t len);

void buffer_free(struct buffer *buffer);

static inline struct zermuita_octets octets_of(const struct buffer *buffer) {
    return (struct zermuita_octets){buffer->data, buffer->len};
}

#endif
