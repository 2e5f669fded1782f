#include "message.h"

/* Where names stand in data that are signed in lower case (RFC 4034, 6.2): behind so many octets and texts. */
struct form {
    uint16_t rtype;
    uint8_t before, texts, names;
};

static const struct form FORMS[] = {
    {2, 0, 0, 1},  {3, 0, 0, 1},  {4, 0, 0, 1},  {5, 0, 0, 1},  {6, 0, 0, 2},  {7, 0, 0, 1},  {8, 0, 0, 1},
    {9, 0, 0, 1},  {12, 0, 0, 1}, {14, 0, 0, 2}, {15, 2, 0, 1}, {17, 0, 0, 2}, {18, 2, 0, 1}, {21, 2, 0, 1},
    {26, 2, 0, 2}, {33, 6, 0, 1}, {35, 4, 3, 1}, {36, 2, 0, 1}, {39, 0, 0, 1},
};

static const struct form *form_of(uint16_t rtype) {
    static const struct form no_names;
    for (size_t i = 0; i < sizeof FORMS / sizeof *FORMS; i++) {
        if (FORMS[i].rtype == rtype) {
            return &FORMS[i];
        }
    }
    return &no_names;
}

/* The place behind what stands in front of the names of some data; 0 where it is not all there. */
static size_t names_at(struct octets all, size_t at, const struct form *form) {
    at += form->before;
    for (unsigned i = 0; i < form->texts; i++) {
        at = at < all.len ? at + 1 + all.data[at] : all.len + 1;
    }
    return at <= all.len ? at : 0;
}

/* Data that can't be read are written as they stand. */
static void write_data(struct written *to, const struct message *message, const struct record *record) {
    size_t begin = (size_t)(record->data.data - message->octets.data);
    struct octets all = {message->octets.data, begin + record->data.len};
    const struct form *form = form_of(record->rtype);
    struct written start = *to;
    size_t at = names_at(all, begin, form);
    if (at != 0) {
        write_octets(to, all.data + begin, at - begin);
    }
    for (unsigned i = 0; at != 0 && i < form->names; i++) {
        struct name name;
        at = read_name(all, at, &name);
        write_octets(to, name.octets, name.len);
    }
    if (at == 0) {
        *to = start;
        at = begin;
    }
    write_octets(to, all.data + at, all.len - at);
}

size_t begin_record(struct written *to, const struct record *record) {
    write_octets(to, record->owner.octets, record->owner.len);
    write16(to, record->rtype);
    write16(to, record->rclass);
    write16(to, record->ttl >> 16);
    write16(to, record->ttl & 0xffff);
    write16(to, 0);
    return to->len;
}

void end_record(struct written *to, size_t begin) {
    if (to->len <= to->room) {
        struct written length = {to->out + begin - 2, 0, 2};
        write16(&length, (unsigned)(to->len - begin));
    }
}

void write_in_full(struct written *to, const struct message *message, const struct record *record) {
    size_t begin = begin_record(to, record);
    write_data(to, message, record);
    end_record(to, begin);
}
