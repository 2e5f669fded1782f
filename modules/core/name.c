#include "message.h"

#include <ctype.h>
#include <stdio.h>

bool name_of_octets(struct octets octets, struct name *name) {
    size_t at = 0;
    if (octets.len == 0 || octets.len > NAME_ROOM) {
        return false;
    }
    while (at < octets.len && octets.data[at] != 0 && octets.data[at] < 0x40) {
        at += 1 + octets.data[at];
    }
    if (at + 1 != octets.len || octets.data[at] != 0) {
        return false;
    }
    name->len = octets.len;
    for (size_t i = 0; i < octets.len; i++) {
        name->octets[i] = (uint8_t)tolower(octets.data[i]); /* a length is below 64, and no capital letter */
    }
    return true;
}

bool name_of_text(const char *text, struct name *name) {
    name->len = 0;
    while (*text != 0 && strcmp(text, ".") != 0) {
        size_t label = strcspn(text, ".");
        if (label == 0 || label > 63 || name->len + label + 2 > NAME_ROOM || memchr(text, '\\', label) != NULL) {
            return false;
        }
        name->octets[name->len++] = (uint8_t)label;
        for (size_t i = 0; i < label; i++) {
            name->octets[name->len++] = (uint8_t)tolower((unsigned char)text[i]);
        }
        text += label + (text[label] == '.');
    }
    name->octets[name->len++] = 0;
    return true;
}

void name_text(const struct name *name, char text[TEXT_ROOM]) {
    size_t len = 0;
    for (size_t at = 0, left = 0; at + 1 < name->len; at++) {
        uint8_t it = name->octets[at];
        if (left == 0) {
            left = it;
            if (at > 0) {
                text[len++] = '.';
            }
            continue;
        }
        left--;
        if (isalnum(it) || it == '-' || it == '_' || it == '*') {
            text[len++] = (char)it;
        } else {
            len += (size_t)snprintf(text + len, TEXT_ROOM - len, "\\%03u", it);
        }
    }
    text[len++] = '.';
    text[len] = 0;
}

bool names_equal(const struct name *one, const struct name *other) {
    return one->len == other->len && memcmp(one->octets, other->octets, one->len) == 0;
}

size_t label_count(const struct name *name) {
    size_t count = 0;
    for (size_t at = 0; name->octets[at] != 0; at += 1 + name->octets[at]) {
        count++;
    }
    return count;
}

struct name last_labels(const struct name *name, size_t count) {
    struct name last;
    size_t at = 0;
    for (size_t all = label_count(name); all > count; all--) {
        at += 1 + name->octets[at];
    }
    last.len = name->len - at;
    memcpy(last.octets, name->octets + at, last.len);
    return last;
}

bool is_at_or_below(const struct name *name, const struct name *above) {
    size_t labels = label_count(above);
    if (label_count(name) < labels) {
        return false;
    }
    struct name last = last_labels(name, labels);
    return names_equal(&last, above);
}
