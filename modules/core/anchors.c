#include "anchors.h"

#include "judge.h"

#include <ctype.h>
#include <stdio.h>
#include <stdlib.h>
#include <strings.h>

enum { LINE_ROOM = 2048 };

static struct anchor *anchor_of(struct anchors *anchors, const struct name *apex) {
    for (size_t i = 0; i < anchors->count; i++) {
        if (names_equal(&anchors->of[i].apex, apex)) {
            return &anchors->of[i];
        }
    }
    if (anchors->count == MOST_ANCHORS) {
        return NULL;
    }
    struct anchor *anchor = &anchors->of[anchors->count++];
    anchor->apex = *apex;
    anchor->len = 0;
    return anchor;
}

static bool read_number(char **rest, unsigned long most, unsigned long *number) {
    char *word = strsep(rest, " "), *end;
    *number = word != NULL ? strtoul(word, &end, 10) : 0;
    return word != NULL && *word != 0 && *end == 0 && *number <= most;
}

/* Reads the data of a DS record: tag, algorithm, digest type, and the digest in words of hexadecimal digits. */
static size_t read_ds(char *rest, uint8_t *data, size_t room) {
    unsigned long tag, algorithm, digest_type;
    size_t len = 4, digits = 0;
    if (!read_number(&rest, 65535, &tag) || !read_number(&rest, 255, &algorithm) || !read_number(&rest, 255, &digest_type)) {
        return 0;
    }
    memcpy(data, (uint8_t[]){(uint8_t)(tag >> 8), (uint8_t)tag, (uint8_t)algorithm, (uint8_t)digest_type}, 4);
    for (const char *at = rest; at != NULL && *at != 0; at++) {
        if (*at == ' ') {
            continue;
        }
        if (!isxdigit((unsigned char)*at) || len == room) {
            return 0;
        }
        unsigned digit =
            isdigit((unsigned char)*at) ? (unsigned)(*at - '0') : (unsigned)(tolower((unsigned char)*at) - 'a' + 10);
        data[len] = (uint8_t)(digits % 2 == 0 ? digit << 4 : data[len] | digit);
        len += digits++ % 2;
    }
    return digits % 2 == 0 && len > 4 ? len : 0;
}

/* Reads a line: a name, perhaps a TTL and a class, DS and its data. */
static bool read_line(char *line, struct anchors *anchors) {
    struct name apex;
    uint8_t data[100];
    char *rest = line, *word = strsep(&rest, " ");
    if (!name_of_text(word, &apex)) {
        return false;
    }
    do {
        word = strsep(&rest, " ");
    } while (word != NULL && (*word == 0 || strspn(word, "0123456789") == strlen(word) || strcasecmp(word, "IN") == 0));
    size_t len = word != NULL && strcasecmp(word, "DS") == 0 && rest != NULL ? read_ds(rest, data, sizeof data) : 0;
    if (len == 0) {
        return false;
    }
    if (!is_ds_known((struct octets){data, len})) {
        return true;
    }
    struct anchor *anchor = anchor_of(anchors, &apex);
    if (anchor == NULL || anchor->len + 2 + len > ANCHOR_ROOM) {
        return false;
    }
    anchor->ds[anchor->len++] = (uint8_t)(len >> 8);
    anchor->ds[anchor->len++] = (uint8_t)len;
    memcpy(anchor->ds + anchor->len, data, len);
    anchor->len += len;
    return true;
}

/* Puts one space where there are others, and cuts off what is behind a semicolon. */
static void tidy(char *line) {
    size_t len = 0;
    for (const char *at = line; *at != 0 && *at != ';'; at++) {
        char it = isspace((unsigned char)*at) ? ' ' : *at;
        if (it != ' ' || (len > 0 && line[len - 1] != ' ')) {
            line[len++] = it;
        }
    }
    line[len - (len > 0 && line[len - 1] == ' ')] = 0;
}

bool read_anchors(const char *path, struct anchors *anchors) {
    char line[LINE_ROOM];
    FILE *file = fopen(path, "r");
    if (file == NULL) {
        perror(path);
        return false;
    }
    unsigned number = 0;
    bool is_read = true;
    while (is_read && fgets(line, sizeof line, file) != NULL) {
        number++;
        tidy(line);
        is_read = *line == 0 || read_line(line, anchors);
    }
    if (ferror(file)) {
        perror(path);
        fclose(file);
        return false;
    }
    fclose(file);
    if (!is_read) {
        fprintf(stderr, "%s: line %u is not a DS record\n", path, number);
    } else if (anchors->count == 0) {
        fprintf(stderr, "%s: no DS record of a known algorithm and digest type\n", path);
    }
    return is_read && anchors->count > 0;
}

const struct anchor *anchor_above(const struct anchors *anchors, const struct name *name) {
    const struct anchor *next = NULL;
    for (size_t i = 0; i < anchors->count; i++) {
        const struct anchor *it = &anchors->of[i];
        if (is_at_or_below(name, &it->apex) && (next == NULL || it->apex.len > next->apex.len)) {
            next = it;
        }
    }
    return next;
}
