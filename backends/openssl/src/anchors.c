#include "buffer.h"
#include "record.h"

#include <stdio.h>
#include <stdlib.h>

enum { MOST_FILE = 1000000, MOST_LINE = 8192, DS_TYPE = 43, VALID = 2, UNKNOWN_STATE = 0 };

/* A zone and its DS set. */
struct anchor {
    struct zermuita_openssl_name zone;
    struct buffer ds;
};

struct zermuita_openssl_anchors {
    struct anchor *all;
    size_t len;
    size_t line; /* of the last refusal */
};

/* A text on its way. */
struct reading {
    struct text rest;
    size_t line;          /* the lines that were removed */
    char record[MOST_LINE]; /* a record that may have several lines, without comments and parentheses */
    size_t len;
    int state; /* that its comment says */
};

struct zermuita_openssl_anchors *zermuita_openssl_anchors_new(void) {
    return calloc(1, sizeof(struct zermuita_openssl_anchors));
}

static void empty(struct zermuita_openssl_anchors *anchors) {
    for (size_t i = 0; i < anchors->len; i++) {
        buffer_free(&anchors->all[i].ds);
    }
    free(anchors->all);
    *anchors = (struct zermuita_openssl_anchors){0};
}

void zermuita_openssl_anchors_free(struct zermuita_openssl_anchors *anchors) {
    if (anchors != NULL) {
        empty(anchors);
        free(anchors);
    }
}

size_t zermuita_openssl_anchors_line(const struct zermuita_openssl_anchors *anchors) {
    return anchors->line;
}

static uint8_t lowered(uint8_t octet) {
    return octet >= 'A' && octet <= 'Z' ? (uint8_t)(octet + ('a' - 'A')) : octet;
}

/* Whether names in wire form are the same in any case. */
static bool are_same(struct zermuita_octets one, struct zermuita_octets other) {
    bool are = one.len == other.len;
    for (size_t i = 0; are && i < one.len; i++) {
        are = lowered(one.data[i]) == lowered(other.data[i]);
    }
    return are;
}

/* The anchor of a zone; null if there is none. */
static struct anchor *find(const struct zermuita_openssl_anchors *anchors, struct zermuita_octets zone) {
    for (size_t i = 0; i < anchors->len; i++) {
        if (are_same(zermuita_openssl_name_octets(&anchors->all[i].zone), zone)) {
            return &anchors->all[i];
        }
    }
    return NULL;
}

/* The anchor of a zone, which is made if there is none; null if memory runs out. */
static struct anchor *found_or_made(struct zermuita_openssl_anchors *anchors, const struct zermuita_openssl_name *zone) {
    struct anchor *found = find(anchors, zermuita_openssl_name_octets(zone));
    if (found != NULL) {
        return found;
    }
    struct anchor *all = realloc(anchors->all, (anchors->len + 1) * sizeof *all);
    if (all == NULL) {
        return NULL;
    }
    anchors->all = all;
    all[anchors->len] = (struct anchor){.zone = *zone};
    return &all[anchors->len++];
}

static bool has(const struct buffer *set, struct zermuita_octets data) {
    struct zermuita_octets rest = octets_of(set), its;
    while (zermuita_next_record(&rest, &its)) {
        if (its.len == data.len && memcmp(its.data, data.data, data.len) == 0) {
            return true;
        }
    }
    return false;
}

/* Adds a DS record to a zone's, if it is not there. */
static bool add(struct zermuita_openssl_anchors *anchors, const struct zermuita_openssl_name *zone, struct zermuita_octets data) {
    const uint8_t head[] = {(uint8_t)(data.len >> 8), (uint8_t)data.len};
    struct anchor *anchor = found_or_made(anchors, zone);
    if (anchor == NULL || !buffer_reserve(&anchor->ds, anchor->ds.len + sizeof head + data.len)) {
        return false;
    }
    if (has(&anchor->ds, data)) {
        return true;
    }
    return buffer_append(&anchor->ds, (struct zermuita_octets){head, sizeof head}) && buffer_append(&anchor->ds, data);
}

/* Adds all of others. */
static bool add_all(struct zermuita_openssl_anchors *anchors, const struct zermuita_openssl_anchors *others) {
    for (size_t i = 0; i < others->len; i++) {
        struct zermuita_octets rest = octets_of(&others->all[i].ds), data;
        while (zermuita_next_record(&rest, &data)) {
            if (!add(anchors, &others->all[i].zone, data)) {
                return false;
            }
        }
    }
    return true;
}

/* Removes a line. False if there is none. */
static bool next_line(struct reading *reading, struct text *line) {
    if (reading->rest.len == 0) {
        return false;
    }
    const char *end = memchr(reading->rest.data, '\n', reading->rest.len);
    size_t len = end == NULL ? reading->rest.len : (size_t)(end - reading->rest.data);
    size_t whole = end == NULL ? len : len + 1;
    *line = (struct text){reading->rest.data, len};
    reading->rest = (struct text){reading->rest.data + whole, reading->rest.len - whole};
    reading->line++;
    return true;
}

/* The state of RFC 5011 in a comment, as unbound writes it, as in ";;state=2 [  VALID  ]". One that is not known is no trust. */
static int state_of(struct text comment) {
    static const char key[] = "state=";
    for (size_t i = 0; i + sizeof key <= comment.len; i++) {
        if (memcmp(comment.data + i, key, sizeof key - 1) == 0) {
            char digit = comment.data[i + sizeof key - 1];
            return digit >= '0' && digit <= '9' ? digit - '0' : UNKNOWN_STATE;
        }
    }
    return VALID;
}

/* Appends a line to a record, without its comment and parentheses; `depth` counts these. False if it is too long or they do not fit. */
static bool append_line(struct reading *reading, struct text line, int *depth) {
    for (size_t i = 0; i < line.len; i++) {
        char letter = line.data[i];
        if (letter == ';') {
            reading->state = state_of((struct text){line.data + i, line.len - i});
            break;
        }
        *depth += (letter == '(') - (letter == ')');
        if (*depth < 0 || *depth > 1 || letter == 0 || reading->len + 1 >= MOST_LINE) {
            return false;
        }
        reading->record[reading->len++] = (char)(letter == '(' || letter == ')' ? ' ' : letter);
    }
    if (reading->len == MOST_LINE) {
        return false;
    }
    reading->record[reading->len++] = ' ';
    return true;
}

/* Removes a record with its lines, which may be empty. `is_whole` is false if they cannot be one. */
static bool next_record_text(struct reading *reading, bool *is_whole) {
    struct text line;
    int depth = 0;
    reading->len = 0;
    reading->state = VALID;
    *is_whole = next_line(reading, &line);
    if (!*is_whole) {
        return false;
    }
    *is_whole = append_line(reading, line, &depth);
    while (*is_whole && depth > 0) {
        *is_whole = next_line(reading, &line) && append_line(reading, line, &depth);
    }
    return true;
}

/* Whether a record's text is a directive that changes nothing: a TTL, or the root as origin. */
static bool is_directive(struct text text) {
    struct text word, value;
    bool has_value = next_word(&text, &word) && next_word(&text, &value);
    return has_value && (is_word(word, "$TTL") || (is_word(word, "$ORIGIN") && is_word(value, ".")));
}

static bool is_empty(struct text text) {
    struct text word;
    return !next_word(&text, &word);
}

/* Adds what a record's text has. */
static enum zermuita_openssl_error take_record(const struct reading *reading, struct zermuita_openssl_anchors *anchors) {
    struct text text = {reading->record, reading->len};
    struct record record;
    if (is_empty(text) || is_directive(text)) {
        return ZERMUITA_OPENSSL_DONE;
    }
    enum zermuita_openssl_error error = read_record(text, reading->state, &record);
    if (error != ZERMUITA_OPENSSL_DONE || !record.counts) {
        return error;
    }
    struct zermuita_octets data = {record.ds.octets + 2, record.ds.len - 2};
    return add(anchors, &record.owner, data) ? ZERMUITA_OPENSSL_DONE : ZERMUITA_OPENSSL_TEXT_MEMORY;
}

/* Whether a line says that all keys of an autotrust file are revoked. */
static bool says_revoked(struct text line) {
    static const char mark[] = ";;REVOKED";
    return line.len >= sizeof mark - 1 && memcmp(line.data, mark, sizeof mark - 1) == 0;
}

static bool is_revoked(struct text text) {
    struct reading reading = {.rest = text};
    for (struct text line; next_line(&reading, &line);) {
        if (says_revoked(line)) {
            return true;
        }
    }
    return false;
}

/* Reads all records of a text. */
static enum zermuita_openssl_error read_all(struct reading *reading, struct zermuita_openssl_anchors *anchors) {
    bool is_whole;
    while (next_record_text(reading, &is_whole)) {
        enum zermuita_openssl_error error = is_whole ? take_record(reading, anchors) : ZERMUITA_OPENSSL_BAD_RECORD;
        if (error != ZERMUITA_OPENSSL_DONE) {
            return error;
        }
    }
    reading->line = 0;
    return anchors->len > 0 ? ZERMUITA_OPENSSL_DONE : ZERMUITA_OPENSSL_NO_ANCHOR;
}

/* A copy of anchors, so that a refused text changes nothing. */
static bool copy(const struct zermuita_openssl_anchors *anchors, struct zermuita_openssl_anchors *made) {
    *made = (struct zermuita_openssl_anchors){0};
    if (!add_all(made, anchors)) {
        empty(made);
        return false;
    }
    return true;
}

enum zermuita_openssl_error zermuita_openssl_anchors_add(struct zermuita_openssl_anchors *anchors, const char *text, size_t len) {
    struct reading reading = {.rest = {text, len}};
    struct zermuita_openssl_anchors added = {0}, all = {0};
    anchors->line = 0;
    if (is_revoked(reading.rest)) {
        return ZERMUITA_OPENSSL_REVOKED;
    }
    enum zermuita_openssl_error error = read_all(&reading, &added);
    if (error == ZERMUITA_OPENSSL_DONE && !(copy(anchors, &all) && add_all(&all, &added))) {
        error = ZERMUITA_OPENSSL_TEXT_MEMORY;
    }
    empty(&added);
    if (error != ZERMUITA_OPENSSL_DONE) {
        empty(&all);
        anchors->line = reading.line;
        return error;
    }
    empty(anchors);
    *anchors = all;
    return ZERMUITA_OPENSSL_DONE;
}

/* Reads a file to its end. */
static enum zermuita_openssl_error read_file(FILE *file, struct buffer *text) {
    size_t len = 1;
    while (len > 0 && text->len <= MOST_FILE) {
        if (!buffer_reserve(text, text->len + 4096)) {
            return ZERMUITA_OPENSSL_TEXT_MEMORY;
        }
        len = fread(text->data + text->len, 1, text->room - text->len, file);
        text->len += len;
    }
    return ferror(file) != 0 || text->len > MOST_FILE ? ZERMUITA_OPENSSL_NOT_READ : ZERMUITA_OPENSSL_DONE;
}

enum zermuita_openssl_error zermuita_openssl_anchors_read(struct zermuita_openssl_anchors *anchors, const char *path) {
    struct buffer text = {0};
    FILE *file = fopen(path, "rb");
    anchors->line = 0;
    if (file == NULL) {
        return ZERMUITA_OPENSSL_NOT_READ;
    }
    enum zermuita_openssl_error error = read_file(file, &text);
    if (error == ZERMUITA_OPENSSL_DONE) {
        error = zermuita_openssl_anchors_add(anchors, (const char *)text.data, text.len);
    }
    fclose(file);
    buffer_free(&text);
    return error;
}

/* A name without its first label. */
static struct zermuita_octets above(struct zermuita_octets name) {
    return (struct zermuita_octets){name.data + 1 + name.data[0], name.len - 1 - name.data[0]};
}

int zermuita_openssl_anchor(const struct zermuita_openssl_anchors *anchors, struct zermuita_octets name, uint16_t rtype,
                            struct zermuita_octets *zone, struct zermuita_octets *ds) {
    struct zermuita_octets rest = name, at;
    if (!zermuita_octets_are(&rest) || !zermuita_next_name(&rest, &at) || rest.len != 0) {
        return 0;
    }
    if (rtype == DS_TYPE && at.len > 1) {
        at = above(at);
    } else if (rtype == DS_TYPE) {
        return 0;
    }
    const struct anchor *found = find(anchors, at);
    while (found == NULL && at.len > 1) {
        at = above(at);
        found = find(anchors, at);
    }
    if (found == NULL) {
        return 0;
    }
    *zone = zermuita_openssl_name_octets(&found->zone);
    *ds = octets_of(&found->ds);
    return 1;
}

static const char *const texts[] = {
    [ZERMUITA_OPENSSL_DONE] = "ZERMUITA_OPENSSL_DONE: it is not refused",
    [ZERMUITA_OPENSSL_BAD_NAME] = "ZERMUITA_OPENSSL_BAD_NAME: a name is too long, or has an empty label or a wrong escape",
    [ZERMUITA_OPENSSL_BAD_RECORD] = "ZERMUITA_OPENSSL_BAD_RECORD: a line is not a DS or a DNSKEY record of class IN",
    [ZERMUITA_OPENSSL_BAD_DIGEST] =
        "ZERMUITA_OPENSSL_BAD_DIGEST: a digest does not have the length of its type, or is not in hexadecimal digits",
    [ZERMUITA_OPENSSL_BAD_ZONE_KEY] =
        "ZERMUITA_OPENSSL_BAD_ZONE_KEY: a key is not in base64, or it is no zone's key, or of another protocol than 3",
    [ZERMUITA_OPENSSL_NO_ANCHOR] = "ZERMUITA_OPENSSL_NO_ANCHOR: there is no record that counts",
    [ZERMUITA_OPENSSL_REVOKED] = "ZERMUITA_OPENSSL_REVOKED: all keys of the zone are revoked",
    [ZERMUITA_OPENSSL_NOT_READ] = "ZERMUITA_OPENSSL_NOT_READ: the file cannot be read, or has more than a million bytes",
    [ZERMUITA_OPENSSL_TEXT_MEMORY] = "ZERMUITA_OPENSSL_TEXT_MEMORY: memory ran out",
};

const char *zermuita_openssl_error_text(enum zermuita_openssl_error error) {
    return (size_t)error < sizeof texts / sizeof *texts ? texts[error] : "not an error of this library";
}
