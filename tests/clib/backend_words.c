/*
 * Calls the backend for each line, and prints what it says.
 *
 * - `signature DNSKEY OCTETS SIGNATURE`: the number of the check's result
 * - `name TEXT`: the error; without one the wire form, and its text
 * - `ds TEXT`, `key ZONE DNSKEY DIGEST-TYPE`: the error; without one the record as a case has it
 * - `anchors FILE`: the error and its line; without one each zone of the lines `of`
 * - `of TEXT TYPE`: the zone and the DS set of the anchor that is the lowest for the name
 * - `query TEXT TYPE ID`: the query
 * - `security`: that of all replies up to 63
 */
#include "buffer.h"
#include "text.h"

#include <stdio.h>
#include <stdlib.h>
#include <zermuita_openssl.h>

static struct zermuita_openssl *checker;
static struct zermuita_openssl_anchors *anchors;

static struct buffer octets_of_word(char **rest) {
    struct buffer octets = {0};
    char *word = strsep(rest, " ");
    if (word == NULL || !octets_of_hex(word, &octets)) {
        fputs("octets that cannot be read\n", stderr);
        exit(2);
    }
    return octets;
}

static struct zermuita_octets view(const struct buffer *buffer) {
    return (struct zermuita_octets){buffer->data, buffer->len};
}

static void check_signature(char *rest) {
    struct buffer dnskey = octets_of_word(&rest), octets = octets_of_word(&rest), signature = octets_of_word(&rest);
    struct zermuita_ask ask = {
        .dnskey = view(&dnskey),
        .key = {dnskey.data + 4, dnskey.len - 4},
        .octets = view(&octets),
        .signature = view(&signature),
        .algorithm = dnskey.data[3],
    };
    printf("%d\n", (int)zermuita_openssl_check(checker, &ask));
    buffer_free(&dnskey);
    buffer_free(&octets);
    buffer_free(&signature);
}

static void print_octets(struct zermuita_octets octets) {
    print_hex(octets.data, octets.len);
}

static void read_name(const char *text) {
    struct zermuita_openssl_name name;
    char written[ZERMUITA_OPENSSL_TEXT_ROOM];
    enum zermuita_openssl_error error = zermuita_openssl_name_from_text(text, &name);
    printf("%d", (int)error);
    if (error == ZERMUITA_OPENSSL_DONE) {
        size_t len = zermuita_openssl_name_to_text(zermuita_openssl_name_octets(&name), written);
        putchar(' ');
        print_octets(zermuita_openssl_name_octets(&name));
        printf(" %s%s", written, len == strlen(written) ? "" : " of another length");
    }
    puts("");
}

static void print_ds(enum zermuita_openssl_error error, const struct zermuita_openssl_ds_record *ds) {
    printf("%d ", (int)error);
    if (error == ZERMUITA_OPENSSL_DONE) {
        print_hex(ds->octets, ds->len);
    }
    puts("");
}

static void read_ds(const char *text) {
    struct zermuita_openssl_ds_record ds;
    print_ds(zermuita_openssl_ds_from_text(text, &ds), &ds);
}

static void digest_key(char *rest) {
    struct buffer zone = octets_of_word(&rest), dnskey = octets_of_word(&rest);
    struct zermuita_openssl_ds_record ds;
    uint8_t type = (uint8_t)strtoul(rest, NULL, 10);
    print_ds(zermuita_openssl_ds_from_key(view(&zone), view(&dnskey), type, &ds), &ds);
    buffer_free(&zone);
    buffer_free(&dnskey);
}

static void read_anchors(const char *path) {
    enum zermuita_openssl_error error = zermuita_openssl_anchors_read(anchors, path);
    printf("%d %zu\n", (int)error, zermuita_openssl_anchors_line(anchors));
}

static void find_anchor(char *rest) {
    struct zermuita_openssl_name name;
    struct zermuita_octets zone, ds;
    char *text = strsep(&rest, " ");
    uint16_t rtype = (uint16_t)strtoul(rest, NULL, 10);
    if (zermuita_openssl_name_from_text(text, &name) == ZERMUITA_OPENSSL_DONE
        && zermuita_openssl_anchor(anchors, zermuita_openssl_name_octets(&name), rtype, &zone, &ds)) {
        print_octets(zone);
        putchar(' ');
        print_octets(ds);
    }
    puts("");
}

static void write_query(char *rest) {
    struct zermuita_openssl_name name;
    uint8_t query[ZERMUITA_OPENSSL_QUERY_ROOM];
    char *text = strsep(&rest, " "), *rtype = strsep(&rest, " ");
    if (zermuita_openssl_name_from_text(text, &name) == ZERMUITA_OPENSSL_DONE) {
        struct zermuita_wanted wanted = {.name = zermuita_openssl_name_octets(&name), .rtype = (uint16_t)strtoul(rtype, NULL, 10)};
        print_hex(query, zermuita_openssl_query(&wanted, (uint16_t)strtoul(rest, NULL, 10), query));
    }
    puts("");
}

static void print_securities(void) {
    for (int reply = 0; reply < 64; reply++) {
        printf("%d", (int)zermuita_openssl_security_of((enum zermuita_reply)reply));
    }
    puts("");
}

static void print_texts(void) {
    for (int i = 0; i < 10; i++) {
        printf("%s|%s\n", zermuita_openssl_checked_text((enum zermuita_openssl_checked)i),
               zermuita_openssl_error_text((enum zermuita_openssl_error)i));
    }
}

static void do_line(char *line) {
    char *rest = line, *what = strsep(&rest, " ");
    if (strcmp(what, "signature") == 0) {
        check_signature(rest);
    } else if (strcmp(what, "name") == 0) {
        read_name(rest);
    } else if (strcmp(what, "ds") == 0) {
        read_ds(rest);
    } else if (strcmp(what, "key") == 0) {
        digest_key(rest);
    } else if (strcmp(what, "anchors") == 0) {
        read_anchors(rest);
    } else if (strcmp(what, "of") == 0) {
        find_anchor(rest);
    } else if (strcmp(what, "query") == 0) {
        write_query(rest);
    } else if (strcmp(what, "texts") == 0) {
        print_texts();
    } else {
        print_securities();
    }
}

int main(void) {
    char *line = NULL;
    size_t room = 0;
    checker = zermuita_openssl_new_in(NULL, NULL, 2);
    anchors = zermuita_openssl_anchors_new();
    for (ssize_t len; (len = getline(&line, &room, stdin)) > 0;) {
        line[len - 1] = line[len - 1] == '\n' ? 0 : line[len - 1];
        do_line(line);
    }
    free(line);
    zermuita_openssl_anchors_free(anchors);
    zermuita_openssl_free(checker);
    return 0;
}
