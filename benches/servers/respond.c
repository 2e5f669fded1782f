/*
 * Opens a zone from its journal and answers questions that standard input brings, a word and a query in hexadecimal digits a line. Each
 * is answered once, then four times with signatures that are asked for, in two calls, then four times with signatures at hand, in one
 * call; callgrind writes a profile of the latter two each, named by the word and `asked` or `had`. Signatures are stand-ins.
 *
 * usage: respond JOURNAL MOMENT
 */
#include <stdio.h>
#include <stdlib.h>
#include <valgrind/callgrind.h>
#include <zermuita_zone.h>

enum { ROOM = 1 << 20, TIMES = 4 };

static uint8_t out[ROOM], made[ROOM];

static uint8_t *read_file(const char *path, size_t *len) {
    FILE *file = fopen(path, "rb");
    if (file == NULL || fseek(file, 0, SEEK_END) != 0) {
        exit(EXIT_FAILURE);
    }
    *len = (size_t)ftell(file);
    rewind(file);
    uint8_t *octets = malloc(*len + 1);
    if (octets == NULL || fread(octets, 1, *len, file) != *len) {
        exit(EXIT_FAILURE);
    }
    fclose(file);
    return octets;
}

static size_t read_digits(const char *digits, uint8_t *octets, size_t room) {
    size_t len = 0;
    for (unsigned octet; len < room && sscanf(digits + 2 * len, "%2x", &octet) == 1; len++) {
        octets[len] = (uint8_t)octet;
    }
    return len;
}

/* One response, for which signatures are asked if they are not at hand. */
static void respond(struct zermuita_zone *zone, struct zermuita_request *request, struct zermuita_zone_report *report) {
    uint32_t reply = zermuita_zone_respond(zone, request, out, sizeof out, report);
    if (reply == ZERMUITA_ZONE_SIGN) {
        memcpy(made, out, report->len);
        request->made = (struct zermuita_octets){made, report->len};
        reply = zermuita_zone_respond(zone, request, out, sizeof out, report);
    }
    if (reply != ZERMUITA_ZONE_RESPONSE) {
        fprintf(stderr, "%s\n", zermuita_zone_strerror(reply));
        exit(EXIT_FAILURE);
    }
}

/* Counts responses, with the signatures at hand or not. */
static void count(struct zermuita_zone *zone, struct zermuita_request *request, struct zermuita_zone_report *report, const char *name,
                  int has_signatures) {
    CALLGRIND_ZERO_STATS;
    for (int i = 0; i < TIMES; i++) {
        if (!has_signatures) {
            request->made = (struct zermuita_octets){NULL, 0};
        }
        respond(zone, request, report);
    }
    CALLGRIND_DUMP_STATS_AT(name);
}

int main(int argc, char **argv) {
    struct zermuita_zone zone = ZERMUITA_ZONE_CLOSED;
    struct zermuita_zone_report report = {.size = sizeof report};
    size_t journal_len;
    if (argc != 3) {
        return EXIT_FAILURE;
    }
    uint8_t *journal = read_file(argv[1], &journal_len);
    uint32_t reply = zermuita_zone_open(&zone, journal, journal_len, out, sizeof out, &report);
    free(journal);
    if (reply != ZERMUITA_ZONE_DONE) {
        fprintf(stderr, "line %zu: %.*s\n", report.line, (int)report.len, (char *)out);
        return EXIT_FAILURE;
    }
    CALLGRIND_START_INSTRUMENTATION;
    char word[64], digits[1024], name[80];
    while (scanf("%63s %1023s", word, digits) == 2) {
        uint8_t query[512];
        struct zermuita_request request = {
            .size = sizeof request, .now = strtoull(argv[2], NULL, 10), .limit = 1232, .udp_size = 1232,
        };
        request.request = (struct zermuita_octets){query, read_digits(digits, query, sizeof query)};
        respond(&zone, &request, &report);
        printf("%s %zu\n", word, report.len);
        snprintf(name, sizeof name, "%s asked", word);
        count(&zone, &request, &report, name, 0);
        snprintf(name, sizeof name, "%s had", word);
        count(&zone, &request, &report, name, 1);
    }
    zermuita_zone_close(&zone);
    return EXIT_SUCCESS;
}
