#include "asked.h"

#include "text.h"

#include <stdio.h>
#include <stdlib.h>
#include <string.h>
#include <valgrind/callgrind.h>

/* A line is `WORD TYPE LIMIT MOMENT APEX NAME ANSWER DNSKEY DS`, octets in hexadecimal digits. */
static bool take_line(struct asked *asked, char *rest) {
    struct buffer *octets[] = {&asked->apex, &asked->name, &asked->answer, &asked->dnskey, &asked->ds};
    asked->word = strdup(strsep(&rest, " "));
    uint64_t numbers[3];
    for (int i = 0; i < 3; i++) {
        const char *word = strsep(&rest, " ");
        numbers[i] = word == NULL ? 0 : strtoull(word, NULL, 10);
    }
    asked->rtype = (uint16_t)numbers[0];
    asked->limit = (uint16_t)numbers[1];
    asked->moment = numbers[2];
    for (int i = 0; i < 5; i++) {
        const char *word = strsep(&rest, " ");
        if (word == NULL || !octets_of_hex(word, octets[i])) {
            return false;
        }
    }
    return true;
}

bool next_asked(struct asked *asked) {
    char *line = NULL;
    size_t room = 0;
    ssize_t len = getline(&line, &room, stdin);
    if (len <= 0) {
        free(line);
        return false;
    }
    line[len - 1] = line[len - 1] == '\n' ? 0 : line[len - 1];
    free(asked->word);
    bool is_read = take_line(asked, line);
    free(line);
    if (!is_read) {
        fprintf(stderr, "cannot be read: %s\n", asked->word);
        exit(1);
    }
    return true;
}

void asked_free(struct asked *asked) {
    free(asked->word);
    buffer_free(&asked->apex);
    buffer_free(&asked->name);
    buffer_free(&asked->answer);
    buffer_free(&asked->dnskey);
    buffer_free(&asked->ds);
}

void count(const struct asked *asked, const char *word, bool (*work)(const struct asked *)) {
    char title[64];
    snprintf(title, sizeof title, "%s %s", asked->word, word);
    bool is_done = work(asked);
    CALLGRIND_ZERO_STATS;
    is_done = work(asked) && is_done;
    CALLGRIND_DUMP_STATS_AT(title);
    if (!is_done) {
        fprintf(stderr, "not done: %s\n", title);
        exit(1);
    }
    puts(title);
}

void count_reader(const struct reader *reader) {
    struct asked asked = {0};
    while (next_asked(&asked)) {
        count(&asked, "answer", reader->read_answer);
        count(&asked, "dnskey", reader->read_dnskey);
        if (strcmp(asked.word, "records") != 0) {
            count(&asked, "check", reader->read_and_check);
        }
    }
    asked_free(&asked);
}
