/* Commands, a line each, that a socket brings. */
#ifndef CTL_H
#define CTL_H

#include "client.h"
#include "turns.h"

static const char *const rolls[] = {
    "", "ksk-roll", "ksk-double-ds-roll", "zsk-roll", "zsk-double-signature-roll", "csk-roll", "algorithm-roll",
};

static const char *const phases[] = {"", "report1", "wait1", "report2", "wait2", "done"};

/* What was counted since the start, as text. */
static void say_counts(struct served *served, FILE *said) {
    const struct counts *counts = &served->counts;
    fprintf(said, "journal: %zu octets; signatures: %" PRIu64 " made, %" PRIu64 " found again; responses given again: %" PRIu64
            "; over the rate: %" PRIu64 " told to use TCP, %" PRIu64 " dropped\n", served->journal.len, served->cache.made,
            served->cache.found, served->responses.found, served->limits.said_tcp, served->limits.dropped);
    fprintf(said, "requests: %" PRIu64 " by UDP, %" PRIu64 " by TCP; responses: ", counts->udp, counts->tcp);
    for (size_t i = 0; i < CODES; i++) {
        if (counts->codes[i] > 0) {
            fprintf(said, "%s %" PRIu64 ", ", code_names[i], counts->codes[i]);
        }
    }
    fprintf(said, "%" PRIu64 " truncated; connections refused: %" PRIu64 "\n", counts->truncated, counts->refused);
}

/* The same, for the log. */
static void log_counts(const struct served *served) {
    const struct counts *counts = &served->counts;
    struct member members[CODES + 10] = {
        as_number("udp", counts->udp), as_number("tcp", counts->tcp), as_number("truncated", counts->truncated),
        as_number("told_tcp", served->limits.said_tcp), as_number("dropped", served->limits.dropped),
        as_number("refused_connections", counts->refused), as_number("signatures_made", served->cache.made),
        as_number("signatures_kept", served->cache.found), as_number("responses_kept", served->responses.found),
        as_number("journal", served->journal.len),
    };
    size_t count = 10;
    for (size_t i = 0; i < CODES; i++) {
        if (counts->codes[i] > 0) {
            members[count++] = as_number(code_names[i], counts->codes[i]);
        }
    }
    log_members("counts", members, count);
}

/* What is due of a roll that runs, the actions in `names`; false where none is told. */
static bool read_due(struct served *served, uint32_t roll, char names[TEXT_ROOM], struct zermuita_due *due) {
    *due = (struct zermuita_due){.size = sizeof *due};
    uint32_t reply = zermuita_zone_due(&served->zone, roll, (uint8_t *)names, TEXT_ROOM, due);
    return reply == ZERMUITA_ZONE_DONE && due->phase != ZERMUITA_NO_ROLL && due->len <= TEXT_ROOM;
}

/* What is due of each roll that runs. */
static void say_due(struct served *served, FILE *said) {
    for (uint32_t roll = ZERMUITA_KSK_ROLL; roll <= ZERMUITA_ALGORITHM_ROLL; roll++) {
        char names[TEXT_ROOM];
        struct zermuita_due due;
        if (!read_due(served, roll, names, &due)) {
            continue;
        }
        fprintf(said, "%s: %s is next", rolls[roll], phases[due.phase]);
        if (due.from != UINT64_MAX) {
            fprintf(said, " from %" PRIu64 " on, %s", due.from, due.from <= clock_moment(served) ? "now" : "not yet");
        }
        for (size_t i = 0; i < due.len; i++) {
            if (names[i] == '\n') {
                names[i] = ' ';
            }
        }
        fprintf(said, "%s%.*s\n", due.len > 0 ? "; " : "", (int)due.len, names);
    }
}

/* Makes a wait that is over. */
static bool end_wait(struct served *served, const char *words) {
    char *text = NULL;
    size_t len = 0;
    FILE *said = open_memstream(&text, &len);
    bool is_done = said != NULL && accept_line(served, words, said);
    if (said != NULL && fclose(said) == 0) {
        log_said("wait", words, is_done, text, line_moment(served));
    }
    free(text);
    return is_done;
}

/* Seconds by a clock that nobody sets, and that goes on while the machine sleeps. */
static uint64_t boot_seconds(void) {
    struct timespec now;
    return clock_gettime(CLOCK_BOOTTIME, &now) == 0 ? (uint64_t)now.tv_sec : 0;
}

/*
 * Whether a wait is over by both clocks: by the one that tells moments, and by one that nobody sets, which must have passed what was left
 * of the wait when it was seen first. So a wall clock that jumps ahead, as one does that was a day behind, ends no wait.
 */
static bool is_over(struct pending *pending, uint32_t phase, uint64_t from, uint64_t moment) {
    if (pending->phase != phase || pending->from != from) {
        uint64_t left = from > moment ? from - moment : 0;
        *pending = (struct pending){.phase = phase, .from = from, .until = boot_seconds() + left};
    }
    return from <= moment && pending->until <= boot_seconds();
}

/* Accepts the wait of a roll, if it is over by the clock: where replacements come fast, lines are of moments ahead of that. */
static bool accept_wait(struct served *served, const char *line, const char *roll, FILE *said) {
    for (uint32_t at = ZERMUITA_KSK_ROLL; roll != NULL && at <= ZERMUITA_ALGORITHM_ROLL; at++) {
        char names[TEXT_ROOM];
        struct zermuita_due due;
        bool is_next = strcmp(roll, rolls[at]) == 0 && read_due(served, at, names, &due)
            && strncmp(line, phases[due.phase], strlen("wait1")) == 0;
        if (is_next && due.from != UINT64_MAX && due.from > clock_moment(served)) {
            fprintf(said, "refused Wait %" PRIu64 "\n", due.from - clock_moment(served));
            return false;
        }
    }
    return accept_line(served, line, said);
}

/* Makes the waits that are over. False where one of them is not made. */
static bool end_waits(struct served *served) {
    bool are_done = true;
    for (uint32_t roll = ZERMUITA_KSK_ROLL; roll <= ZERMUITA_ALGORITHM_ROLL; roll++) {
        char names[TEXT_ROOM], words[64];
        struct zermuita_due due;
        bool is_wait = read_due(served, roll, names, &due) && (due.phase == ZERMUITA_EXPIRY_1 || due.phase == ZERMUITA_EXPIRY_2);
        if (is_wait && is_over(&served->pending[roll], due.phase, due.from, clock_moment(served))) {
            snprintf(words, sizeof words, "%s %s", phases[due.phase], rolls[roll]);
            are_done = end_wait(served, words) && are_done;
        }
    }
    return are_done;
}

/* Says the key of a DNSKEY record in base64. */
static void say_key(struct zermuita_octets key, FILE *said) {
    unsigned char text[4 * 49 + 1];
    for (size_t at = 0; at < key.len; at += 3 * 49) {
        size_t len = key.len - at < 3 * 49 ? key.len - at : 3 * 49;
        EVP_EncodeBlock(text, key.data + at, (int)len);
        fputs((const char *)text, said);
    }
}

/* Says the records of a set, as master files have them. */
static bool say_records(struct served *served, uint16_t rtype, const char *type, FILE *said) {
    struct zermuita_zone_report report = {.size = sizeof report};
    uint32_t reply = zermuita_zone_records(&served->zone, rtype, served->out, OUT_ROOM, &report);
    struct zermuita_octets rest = {served->out, report.len}, rdata;
    if (reply != ZERMUITA_ZONE_DONE) {
        fprintf(said, "%s\n", zermuita_zone_strerror(reply));
        return false;
    }
    while (zermuita_next_record(&rest, &rdata)) {
        fprintf(said, "%s %zu %u %u ", type, zermuita_number(rdata.data, 2), rdata.data[2], rdata.data[3]);
        for (size_t i = 4; i < rdata.len && rtype != 48; i++) {
            fprintf(said, "%02X", rdata.data[i]);
        }
        if (rtype == 48) {
            say_key((struct zermuita_octets){rdata.data + 4, rdata.len - 4}, said);
        }
        fputc('\n', said);
    }
    return true;
}

/* Does a command, if it can be done. */
static bool do_command(struct served *served, char *line, FILE *said, bool *is_stopping) {
    static const char *const calls[] = {"start", "report1", "wait1", "report2", "wait2", "done", "delete"};
    char copy[COMMAND_ROOM], *rest = copy;
    snprintf(copy, sizeof copy, "%s", line);
    const char *word = strsep(&rest, " "), *first = strsep(&rest, " "), *second = strsep(&rest, " ");
    if (strcmp(word, "stop") == 0) {
        *is_stopping = true;
        return true;
    } else if (strcmp(word, "status") == 0) {
        say_due(served, said);
        say_counts(served, said);
        log_counts(served);
        return true;
    } else if (strcmp(word, "due") == 0) {
        say_due(served, said);
        return say_records(served, 43, "DS", said);
    } else if (strcmp(word, "ds") == 0) {
        return say_records(served, 43, "DS", said);
    } else if (strcmp(word, "cds") == 0) {
        return say_records(served, 59, "CDS", said);
    } else if (strcmp(word, "dnskey") == 0) {
        return say_records(served, 48, "DNSKEY", said);
    } else if (strcmp(word, "key") == 0 && second != NULL) {
        return add_key(served, first, second, said);
    } else if (strcmp(word, "reload") == 0 && first != NULL) {
        return replace_records(served, line + strlen("reload "), said);
    }
    for (size_t i = 0; i < sizeof calls / sizeof *calls; i++) {
        if (strcmp(word, calls[i]) == 0) {
            bool is_wait = strncmp(word, "wait", strlen("wait")) == 0;
            return is_wait ? accept_wait(served, line, first, said) : accept_line(served, line, said);
        }
    }
    fputs("commands: status, due, ds, cds, dnskey, key KIND NAME, start ROLL OLD NEW, report1 ROLL TTL, wait1 ROLL, report2 ROLL TTL, wait2 ROLL, "
          "done ROLL, delete NAME, reload FILE, stop\n", said);
    return false;
}

#endif
