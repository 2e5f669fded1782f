/* A zone, its journal and its keys: lines that are accepted are on disk before anybody hears of it. */
#ifndef ZONE_H
#define ZONE_H

#include "answered.h"
#include "cache.h"
#include "counts.h"
#include "journal.h"
#include "limits.h"
#include "log.h"
#include "responses.h"
#include "words.h"
#include <time.h>

enum { OUT_ROOM = 1 << 20, TEXT_ROOM = 1024, UDP_SIZE = 1232 };

/* A wait that was seen: the second from which the zone accepts its end, and that of the clock that nobody sets. */
struct pending {
    uint32_t phase;
    uint64_t from, until;
};

struct served {
    struct zermuita_zone zone;
    struct pending pending[ZERMUITA_ALGORITHM_ROLL + 1]; /* by rolls */
    struct journal journal;
    struct keys keys;
    struct cache cache;
    struct responses responses;
    struct limits limits;
    struct counts counts;
    const char *folder;
    char apex[NAME_TEXT]; /* the zone's name */
    char path[512], key_folder[512]; /* of the journal, and of the keys */
    uint32_t backdate; /* everything is of the moment so many seconds before the clock */
    uint32_t step;     /* answers are of moments that are multiples of it, so that signatures serve again */
    uint64_t floor;    /* no moment is before this one */
    uint64_t answered; /* the last moment of an answer, as the file has it */
    int answered_fd;
    bool may_answer, is_shared;
    uint64_t unsigned_at, unnoted_at; /* the last moments of which a signature could not be made, and which could not be noted */
    uint8_t *out, *made;
};

/* The moment that the clock tells, 0 where it was not set yet: a machine may start at 1970. */
static uint64_t clock_moment(const struct served *served) {
    time_t now = time(NULL);
    return now > (time_t)served->backdate ? (uint64_t)now - served->backdate : 0;
}

/* The moment of lines that are applied now. */
static uint64_t line_moment(const struct served *served) {
    uint64_t now = clock_moment(served);
    return now > served->floor ? now : served->floor;
}

/*
 * The moment of a line of these words. A report counts for all that was given before it, so also for what was given in its own second:
 * it takes the next one, in which that second is over. A wait would end up to a second early otherwise.
 */
static uint64_t moment_of(const struct served *served, const char *words) {
    bool is_report = strncmp(words, "report", strlen("report")) == 0;
    uint64_t next = clock_moment(served) + 1, moment = line_moment(served);
    return is_report && next > moment ? next : moment;
}

/* Reads the zone's name, and the first moment that is not before its lines: an answer is of none that a replacement had. */
static bool read_facts(struct served *served) {
    struct zermuita_facts facts = {.size = sizeof facts};
    uint32_t reply = zermuita_zone_facts(&served->zone, (uint8_t *)served->apex, sizeof served->apex - 1, &facts);
    if (reply != ZERMUITA_ZONE_DONE) {
        log_failure("journal", zermuita_zone_strerror(reply));
        return false;
    }
    served->apex[facts.len] = 0;
    served->floor = facts.last > served->floor ? facts.last : served->floor;
    served->floor = facts.answers_from > served->floor ? facts.answers_from : served->floor;
    return true;
}

/* Says why a journal is refused. */
static void log_refused(uint32_t reply, const struct zermuita_zone_report *report, const char text[TEXT_ROOM]) {
    char why[TEXT_ROOM + 128];
    int told = report->len <= TEXT_ROOM ? (int)report->len : 0;
    snprintf(why, sizeof why, "line %zu: %s: %.*s", report->line, zermuita_zone_strerror(reply), told, text);
    log_failure("journal", why);
}

/*
 * Opens the zone from its journal. Behind a crash a line that is not finished is cut off, or a replacement. What a crash left there
 * may not be on disk yet, and is to be before anything is answered by it.
 */
static bool open_served(struct served *served) {
    char text[TEXT_ROOM];
    if (fsync(served->journal.fd) != 0) {
        log_failure("journal", strerror(errno));
        return false;
    }
    for (int tries = 0; tries < 2; tries++) {
        struct zermuita_zone_report report = {.size = sizeof report};
        uint8_t *octets = read_journal(&served->journal, 0, served->journal.len);
        if (octets == NULL) {
            log_failure("journal", strerror(errno));
            return false;
        }
        zermuita_zone_close(&served->zone);
        served->responses.zone++;
        uint32_t reply = zermuita_zone_open(&served->zone, octets, served->journal.len, (uint8_t *)text, sizeof text, &report);
        if (reply != ZERMUITA_ZONE_DONE) {
            log_refused(reply, &report, text);
            free(octets);
            return false;
        }
        bool is_settled = report.settled == report.whole;
        free(octets);
        if (!read_facts(served)) {
            return false;
        }
        if (report.settled < served->journal.len) {
            LOG("cut", as_number("octets", served->journal.len - report.settled), as_number("left", report.settled));
            if (!cut_journal(&served->journal, report.settled)) {
                log_failure("journal", strerror(errno));
                return false;
            }
        }
        if (is_settled) {
            return true;
        }
    }
    log_failure("journal", "cut at its last whole replacement, it has half of one again");
    return false;
}

/* Applies a line. What is said of it is written to `said`, if that is not null. */
static bool apply_line(struct served *served, const char *line, FILE *said) {
    char text[TEXT_ROOM];
    struct zermuita_zone_report report = {.size = sizeof report};
    uint32_t reply = zermuita_zone_apply(&served->zone, (const uint8_t *)line, strlen(line), (uint8_t *)text, sizeof text, &report);
    served->responses.zone++;
    if (said != NULL && (reply == ZERMUITA_ZONE_DONE || reply == ZERMUITA_ZONE_REFUSED)) {
        fprintf(said, "%.*s%s", report.len <= sizeof text ? (int)report.len : 0, text, report.len > 0 ? "\n" : "");
    } else if (said != NULL) {
        fprintf(said, "%s\n", zermuita_zone_strerror(reply));
    }
    return reply == ZERMUITA_ZONE_DONE || reply == ZERMUITA_ZONE_UNTOLD;
}

/* Logs lines that were written behind the journal, each but those of records, which are counted in front of the line that they belong to. */
static void log_lines(const char *lines, size_t len) {
    uint64_t records = 0;
    for (const char *line = lines, *end; line < lines + len && (end = strchr(line, '\n')) != NULL; line = end + 1) {
        if (strncmp(line, "rr ", 3) == 0) {
            records++;
            continue;
        }
        char *copy = strndup(line, (size_t)(end - line));
        if (copy != NULL && records > 0) {
            LOG("journal", as_text("line", copy), as_number("records", records));
        } else if (copy != NULL) {
            LOG("journal", as_text("line", copy));
        }
        records = 0;
        free(copy);
    }
    if (records > 0) {
        LOG("journal", as_number("records", records));
    }
}

/* Writes lines that were applied behind the journal. Where the disk does not take them, the zone is as the journal has it. */
static bool keep_lines(struct served *served, const char *lines, size_t len, FILE *said) {
    if (append_lines(&served->journal, lines, len)) {
        log_lines(lines, len);
        return true;
    }
    log_failure("journal", strerror(errno));
    fprintf(said, "the journal was not written: %s\n", strerror(errno));
    if (!open_served(served)) {
        exit(EXIT_FAILURE);
    }
    return false;
}

/* Applies a line of words, at its moment, and keeps it. */
static bool accept_line(struct served *served, const char *words, FILE *said) {
    char line[4096];
    uint64_t moment = moment_of(served, words);
    int len = snprintf(line, sizeof line, "%s %llu\n", words, (unsigned long long)moment);
    if (len < 0 || (size_t)len >= sizeof line) {
        fputs("the line is too long\n", said);
        return false;
    }
    line[len - 1] = 0;
    if (!apply_line(served, line, said)) {
        return false;
    }
    line[len - 1] = '\n';
    read_facts(served);
    return keep_lines(served, line, (size_t)len, said);
}

/* Logs that no key was read of a name's file. */
static void log_unread(const struct keys *keys, const char *name) {
    LOG("failure", as_text("what", "key"), as_text("why", "not readable, not a key that this server signs with, or too many"),
        as_text("folder", keys->folder), as_text("key", name));
}

/* Sees to it that a key's file is on disk, if it is in a file system that has one. */
static bool keep_key(const struct keys *keys, const char *name) {
    char path[KEY_NAME + 512 + 8];
    snprintf(path, sizeof path, "%s/%s.pem", keys->folder, name);
    int fd = open(path, O_RDONLY | O_CLOEXEC);
    bool is_kept = fd >= 0 && (fsync(fd) == 0 || errno == EROFS || errno == EINVAL);
    if (fd >= 0) {
        close(fd);
    }
    return is_kept && (keep_names(keys->folder) || errno == EROFS || errno == EINVAL);
}

/* Adds the key of a PEM file, which is on disk before the journal names the key: nothing else can sign the zone then. */
static bool add_key(struct served *served, const char *kind, const char *name, FILE *said) {
    char words[3072], text[2048];
    struct key *key = key_named(&served->keys, name);
    if (key == NULL) {
        fprintf(said, "no key %s.pem in %s\n", name, served->keys.folder);
        return false;
    }
    if (!keep_key(&served->keys, name)) {
        fprintf(said, "%s.pem: %s\n", name, strerror(errno));
        return false;
    }
    EVP_EncodeBlock((unsigned char *)text, key->octets, (int)key->len);
    snprintf(words, sizeof words, "key %s %s %u %s", kind, name, key->algorithm, text);
    return accept_line(served, words, said);
}

/* Applies the lines of a replacement, one by one. */
static bool apply_lines(struct served *served, char *lines, FILE *said) {
    for (char *line = lines, *end; (end = strchr(line, '\n')) != NULL; line = end + 1) {
        *end = 0;
        bool is_applied = apply_line(served, line, said);
        *end = '\n';
        if (!is_applied) {
            return false;
        }
    }
    return true;
}

/* Opens a regular file. What is none, as a pipe, is refused: opening or reading it might never end. */
static FILE *open_file(const char *path) {
    struct stat stat;
    int fd = open(path, O_RDONLY | O_CLOEXEC | O_NONBLOCK);
    if (fd >= 0 && (fstat(fd, &stat) != 0 || !S_ISREG(stat.st_mode))) {
        int why = S_ISDIR(stat.st_mode) ? EISDIR : EINVAL;
        close(fd);
        errno = why;
        return NULL;
    }
    return fd >= 0 ? fdopen(fd, "r") : NULL;
}

/* The octets of a file, in memory of their own; null where it cannot be read. */
static char *read_file(const char *path, size_t *len) {
    char part[4096], *octets = NULL;
    FILE *file = open_file(path), *out = file == NULL ? NULL : open_memstream(&octets, len);
    bool is_read = out != NULL;
    for (size_t count; is_read && (count = fread(part, 1, sizeof part, file)) > 0;) {
        is_read = fwrite(part, 1, count, out) == count;
    }
    is_read = is_read && !ferror(file);
    int why = errno;
    if (file != NULL) {
        fclose(file);
    }
    is_read = out != NULL && fclose(out) == 0 && is_read;
    errno = why;
    if (!is_read) {
        free(octets);
        return NULL;
    }
    return octets;
}

static struct zermuita_octets octets_of(const char *text) {
    return (struct zermuita_octets){(const uint8_t *)text, strlen(text)};
}

/* Says why a master file is refused. */
static void say_refused(const char *path, uint32_t reply, const struct zermuita_zone_report *report, const char *text, FILE *said) {
    fprintf(said, "%s: ", path);
    if (reply != ZERMUITA_ZONE_REFUSED) {
        fprintf(said, "%s\n", zermuita_zone_strerror(reply));
        return;
    }
    if (report->line > 0) {
        fprintf(said, "line %zu: ", report->line);
    }
    fprintf(said, "%.*s\n", report->len <= TEXT_ROOM ? (int)report->len : 0, text);
}

/*
 * The lines of a journal for a master file, and one behind them, in memory of their own; null where the file is refused. `master` says
 * what is wanted of it.
 */
static char *lines_of(const char *path, struct zermuita_master master, const char *behind, FILE *said) {
    struct zermuita_zone_report report = {.size = sizeof report, .len = TEXT_ROOM};
    uint32_t reply = ZERMUITA_ZONE_BUFFER_TOO_SMALL;
    size_t len = 0;
    char *text = read_file(path, &len), *lines = NULL;
    if (text == NULL) {
        fprintf(said, "%s: %s\n", path, strerror(errno));
        return NULL;
    }
    master.size = sizeof master;
    master.text = (struct zermuita_octets){(const uint8_t *)text, len};
    while (reply == ZERMUITA_ZONE_BUFFER_TOO_SMALL) {
        size_t room = report.len;
        free(lines);
        lines = malloc(room + strlen(behind) + 1);
        reply = lines == NULL ? ZERMUITA_ZONE_OUT_OF_MEMORY : zermuita_zone_lines(&master, (uint8_t *)lines, room, &report);
    }
    free(text);
    if (reply != ZERMUITA_ZONE_DONE) {
        say_refused(path, reply, &report, lines, said);
        free(lines);
        return NULL;
    }
    memcpy(lines + report.len, behind, strlen(behind) + 1);
    return lines;
}

/* Replaces the zone's records by those of a master file: all of them, or none. */
static bool replace_records(struct served *served, const char *path, FILE *said) {
    struct zermuita_master master = {.origin = octets_of(served->apex), .apex = octets_of(served->apex)};
    char replacement[64];
    uint64_t moment = line_moment(served);
    moment = moment > served->answered ? moment : served->answered + 1;
    snprintf(replacement, sizeof replacement, "replace %llu\n", (unsigned long long)moment);
    char *lines = lines_of(path, master, replacement, said);
    bool is_done = false;
    if (lines != NULL && apply_lines(served, lines, said)) {
        read_facts(served);
        is_done = keep_lines(served, lines, strlen(lines), said);
    } else {
        zermuita_zone_forget(&served->zone);
    }
    free(lines);
    return is_done;
}

/* Begins the journal with the zone of a master file. Where that fails it is said why. */
static bool begin_served(struct served *served, const char *path, const char *origin, const char *chain, FILE *said) {
    struct zermuita_master master = {.origin = octets_of(origin), .chain = octets_of(chain)};
    char *lines = lines_of(path, master, "", said);
    bool is_begun = lines != NULL && begin_journal(&served->journal, served->folder, served->path, lines, strlen(lines));
    if (is_begun) {
        log_lines(lines, strlen(lines));
    } else if (lines != NULL) {
        fprintf(said, "%s: %s\n", served->path, strerror(errno));
    }
    free(lines);
    return is_begun;
}

/* Makes all signatures that a reply asks for, and keeps the entries. */
static bool make_all(struct served *served, uint64_t moment, size_t len) {
    struct zermuita_sign sign;
    uint8_t *next = served->out;
    for (size_t rest = len; zermuita_next_sign(&next, &rest, &sign);) {
        if (!answer_sign(&served->cache, &served->keys, moment, &sign)) {
            if (served->unsigned_at != moment) {
                served->unsigned_at = moment;
                LOG("failure", as_text("what", "signature"), as_text("why", "no key of the folder makes it"),
                    as_text("folder", served->keys.folder), as_number("algorithm", sign.algorithm));
            }
            return false;
        }
    }
    memcpy(served->made, served->out, len);
    return true;
}

/*
 * Writes a reply that has a header and the question alone, with flags (RFC 1035, 4.1.1), and the record of EDNS where the query has it
 * behind its question: without it some resolvers take the server for one without EDNS (RFC 6891, 6.1.1 and 7). Gives how many octets it
 * has, or 0.
 */
static size_t write_header(uint8_t *out, const uint8_t *query, size_t len, uint8_t flags, uint8_t rcode) {
    static const uint8_t edns[] = {0, 0, 41, UDP_SIZE >> 8, UDP_SIZE & 255, 0, 0, 0, 0, 0, 0};
    size_t end = 12;
    if (len < 12 || query[2] & 0x80) {
        return 0;
    }
    bool is_asked = query[4] == 0 && query[5] == 1;
    while (is_asked && end < len && query[end] != 0) {
        is_asked = query[end] < 64;
        end += 1 + (size_t)query[end];
    }
    is_asked = is_asked && end < len && len - end >= 5 && end <= 12 + 254;
    end = is_asked ? end + 5 : 12;
    memcpy(out, query, end);
    out[2] = (uint8_t)(0x80 | (query[2] & 0x79) | flags);
    out[3] = rcode;
    memset(out + 4, 0, 8);
    out[5] = is_asked;
    bool has_others = query[6] != 0 || query[7] != 0 || query[8] != 0 || query[9] != 0;
    if (is_asked && !has_others && len - end >= sizeof edns && memcmp(query + end, edns, 3) == 0) {
        memcpy(out + end, edns, sizeof edns);
        out[end + 7] = query[end + 7] & 0x80; /* DO (RFC 3225, 3) */
        out[11] = 1;
        end += sizeof edns;
    }
    return end;
}

/* Answers a query. Gives how many octets of `out` the response has, or 0. */
static size_t answer_query(struct served *served, const uint8_t *query, size_t len, bool is_stream) {
    uint64_t moment = served->answered;
    struct zermuita_zone_report report = {.size = sizeof report};
    struct zermuita_request request = {
        .size = sizeof request, .request = {query, len}, .now = moment + served->backdate, .backdate = served->backdate,
        .stream = is_stream, .limit = UDP_SIZE, .udp_size = UDP_SIZE,
    };
    if (!served->may_answer) {
        return write_header(served->out, query, len, 0, 2);
    }
    uint32_t reply = zermuita_zone_respond(&served->zone, &request, served->out, OUT_ROOM, &report);
    if (reply == ZERMUITA_ZONE_SIGN && make_all(served, moment, report.len)) {
        request.made = (struct zermuita_octets){served->made, report.len};
        reply = zermuita_zone_respond(&served->zone, &request, served->out, OUT_ROOM, &report);
    }
    if (reply == ZERMUITA_ZONE_RESPONSE) {
        if (!is_stream) {
            keep_response(&served->responses, moment, query, len, served->out, report.len);
        }
        return report.len;
    }
    return reply == ZERMUITA_ZONE_NO_RESPONSE ? 0 : write_header(served->out, query, len, 0, 2);
}

/* Answers a query by UDP: as it was answered before at this moment, if it was. */
static size_t answer_datagram(struct served *served, const uint8_t *query, size_t len) {
    uint64_t moment = served->answered;
    size_t count = served->may_answer ? give_again(&served->responses, moment, query, len, served->out) : 0;
    return count > 0 ? count : answer_query(served, query, len, false);
}

/* Answers a query, and counts it. */
static size_t respond(struct served *served, const uint8_t *query, size_t len, bool is_stream) {
    size_t count = is_stream ? answer_query(served, query, len, true) : answer_datagram(served, query, len);
    count_response(&served->counts, is_stream, served->out, count);
    return count;
}

#endif
