/* The log: what happens, as objects of JSON (RFC 8259), a line each. Queries are counted, not told. */
#ifndef LOG_H
#define LOG_H

#include <errno.h>
#include <fcntl.h>
#include <inttypes.h>
#include <stdbool.h>
#include <stdint.h>
#include <stdio.h>
#include <stdlib.h>
#include <string.h>
#include <time.h>
#include <unistd.h>

/* A member of an object. */
struct member {
    const char *name, *text; /* a text, or null */
    uint64_t number;
    bool is_truth; /* the number is true, or 0 for false */
};

/* Where the log goes: a file by its name, or standard error. `is_torn` where its last line has no end. */
static struct {
    const char *path;
    int fd;
    bool is_torn;
} log_file = {.fd = STDERR_FILENO};

static struct member as_text(const char *name, const char *text) {
    return (struct member){.name = name, .text = text};
}

static struct member as_number(const char *name, uint64_t number) {
    return (struct member){.name = name, .number = number};
}

static struct member as_truth(const char *name, bool is_true) {
    return (struct member){.name = name, .number = is_true, .is_truth = true};
}

/* Has the log go to the end of a file. False, and the log goes where it went, if the file does not open. */
static bool open_log(const char *path) {
    int fd = open(path, O_WRONLY | O_CREAT | O_APPEND | O_CLOEXEC, 0600);
    if (fd < 0) {
        return false;
    }
    if (log_file.path != NULL) {
        close(log_file.fd);
    }
    log_file.path = path;
    log_file.fd = fd;
    log_file.is_torn = false;
    return true;
}

/* Writes a string of JSON. An octet that is no printable character of ASCII is the character of its number: so any octets are. */
static void put_string(FILE *out, const char *text) {
    fputc('"', out);
    for (; *text != 0; text++) {
        unsigned char octet = (unsigned char)*text;
        if (octet < 0x20 || octet > 0x7e) {
            fprintf(out, "\\u%04x", octet);
        } else {
            fprintf(out, octet == '"' || octet == '\\' ? "\\%c" : "%c", octet);
        }
    }
    fputc('"', out);
}

/* Writes the members that each object begins with: the time (RFC 3339), the process, and what happens. */
static void put_head(FILE *out, const char *event) {
    struct timespec now;
    struct tm at;
    char second[32] = "";
    clock_gettime(CLOCK_REALTIME, &now);
    if (gmtime_r(&now.tv_sec, &at) != NULL) {
        strftime(second, sizeof second, "%Y-%m-%dT%H:%M:%S", &at);
    }
    fprintf(out, "{\"time\":\"%s.%03ldZ\",\"pid\":%ld,\"event\":\"%s\"", second, now.tv_nsec / 1000000, (long)getpid(), event);
}

/* Writes a line, by one call, so that processes may share a file. What does not get there is lost, and the next line begins anew. */
static void write_line(const char *line, size_t len) {
    if (log_file.is_torn && write(log_file.fd, "\n", 1) != 1) {
        return;
    }
    ssize_t count = write(log_file.fd, line, len);
    log_file.is_torn = count >= 0 ? (size_t)count < len : log_file.is_torn;
}

/* Logs what happens. errno stays as it is. */
static void log_members(const char *event, const struct member *members, size_t count) {
    int before = errno;
    char *line = NULL;
    size_t len = 0;
    FILE *out = open_memstream(&line, &len);
    if (out != NULL) {
        put_head(out, event);
        for (size_t i = 0; i < count; i++) {
            fprintf(out, ",\"%s\":", members[i].name);
            if (members[i].text != NULL) {
                put_string(out, members[i].text);
            } else if (members[i].is_truth) {
                fputs(members[i].number != 0 ? "true" : "false", out);
            } else {
                fprintf(out, "%" PRIu64, members[i].number);
            }
        }
        fputs("}\n", out);
        if (fclose(out) == 0) {
            write_line(line, len);
        }
    }
    free(line);
    errno = before;
}

#define LOG(event, ...)                                                                                                                \
    log_members(event, (const struct member[]){__VA_ARGS__}, sizeof((const struct member[]){__VA_ARGS__}) / sizeof(struct member))

/* Logs what failed, and why. */
static void log_failure(const char *what, const char *why) {
    LOG("failure", as_text("what", what), as_text("why", why));
}

/* Opens the log's file again, by its name: another one may be there, as after a rotation. */
static void reopen_log(const char *who) {
    if (log_file.path != NULL && !open_log(log_file.path)) {
        log_failure("log", strerror(errno));
    }
    LOG("reopened", as_text("who", who));
}

/* Ends the server for what failed. */
static void fail(const char *what) {
    log_failure(what, strerror(errno));
    exit(EXIT_FAILURE);
}

/* Logs a line, whether it was done, and what was said of it. */
static void log_said(const char *event, const char *line, bool is_done, char *said, uint64_t moment) {
    size_t len = strlen(said);
    if (len > 0 && said[len - 1] == '\n') {
        said[len - 1] = 0;
    }
    LOG(event, as_text("line", line), as_truth("done", is_done), as_text("said", said), as_number("moment", moment));
}

#endif
