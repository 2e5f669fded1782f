/*
 * The turns of servers that share a folder. While one of them changes the journal, none answers; and before each answer a server has
 * applied what the others wrote. So a line is in all zones before anybody hears that it was accepted, and the second of a replacement
 * is behind the answers of all of them.
 */
#ifndef TURNS_H
#define TURNS_H

#include "zone.h"

/* How many octets of lines stand up to the end of the last one that is whole and behind which no records wait for a replacement. */
static size_t settled_in(const char *lines, size_t len) {
    size_t settled = 0;
    const char *line = lines, *end;
    for (; (end = memchr(line, '\n', len - (size_t)(line - lines))) != NULL; line = end + 1) {
        settled = strncmp(line, "rr ", 3) == 0 ? settled : (size_t)(end + 1 - lines);
    }
    return settled;
}

/* Reads the key that a line adds, if it adds one. */
static void follow_key(struct served *served, const char *line) {
    char name[KEY_NAME];
    if (sscanf(line, "key %*s %127s", name) == 1 && key_named(&served->keys, name) == NULL) {
        log_unread(&served->keys, name);
    }
}

/* Applies lines that another server wrote behind the journal. */
static bool follow_lines(struct served *served, char *lines, size_t len) {
    lines[len] = 0;
    served->journal.len += len;
    if (strlen(lines) != len) {
        return open_served(served); /* an octet 0 is in no line, which is said there */
    }
    for (const char *line = lines; *line != 0; line = strchr(line, '\n') + 1) {
        follow_key(served, line);
    }
    return (apply_lines(served, lines, NULL) && read_facts(served)) || open_served(served);
}

/*
 * Applies what other servers wrote since, once it is on disk. What is not whole at the end is of one that was killed: it is not
 * applied, and whoever has the journal alone cuts it off.
 */
static bool catch_up(struct served *served, short how) {
    struct journal *journal = &served->journal;
    struct stat stat;
    if (fstat(journal->fd, &stat) != 0) {
        return false;
    }
    errno = EIO;
    size_t len = (size_t)stat.st_size, more = len - journal->len;
    journal->is_torn = len > journal->len;
    if (!journal->is_torn) {
        return len == journal->len;
    }
    char *lines = fsync(journal->fd) == 0 ? (char *)read_journal(journal, journal->len, more) : NULL;
    size_t settled = lines == NULL ? 0 : settled_in(lines, more);
    bool is_done = lines != NULL && (settled == 0 || follow_lines(served, lines, settled));
    journal->is_torn = settled < more;
    free(lines);
    if (is_done && journal->is_torn && how == F_WRLCK) {
        LOG("cut", as_number("octets", more - settled), as_number("left", journal->len));
        return cut_journal(journal, journal->len);
    }
    return is_done;
}

/* Reads the moment that the servers of the folder have come to. */
static bool read_note(struct served *served) {
    int fd = served->answered_fd;
    bool is_read = lock_place(fd, NOTES, F_RDLCK, true) && read_answered(fd, &served->answered);
    served->floor = served->answered > served->floor ? served->answered : served->floor;
    return lock_place(fd, NOTES, F_UNLCK, true) && is_read;
}

/* Notes a moment, if no other server has noted it or a later one. */
static bool write_note(struct served *served, uint64_t moment) {
    int fd = served->answered_fd;
    bool is_locked = !served->is_shared || (lock_place(fd, NOTES, F_WRLCK, true) && read_answered(fd, &served->answered));
    bool is_noted = is_locked && (moment <= served->answered || note_answered(fd, moment, served->answered));
    int why = errno;
    if (is_noted && moment > served->answered) {
        served->answered = moment;
    }
    if (served->is_shared) {
        lock_place(fd, NOTES, F_UNLCK, true);
    }
    errno = why;
    return is_noted;
}

/* Begins a turn: F_RDLCK to answer, F_WRLCK to change the journal. A server that does not know what the others wrote ends. */
static void begin_turn(struct served *served, short how) {
    if (served->is_shared && !(take_turn(served->answered_fd, how) && read_note(served) && catch_up(served, how))) {
        fail("turn");
    }
}

static void end_turn(struct served *served) {
    if (served->is_shared && !lock_place(served->answered_fd, ANSWERS, F_UNLCK, true)) {
        fail("turn");
    }
}

/*
 * Begins a turn of answers, which are all of one moment. Where that cannot be noted, they are of the last one that was, or none is
 * given if a line is behind that.
 */
static void begin_answers(struct served *served) {
    begin_turn(served, F_RDLCK);
    uint64_t now = clock_moment(served), moment = now - now % served->step;
    moment = moment > served->floor ? moment : served->floor;
    if (moment > served->answered && !write_note(served, moment) && moment != served->unnoted_at) {
        served->unnoted_at = moment;
        log_failure("answered", strerror(errno));
    }
    served->floor = served->answered > served->floor ? served->answered : served->floor;
    served->may_answer = served->answered >= served->floor;
}

#endif
