/*
 * The last moment of an answer, in the file `answered` of a folder. It is on disk before the first answer of that moment is given, so
 * that behind a crash, too, moments do not go back, and a replacement takes none that an answer had. Servers that share the folder
 * take turns by locks on the file's octets, which end with the process that has them.
 */
#ifndef ANSWERED_H
#define ANSWERED_H

#include "journal.h"
#include <ctype.h>
#include <inttypes.h>
#include <string.h>

/*
 * What the octets stand for that are locked. Whoever answers shares ANSWERS, whoever changes the journal has it alone, and each passes
 * by DOOR to it, so that a change does not wait for ever while others answer. NOTES is for the file's moment, COMMANDS for the socket
 * that brings commands.
 */
enum place { DOOR, ANSWERS, NOTES, COMMANDS };

enum { ANSWERED_LEN = 21 }; /* 20 digits and a line feed: a write of one sector, which is there whole or not at all */

/* Opens the file, a new one where there is none. */
static int open_answered(const char *folder) {
    char path[512];
    int written = snprintf(path, sizeof path, "%s/answered", folder);
    errno = ENAMETOOLONG;
    int fd = written > 0 && (size_t)written < sizeof path ? open(path, O_RDWR | O_CREAT | O_CLOEXEC, 0600) : -1;
    if (fd >= 0 && !keep_names(folder)) {
        close(fd);
        return -1;
    }
    return fd;
}

/* Reads the moment; 0 of a new file. */
static bool read_answered(int fd, uint64_t *moment) {
    char text[ANSWERED_LEN + 1] = "", *end = text;
    ssize_t len = pread(fd, text, ANSWERED_LEN, 0);
    *moment = len == ANSWERED_LEN && isdigit((unsigned char)text[0]) ? strtoull(text, &end, 10) : 0;
    bool is_read = len == 0 || (len == ANSWERED_LEN && strcmp(end, "\n") == 0);
    errno = len >= 0 ? EINVAL : errno;
    return is_read;
}

static bool write_answered(int fd, uint64_t moment) {
    char text[ANSWERED_LEN + 1];
    snprintf(text, sizeof text, "%020" PRIu64 "\n", moment);
    return pwrite(fd, text, ANSWERED_LEN, 0) == ANSWERED_LEN;
}

/* Notes a moment. Where it does not get to the disk, the file has the one before again: what other servers read there is noted. */
static bool note_answered(int fd, uint64_t moment, uint64_t before) {
    if (write_answered(fd, moment) && fdatasync(fd) == 0) {
        return true;
    }
    int why = errno;
    write_answered(fd, before);
    errno = why;
    return false;
}

/* Locks a place: F_RDLCK shares it, F_WRLCK has it alone, F_UNLCK gives it up. */
static bool lock_place(int fd, enum place place, short how, bool waits) {
    struct flock lock = {.l_type = how, .l_whence = SEEK_SET, .l_start = place, .l_len = 1};
    int done;
    do {
        done = fcntl(fd, waits ? F_OFD_SETLKW : F_OFD_SETLK, &lock);
    } while (done != 0 && errno == EINTR);
    return done == 0;
}

/* Waits for a turn: to answer beside others, or to change the journal alone. */
static bool take_turn(int fd, short how) {
    return lock_place(fd, DOOR, how, true) && lock_place(fd, ANSWERS, how, true) && lock_place(fd, DOOR, F_UNLCK, true);
}

#endif
