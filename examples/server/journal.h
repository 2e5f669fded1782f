/* A journal on disk: what is behind it once a call returns stays there. */
#ifndef JOURNAL_H
#define JOURNAL_H

#include <errno.h>
#include <fcntl.h>
#include <stdbool.h>
#include <stdint.h>
#include <stdio.h>
#include <stdlib.h>
#include <sys/file.h>
#include <sys/stat.h>
#include <unistd.h>

struct journal {
    int fd;
    size_t len;
    bool is_torn; /* the file may have more octets than `len`, which are to be cut off before the next line */
};

static bool write_all(int fd, const char *octets, size_t len) {
    for (size_t at = 0; at < len;) {
        ssize_t count = write(fd, octets + at, len - at);
        if (count == 0 || (count < 0 && errno != EINTR)) {
            errno = count == 0 ? EIO : errno;
            return false;
        }
        at += count > 0 ? (size_t)count : 0;
    }
    return fsync(fd) == 0;
}

/* Sees to it that the names of the files in a folder are on disk. */
static bool keep_names(const char *folder) {
    int fd = open(folder, O_RDONLY | O_DIRECTORY | O_CLOEXEC);
    bool is_kept = fd >= 0 && fsync(fd) == 0;
    if (fd >= 0) {
        close(fd);
    }
    return is_kept;
}

/* Takes a folder for this process, until it ends: alone, or beside others that share it, too. */
static bool take_folder(const char *folder, bool is_shared) {
    int fd = open(folder, O_RDONLY | O_DIRECTORY | O_CLOEXEC);
    return fd >= 0 && flock(fd, (is_shared ? LOCK_SH : LOCK_EX) | LOCK_NB) == 0;
}

/* Opens a journal. `len` is 0 where there is none. */
static bool open_journal(struct journal *journal, const char *path) {
    struct stat stat;
    journal->fd = open(path, O_RDWR | O_CREAT | O_APPEND | O_CLOEXEC, 0600);
    if (journal->fd < 0 || fstat(journal->fd, &stat) != 0) {
        return false;
    }
    journal->len = (size_t)stat.st_size;
    journal->is_torn = false;
    return true;
}

/* Begins a journal with these lines: all of them are there, or none. */
static bool begin_journal(struct journal *journal, const char *folder, const char *path, const char *lines, size_t len) {
    char next[520];
    int written = snprintf(next, sizeof next, "%s.new", path);
    errno = ENAMETOOLONG;
    int fd = written > 0 && (size_t)written < sizeof next ? open(next, O_WRONLY | O_CREAT | O_TRUNC | O_CLOEXEC, 0600) : -1;
    bool is_written = fd >= 0 && write_all(fd, lines, len);
    if (fd >= 0) {
        close(fd);
    }
    close(journal->fd);
    return is_written && rename(next, path) == 0 && keep_names(folder) && open_journal(journal, path);
}

/* So many octets of the journal behind those in front, in memory of their own, and an octet 0 behind them. */
static uint8_t *read_journal(const struct journal *journal, size_t front, size_t len) {
    uint8_t *octets = calloc(1, len + 1);
    for (size_t at = 0; octets != NULL && at < len;) {
        ssize_t count = pread(journal->fd, octets + at, len - at, (off_t)(front + at));
        if (count <= 0) {
            errno = count < 0 ? errno : EIO; /* it has become shorter */
            free(octets);
            return NULL;
        }
        at += (size_t)count;
    }
    return octets;
}

/* Cuts the journal behind so many octets. */
static bool cut_journal(struct journal *journal, size_t len) {
    journal->len = len;
    journal->is_torn = ftruncate(journal->fd, (off_t)len) != 0 || fsync(journal->fd) != 0;
    return !journal->is_torn;
}

/* Writes lines behind the journal. Where that fails, what was written of them is taken away. */
static bool append_lines(struct journal *journal, const char *lines, size_t len) {
    if (journal->is_torn && !cut_journal(journal, journal->len)) {
        return false;
    }
    if (!write_all(journal->fd, lines, len)) {
        int why = errno;
        cut_journal(journal, journal->len);
        errno = why;
        return false;
    }
    journal->len += len;
    return true;
}

#endif
