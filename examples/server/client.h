/* Commands, as they are sent to a server that runs. */
#ifndef CLIENT_H
#define CLIENT_H

#include <errno.h>
#include <stdbool.h>
#include <stdio.h>
#include <stdlib.h>
#include <string.h>
#include <sys/socket.h>
#include <sys/un.h>
#include <unistd.h>

enum { COMMAND_ROOM = 2048 };

/* What came of a command. */
enum told { TOLD_NOBODY, TOLD_DONE, TOLD_REFUSED };

/* The place of the socket for commands; false where its name is too long. */
static bool socket_in(const char *folder, struct sockaddr_un *at) {
    *at = (struct sockaddr_un){.sun_family = AF_UNIX};
    int len = snprintf(at->sun_path, sizeof at->sun_path, "%s/ctl", folder);
    errno = ENAMETOOLONG;
    return len > 0 && (size_t)len < sizeof at->sun_path;
}

/* Sends a line to the server of a folder. What it says is written to `said`. */
static enum told tell(const char *folder, const char *line, FILE *said) {
    struct sockaddr_un at;
    char text[4096];
    enum told told = TOLD_NOBODY;
    int fd = socket_in(folder, &at) ? socket(AF_UNIX, SOCK_STREAM | SOCK_CLOEXEC, 0) : -1;
    if (fd >= 0 && connect(fd, (struct sockaddr *)&at, sizeof at) == 0 && dprintf(fd, "%s\n", line) > 0) {
        errno = ENODATA;
        for (ssize_t count; (count = read(fd, text, sizeof text)) > 0;) {
            size_t front = told == TOLD_NOBODY;
            told = told != TOLD_NOBODY ? told : text[0] == '+' ? TOLD_DONE : TOLD_REFUSED;
            fwrite(text + front, 1, (size_t)count - front, said);
        }
    }
    if (fd >= 0) {
        int why = errno;
        close(fd);
        errno = why;
    }
    return told;
}

/* Writes a command's words as a line. A file is told from here, not from where the server was started. */
static bool write_command(int argc, char **argv, char line[COMMAND_ROOM]) {
    char *file = argc == 2 && strcmp(argv[0], "reload") == 0 ? realpath(argv[1], NULL) : NULL;
    size_t len = 0;
    for (int i = 0; i < argc && len < COMMAND_ROOM; i++) {
        const char *word = i == 1 && file != NULL ? file : argv[i];
        len += (size_t)snprintf(line + len, COMMAND_ROOM - len, "%s%s", i > 0 ? " " : "", word);
    }
    free(file);
    return len < COMMAND_ROOM - 1 && strchr(line, '\n') == NULL;
}

/* Sends a command to a server that runs, and prints what it says. */
static int send_command(const char *folder, int argc, char **argv) {
    char line[COMMAND_ROOM];
    if (!write_command(argc, argv, line)) {
        fprintf(stderr, "%s: no command, since it is longer than %d octets or has a line feed\n", argv[0], COMMAND_ROOM - 2);
        return EXIT_FAILURE;
    }
    enum told told = tell(folder, line, stdout);
    if (told == TOLD_NOBODY) {
        fprintf(stderr, "%s: no answer: %s\n", folder, strerror(errno));
    }
    if (fflush(stdout) != 0) {
        perror("standard output");
        return EXIT_FAILURE;
    }
    return told == TOLD_DONE ? EXIT_SUCCESS : EXIT_FAILURE;
}

#endif
