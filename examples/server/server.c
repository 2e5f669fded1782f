/*
 * A name server of one zone, whose keys are PEM files: it answers by UDP and TCP, signs by OpenSSL as it answers, and its keys roll as
 * a socket says. docs/use/SERVER.md is about it.
 *
 * usage: server [--address=A] [--port=N] [--share] [--backdate=SECONDS] [--step=SECONDS] [--rate=N] [--responses=N]
 *               [--chain=WORDS] [--origin=NAME] [--auto] [--log=FILE] [--every=SECONDS] [--watch=HOST:PORT]..
 *               [--parent=HOST:PORT].. [--look=SECONDS] FOLDER [MASTER-FILE]
 *        server --ctl FOLDER COMMAND..
 *
 * FOLDER has keys/NAME.pem, and gets the journal and the socket. A journal that is new begins with the records of MASTER-FILE.
 * To build it: cc server.c $(pkg-config --cflags --libs zermuita) -lcrypto
 */
#define _GNU_SOURCE
#include <dirent.h>
#include <errno.h>
#include <netdb.h>
#include <netinet/in.h>
#include <poll.h>
#include <signal.h>
#include <stddef.h>
#include <sys/resource.h>
#include <sys/socket.h>
#include <sys/wait.h>
#include "ctl.h"
#include "watch.h"

enum {
    CONNECTIONS = 64, OF_NETWORK = 16, SEND_ROOM = 1 << 16, QUERY_SECONDS = 10, WATCH_SECONDS = 5, DATAGRAMS = 64, FIRST = 3, DAY = 86400,
    DESCRIPTORS = FIRST + CONNECTIONS + 32,
};

/* A TCP connection: octets of a query behind its length, then those of its response. */
struct connection {
    uint8_t in[2 + 65535], *out;
    size_t have, len, sent;
    time_t until; /* the second in which the query has to be whole, or the response to be read */
    uint64_t network;
};

struct server {
    struct served served;
    struct connection *connections[CONNECTIONS];
    struct pollfd polled[FIRST + CONNECTIONS]; /* datagrams, the listener, commands, connections */
    bool is_auto, is_stopping;
    time_t every, count_at, look_at, refused_at; /* seconds: between counts in the log, their next one, the next look at waits */
    char **watch;    /* the options of the process that watches; null where no server is watched */
    pid_t watcher;   /* that process, 0 where there is none now */
    time_t watch_at; /* when it is begun again, if it ended */
};

struct options {
    const char *address, *port, *origin, *chain, *folder, *file, *log;
    const char *servers[WATCHED], *parents[WATCHED];
    size_t server_count, parent_count;
    uint64_t backdate, step, rate, responses, every, look;
    bool is_auto, is_shared;
};

static volatile sig_atomic_t is_told_to_stop, is_told_to_reopen;

static void on_signal(int number) {
    if (number == SIGHUP) {
        is_told_to_reopen = 1;
    } else {
        is_told_to_stop = 1;
    }
}

/* Seconds by a clock that nobody sets. */
static time_t seconds(void) {
    struct timespec now;
    clock_gettime(CLOCK_MONOTONIC, &now);
    return now.tv_sec;
}

/* Has each datagram say which address it came to, where that is any of this machine's: its reply must come from there. */
static bool tells_address(int fd, const struct sockaddr *at) {
    int yes = 1;
    if (at->sa_family == AF_INET6) {
        const struct sockaddr_in6 *it = (const struct sockaddr_in6 *)(const void *)at;
        return !IN6_IS_ADDR_UNSPECIFIED(&it->sin6_addr) || setsockopt(fd, IPPROTO_IPV6, IPV6_RECVPKTINFO, &yes, sizeof yes) == 0;
    }
    const struct sockaddr_in *it = (const struct sockaddr_in *)(const void *)at;
    return it->sin_addr.s_addr != htonl(INADDR_ANY) || setsockopt(fd, IPPROTO_IP, IP_PKTINFO, &yes, sizeof yes) == 0;
}

/* A socket at the address, which servers share if they are all told to. */
static int bound(int type, const struct options *options) {
    struct addrinfo wanted = {.ai_flags = AI_NUMERICHOST | AI_NUMERICSERV | AI_PASSIVE, .ai_socktype = type}, *at = NULL;
    if (getaddrinfo(options->address, options->port, &wanted, &at) != 0) {
        LOG("failure", as_text("what", "address"), as_text("why", "no address, or no port"), as_text("address", options->address),
            as_text("port", options->port));
        exit(EXIT_FAILURE);
    }
    int fd = socket(at->ai_family, type | SOCK_NONBLOCK | SOCK_CLOEXEC, 0), yes = 1;
    bool is_stream = type == SOCK_STREAM;
    if (fd < 0 || (is_stream && setsockopt(fd, SOL_SOCKET, SO_REUSEADDR, &yes, sizeof yes) != 0)
        || (options->is_shared && setsockopt(fd, SOL_SOCKET, SO_REUSEPORT, &yes, sizeof yes) != 0)
        || (!is_stream && !tells_address(fd, at->ai_addr)) || bind(fd, at->ai_addr, at->ai_addrlen) != 0
        || (is_stream && listen(fd, 64) != 0)) {
        fail(options->address);
    }
    freeaddrinfo(at);
    return fd;
}

/* A socket for commands; -1 where it cannot be made. */
static int bound_in(const char *folder) {
    struct sockaddr_un at;
    int fd = socket_in(folder, &at) ? socket(AF_UNIX, SOCK_STREAM | SOCK_CLOEXEC, 0) : -1;
    if (fd < 0) {
        return -1;
    }
    unlink(at.sun_path);
    mode_t mask = umask(077);
    bool is_bound = bind(fd, (struct sockaddr *)&at, sizeof at) == 0 && listen(fd, 8) == 0;
    umask(mask);
    if (!is_bound) {
        int why = errno;
        close(fd);
        errno = why;
        return -1;
    }
    return fd;
}

/* Takes commands, if no other server of the folder does. False where there is no socket for them. */
static bool take_commands(struct server *server) {
    struct served *served = &server->served;
    if (server->polled[2].fd >= 0 || !lock_place(served->answered_fd, COMMANDS, F_WRLCK, false)) {
        return true;
    }
    server->polled[2] = (struct pollfd){.fd = bound_in(served->folder), .events = POLLIN};
    if (server->polled[2].fd < 0) {
        log_failure("ctl", strerror(errno));
        lock_place(served->answered_fd, COMMANDS, F_UNLCK, false);
        return false;
    }
    LOG("commands", as_text("folder", served->folder));
    return true;
}

/* Lets the way back be any, where it is said which address a datagram came to and thus its reply comes from. */
static void forget_way(struct msghdr *datagram) {
    for (struct cmsghdr *it = CMSG_FIRSTHDR(datagram); it != NULL; it = CMSG_NXTHDR(datagram, it)) {
        if (it->cmsg_level == IPPROTO_IP && it->cmsg_type == IP_PKTINFO) {
            memset(CMSG_DATA(it) + offsetof(struct in_pktinfo, ipi_ifindex), 0, sizeof(int));
        } else if (it->cmsg_level == IPPROTO_IPV6 && it->cmsg_type == IPV6_PKTINFO) {
            memset(CMSG_DATA(it) + offsetof(struct in6_pktinfo, ipi6_ifindex), 0, sizeof(unsigned));
        }
    }
}

static void answer_datagrams(struct server *server) {
    uint8_t query[65535];
    struct served *served = &server->served;
    for (int i = 0; i < DATAGRAMS; i++) {
        struct sockaddr_storage from = {0};
        union {
            struct cmsghdr first;
            uint8_t octets[CMSG_SPACE(sizeof(struct in6_pktinfo))];
        } address;
        struct iovec octets = {query, sizeof query};
        struct msghdr datagram = {
            .msg_name = &from, .msg_namelen = sizeof from, .msg_iov = &octets, .msg_iovlen = 1, .msg_control = &address,
            .msg_controllen = sizeof address,
        };
        ssize_t len = recvmsg(server->polled[0].fd, &datagram, 0);
        if (len < 0) {
            return;
        }
        enum turn turn = turn_of(&served->limits, &from, time(NULL));
        size_t count = turn == ANSWER ? respond(served, query, (size_t)len, false)
            : turn == SAY_TCP         ? write_header(served->out, query, (size_t)len, 0x02, 0)
                                      : 0;
        if (count > 0) {
            octets = (struct iovec){served->out, count};
            forget_way(&datagram);
            sendmsg(server->polled[0].fd, &datagram, 0);
        }
    }
}

static void close_connection(struct server *server, size_t at) {
    close(server->polled[FIRST + at].fd);
    server->polled[FIRST + at].fd = -1;
    free(server->connections[at]->out);
    free(server->connections[at]);
    server->connections[at] = NULL;
}

/* Counts a connection that is closed for a limit, and logs it, one in a second at most. */
static void refuse_connection(struct server *server, const struct sockaddr_storage *from, socklen_t from_len, const char *why) {
    char name[NI_MAXHOST] = "";
    uint64_t count = ++server->served.counts.refused;
    if (seconds() != server->refused_at) {
        server->refused_at = seconds();
        getnameinfo((const struct sockaddr *)from, from_len, name, sizeof name, NULL, 0, NI_NUMERICHOST);
        LOG("failure", as_text("what", "connection"), as_text("why", why), as_text("from", name), as_number("refused", count));
    }
}

/* Takes a connection, if there is a place and its network does not have too many. */
static void accept_connection(struct server *server) {
    struct sockaddr_storage from = {0};
    socklen_t from_len = sizeof from;
    int fd = accept4(server->polled[1].fd, (struct sockaddr *)&from, &from_len, SOCK_NONBLOCK | SOCK_CLOEXEC);
    size_t place = CONNECTIONS, same = 0;
    int room = SEND_ROOM;
    if (fd < 0) {
        return;
    }
    for (size_t i = 0; i < CONNECTIONS; i++) {
        struct connection *connection = server->connections[i];
        place = connection == NULL && place == CONNECTIONS ? i : place;
        same += connection != NULL && connection->network == network_of(&from);
    }
    struct connection *made = place < CONNECTIONS && same < OF_NETWORK ? calloc(1, sizeof *made) : NULL;
    if (made == NULL || setsockopt(fd, SOL_SOCKET, SO_SNDBUF, &room, sizeof room) != 0) {
        refuse_connection(server, &from, from_len, place == CONNECTIONS ? "there are too many" : same >= OF_NETWORK
            ? "its network has too many" : strerror(errno));
        free(made);
        close(fd);
        return;
    }
    made->until = seconds() + QUERY_SECONDS;
    made->network = network_of(&from);
    server->connections[place] = made;
    server->polled[FIRST + place] = (struct pollfd){.fd = fd, .events = POLLIN};
}

/* Sends what is left of a response. Gives false where the connection is over. */
static bool send_rest(struct connection *connection, int fd) {
    ssize_t count = send(fd, connection->out + connection->sent, connection->len - connection->sent, MSG_NOSIGNAL);
    if (count < 0) {
        return errno == EAGAIN || errno == EINTR;
    }
    connection->sent += (size_t)count;
    if (connection->sent == connection->len) {
        free(connection->out);
        connection->out = NULL;
        connection->len = connection->sent = 0;
        connection->until = seconds() + QUERY_SECONDS;
    }
    return true;
}

/* Answers the query that stands in front of what has come, if it is whole. Gives false where the connection is over. */
static bool answer_stream(struct server *server, struct connection *connection) {
    size_t len = connection->have < 2 ? 0 : zermuita_number(connection->in, 2);
    if (connection->out != NULL || connection->have < 2 || connection->have < 2 + len) {
        return true;
    }
    size_t count = respond(&server->served, connection->in + 2, len, true);
    if (count == 0 || count > 65535 || (connection->out = malloc(2 + count)) == NULL) {
        return false;
    }
    connection->out[0] = (uint8_t)(count >> 8);
    connection->out[1] = (uint8_t)count;
    memcpy(connection->out + 2, server->served.out, count);
    connection->len = 2 + count;
    connection->until = seconds() + QUERY_SECONDS;
    connection->have -= 2 + len;
    memmove(connection->in, connection->in + 2 + len, connection->have);
    return true;
}

/* Goes on with a connection. Gives false where it is over. */
static bool go_on(struct server *server, struct connection *connection, struct pollfd *polled) {
    if (connection->out != NULL) {
        if (polled->revents & (POLLOUT | POLLHUP | POLLERR) && !send_rest(connection, polled->fd)) {
            return false;
        }
    } else if (polled->revents & (POLLIN | POLLHUP | POLLERR)) {
        ssize_t count = recv(polled->fd, connection->in + connection->have, sizeof connection->in - connection->have, 0);
        if (count == 0 || (count < 0 && errno != EAGAIN && errno != EINTR)) {
            return false;
        }
        connection->have += count > 0 ? (size_t)count : 0;
    }
    if (!answer_stream(server, connection)) {
        return false;
    }
    polled->events = connection->out != NULL ? POLLOUT : POLLIN;
    return true;
}

static void answer_connections(struct server *server) {
    for (size_t i = 0; i < CONNECTIONS; i++) {
        struct connection *connection = server->connections[i];
        struct pollfd *polled = &server->polled[FIRST + i];
        if (connection == NULL) {
            continue;
        }
        if (polled->revents != 0 && !go_on(server, connection, polled)) {
            close_connection(server, i);
        }
    }
}

/* Answers what has come. */
static void answer(struct server *server) {
    begin_answers(&server->served);
    if (server->polled[0].revents != 0) {
        answer_datagrams(server);
    }
    answer_connections(server);
    end_turn(&server->served);
}

/* Closes the connections whose time is over. */
static void close_late(struct server *server) {
    for (size_t i = 0; i < CONNECTIONS; i++) {
        if (server->connections[i] != NULL && seconds() >= server->connections[i]->until) {
            close_connection(server, i);
        }
    }
}

/* Reads a line within a second. */
static bool read_command(int fd, char *line, size_t room) {
    size_t have = 0;
    struct timespec begun, now;
    clock_gettime(CLOCK_MONOTONIC, &begun);
    for (;;) {
        struct pollfd polled = {.fd = fd, .events = POLLIN};
        clock_gettime(CLOCK_MONOTONIC, &now);
        long passed = (now.tv_sec - begun.tv_sec) * 1000 + (now.tv_nsec - begun.tv_nsec) / 1000000;
        ssize_t count = passed < 1000 && poll(&polled, 1, 1000 - (int)passed) == 1 ? recv(fd, line + have, room - 1 - have, 0) : 0;
        if (count <= 0) {
            return false;
        }
        have += (size_t)count;
        line[have] = 0;
        char *end = strchr(line, '\n');
        if (end != NULL || have == room - 1) {
            line[end != NULL ? (size_t)(end - line) : 0] = 0;
            return end != NULL;
        }
    }
}

/* Takes a command, a line, and says what came of it: `+`, or `-` where it was not done, and text. */
static void answer_command(struct server *server) {
    char line[COMMAND_ROOM], *text = NULL;
    size_t len = 0;
    struct timeval second = {.tv_sec = 1};
    int fd = accept4(server->polled[2].fd, NULL, NULL, SOCK_CLOEXEC);
    FILE *said = fd >= 0 && read_command(fd, line, sizeof line) ? open_memstream(&text, &len) : NULL;
    if (fd >= 0 && said == NULL) {
        log_failure("command", "no line came within a second, or it is too long");
    }
    if (said != NULL) {
        fputc('-', said);
        begin_turn(&server->served, F_WRLCK);
        bool is_done = do_command(&server->served, line, said, &server->is_stopping);
        end_turn(&server->served);
        if (fclose(said) == 0 && setsockopt(fd, SOL_SOCKET, SO_SNDTIMEO, &second, sizeof second) == 0) {
            text[0] = is_done ? '+' : '-';
            send(fd, text, len, MSG_NOSIGNAL);
        }
        if (strcmp(line, "due") != 0) {
            log_said("command", line, is_done, text != NULL && len > 0 ? text + 1 : (char[]){""}, line_moment(&server->served));
        }
    }
    free(text);
    if (fd >= 0) {
        close(fd);
    }
}

/* Begins the process that watches, or begins it again seconds after it ended. */
static void keep_watch(struct server *server) {
    if (server->watch == NULL) {
        return;
    }
    if (server->watcher > 0 && waitpid(server->watcher, NULL, WNOHANG) == server->watcher) {
        log_failure("watch", "it ended, and begins again");
        server->watcher = 0;
        server->watch_at = seconds() + WATCH_SECONDS;
    }
    if (server->watcher == 0 && seconds() >= server->watch_at) {
        server->watcher = begin_watch(server->watch);
        server->watch_at = seconds() + WATCH_SECONDS;
        if (server->watcher < 0) {
            log_failure("watch", strerror(errno));
            server->watcher = 0;
        }
    }
}

/* Does what is due each second, or behind a wait or a socket that failed a minute later. */
static bool look_around(struct server *server) {
    struct served *served = &server->served;
    bool is_done = take_commands(server);
    if (server->polled[2].fd >= 0 && (server->is_auto || served->journal.is_torn)) {
        begin_turn(served, F_WRLCK);
        is_done = (!server->is_auto || end_waits(served)) && is_done;
        end_turn(served);
    }
    return is_done;
}

/* Does what is due by the clock. */
static void look_at_clock(struct server *server) {
    time_t now = seconds();
    keep_watch(server);
    if (now >= server->look_at) {
        server->look_at = now + (look_around(server) ? 1 : 60);
    }
    if (server->every > 0 && now >= server->count_at) {
        server->count_at = now + server->every;
        log_counts(&server->served);
    }
}

/* Opens the log again, here and in the process that watches. */
static void reopen_logs(struct server *server) {
    reopen_log("server");
    if (server->watcher > 0) {
        kill(server->watcher, SIGHUP);
    }
}

static void serve(struct server *server) {
    server->count_at = seconds() + server->every;
    while (!server->is_stopping && !is_told_to_stop) {
        int count = poll(server->polled, FIRST + CONNECTIONS, 1000);
        if (is_told_to_reopen) {
            is_told_to_reopen = 0;
            reopen_logs(server);
        }
        if (count > 0) {
            answer(server);
            if (server->polled[1].revents != 0) {
                accept_connection(server);
            }
            if (server->polled[2].revents != 0) {
                answer_command(server);
            }
        }
        close_late(server);
        look_at_clock(server);
    }
}

static void close_all(struct server *server) {
    struct served *served = &server->served;
    for (size_t i = 0; i < CONNECTIONS; i++) {
        if (server->connections[i] != NULL) {
            close_connection(server, i);
        }
    }
    for (size_t i = 0; i < served->keys.count; i++) {
        EVP_PKEY_free(served->keys.list[i].pair);
    }
    zermuita_zone_close(&served->zone);
    free(served->cache.places);
    free(served->responses.places);
    free(served->limits.networks);
    free(served->out);
    free(served->made);
    free(server);
}

/* Reads all keys of the folder, since the zone may sign with any. */
static void read_keys(struct keys *keys) {
    DIR *folder = opendir(keys->folder);
    if (folder == NULL) {
        log_failure(keys->folder, strerror(errno));
    }
    for (struct dirent *entry; folder != NULL && (entry = readdir(folder)) != NULL;) {
        char *end = strrchr(entry->d_name, '.');
        if (end != NULL && strcmp(end, ".pem") == 0) {
            *end = 0;
            if (key_named(keys, entry->d_name) == NULL) {
                log_unread(keys, entry->d_name);
            }
        }
    }
    if (folder != NULL) {
        closedir(folder);
    }
}

/* What an option says, if the word is this one. */
static bool is_option(const char *word, const char *name, const char **said) {
    size_t len = strlen(name);
    bool is_it = strncmp(word, name, len) == 0;
    *said = is_it ? word + len : *said;
    return is_it;
}

/* Takes a word that may be given several times. */
static bool is_place(const char *word, const char *name, const char *places[WATCHED], size_t *count) {
    const char *place = NULL;
    if (!is_option(word, name, &place) || *count == WATCHED) {
        return false;
    }
    places[(*count)++] = place;
    return true;
}

static bool read_options(struct options *options, int argc, char **argv) {
    const char *backdate = "3600", *step = "60", *rate = "200", *responses = "8192", *every = "3600", *look = "60";
    uint64_t port;
    int at = 1;
    *options = (struct options){.address = "127.0.0.1", .port = "5353", .origin = "", .chain = "nsec 0 604800"};
    for (; at < argc && argv[at][0] == '-'; at++) {
        const char *word = argv[at];
        if (strcmp(word, "--auto") == 0) {
            options->is_auto = true;
        } else if (strcmp(word, "--share") == 0) {
            options->is_shared = true;
        } else if (!is_option(word, "--address=", &options->address) && !is_option(word, "--port=", &options->port)
                   && !is_option(word, "--chain=", &options->chain) && !is_option(word, "--origin=", &options->origin)
                   && !is_option(word, "--backdate=", &backdate)
                   && !is_option(word, "--step=", &step) && !is_option(word, "--rate=", &rate)
                   && !is_option(word, "--responses=", &responses)
                   && !is_option(word, "--log=", &options->log) && !is_option(word, "--every=", &every)
                   && !is_option(word, "--look=", &look)
                   && !is_place(word, "--watch=", options->servers, &options->server_count)
                   && !is_place(word, "--parent=", options->parents, &options->parent_count)) {
            return false;
        }
    }
    options->folder = at < argc ? argv[at] : NULL;
    options->file = at + 1 < argc ? argv[at + 1] : NULL;
    bool are_numbers = read_number(options->port, 2, &port) && read_number(backdate, 4, &options->backdate)
        && read_number(step, 4, &options->step) && read_number(rate, 4, &options->rate) && read_number(responses, 3, &options->responses)
        && read_number(every, 4, &options->every) && read_number(look, 2, &options->look);
    return options->folder != NULL && at + 2 >= argc && are_numbers && port > 0 && options->look > 0 && options->step > 0
        && options->step <= DAY && options->backdate <= DAY;
}

/* Begins the journal of a folder that is new. */
static void begin_folder(struct served *served, const struct options *options) {
    char *text = NULL;
    size_t len = 0;
    FILE *said = open_memstream(&text, &len);
    if (said == NULL) {
        fail("memory");
    }
    if (options->file == NULL) {
        fputs("a new journal begins with a master file\n", said);
    }
    bool is_begun = options->file != NULL && begin_served(served, options->file, options->origin, options->chain, said);
    fclose(said);
    if (!is_begun) {
        log_failure(served->path, text);
        unlink(served->path); /* it has nothing yet */
        exit(EXIT_FAILURE);
    }
    free(text);
}

/* Names the files of a folder, and takes it. */
static void take_files(struct served *served, const struct options *options) {
    int folder = snprintf(served->key_folder, sizeof served->key_folder, "%s/keys", options->folder);
    int path = snprintf(served->path, sizeof served->path, "%s/journal", options->folder);
    if (folder < 0 || (size_t)folder >= sizeof served->key_folder || path < 0 || (size_t)path >= sizeof served->path) {
        errno = ENAMETOOLONG;
        fail(options->folder);
    }
    if (!take_folder(options->folder, options->is_shared)) {
        log_failure(options->folder, errno == EWOULDBLOCK ? "another server has it" : strerror(errno));
        exit(EXIT_FAILURE);
    }
    served->is_shared = options->is_shared;
    served->folder = options->folder;
    served->keys.folder = served->key_folder;
    served->backdate = (uint32_t)options->backdate;
    served->step = (uint32_t)options->step;
}

/* Whether the zone publishes a key. `set` has its DNSKEY records. */
static bool is_published(struct zermuita_octets set, unsigned algorithm, struct zermuita_octets key) {
    struct zermuita_octets rdata;
    while (zermuita_next_record(&set, &rdata)) {
        if (rdata.len == 4 + key.len && rdata.data[3] == algorithm && memcmp(rdata.data + 4, key.data, key.len) == 0) {
            return true;
        }
    }
    return false;
}

/* Whether a line adds a key of this server that the zone still publishes and that the folder lacks. */
static bool lacks_key(struct served *served, struct zermuita_octets set, const char *line) {
    char kind[16], name[KEY_NAME], text[4 * (KEY_ROOM / 3) + 1];
    uint8_t octets[KEY_ROOM];
    unsigned algorithm;
    if (sscanf(line, "key %15s %127s %u %1364s", kind, name, &algorithm, text) != 4 || strcmp(kind, "include") == 0) {
        return false;
    }
    size_t digits = strlen(text), padding = digits - strcspn(text, "=");
    int len = EVP_DecodeBlock(octets, (const unsigned char *)text, (int)digits);
    struct zermuita_octets key = {octets, len > (int)padding ? (size_t)len - padding : 0};
    if (!is_published(set, algorithm, key) || find_key(&served->keys, (uint8_t)algorithm, key) != NULL) {
        return false;
    }
    LOG("failure", as_text("what", "start"), as_text("why", "the private key of a key that the zone publishes is not in the folder"),
        as_text("folder", served->keys.folder), as_text("key", name));
    return true;
}

/* Whether the folder has the private keys of all keys that the zone publishes, except those of other owners. */
static bool has_private_keys(struct served *served) {
    struct zermuita_zone_report report = {.size = sizeof report};
    uint32_t reply = zermuita_zone_records(&served->zone, TYPE_DNSKEY, served->out, OUT_ROOM, &report);
    char *lines = reply == ZERMUITA_ZONE_DONE ? (char *)read_journal(&served->journal, 0, served->journal.len) : NULL;
    struct zermuita_octets set = {served->out, report.len};
    bool has = lines != NULL;
    for (char *line = lines, *end; has && (end = strchr(line, '\n')) != NULL; line = end + 1) {
        *end = 0;
        has = !lacks_key(served, set, line);
    }
    free(lines);
    return has;
}

/* Opens the zone of a folder, whose journal begins with a master file if it is new. */
static void open_folder(struct served *served, const struct options *options) {
    take_files(served, options);
    served->out = malloc(OUT_ROOM);
    served->made = malloc(OUT_ROOM);
    served->cache.places = calloc(CACHE_PLACES, sizeof *served->cache.places);
    served->responses.count = options->responses;
    served->responses.places = calloc(options->responses + 1, sizeof *served->responses.places);
    served->answered_fd = open_answered(options->folder);
    if (served->answered_fd < 0 || (served->is_shared && !take_turn(served->answered_fd, F_WRLCK)) || !read_note(served)) {
        fail("answered");
    }
    if (served->out == NULL || served->made == NULL || served->cache.places == NULL || served->responses.places == NULL
        || !begin_limits(&served->limits, (uint32_t)options->rate) || !open_journal(&served->journal, served->path)) {
        fail(served->path);
    }
    bool is_new = served->journal.len == 0;
    if (is_new && served->answered > 0) {
        log_failure(served->path, "the folder has answered, and its journal is gone: put it back; where the zone is to begin anew, "
                                  "which validators refuse until its parent has the new keys, remove the file `answered` first");
        unlink(served->path); /* it has nothing */
        exit(EXIT_FAILURE);
    }
    if (is_new) {
        begin_folder(served, options);
    }
    read_keys(&served->keys);
    if (!open_served(served)) {
        if (is_new && unlink(served->path) == 0) {
            LOG("failure", as_text("what", options->file), as_text("why", "it makes no zone: the new journal is gone again"),
                as_text("chain", options->chain));
        }
        exit(EXIT_FAILURE);
    }
    if (!has_private_keys(served)) {
        exit(EXIT_FAILURE);
    }
    /* Where no moment is noted, that of the start counts as one of an answer: a folder may have come here without its file. */
    if (served->answered == 0 && !write_note(served, line_moment(served))) {
        fail("answered");
    }
    end_turn(served);
}

/* Says that the server answers, to its log and on standard output. */
static void say_start(const struct server *server, const struct options *options) {
    const struct served *served = &server->served;
    LOG("start", as_text("address", options->address), as_text("port", options->port), as_text("zone", served->apex),
        as_text("folder", options->folder), as_truth("auto", options->is_auto), as_truth("share", options->is_shared),
        as_number("journal", served->journal.len), as_number("moment", served->floor));
    printf("it answers on %s, port %s\n", options->address, options->port);
    fflush(stdout);
}

/* Reads which servers are to be watched; null where none are. */
static struct watch *read_watch(const struct options *options) {
    struct watch *watch = options->server_count + options->parent_count > 0 ? calloc(1, sizeof *watch) : NULL;
    if (watch == NULL) {
        return NULL;
    }
    bool is_read = read_peer(&watch->own, options->address, options->port);
    watch->folder = options->folder;
    watch->seconds = (unsigned)options->look;
    for (; is_read && watch->server_count < options->server_count; watch->server_count++) {
        is_read = read_address(&watch->servers[watch->server_count], options->servers[watch->server_count]);
    }
    for (; is_read && watch->parent_count < options->parent_count; watch->parent_count++) {
        is_read = read_address(&watch->parents[watch->parent_count].peer, options->parents[watch->parent_count]);
    }
    if (!is_read) {
        log_failure("watch", "no address, or no port");
        exit(EXIT_FAILURE);
    }
    return watch;
}

/* Whether there are descriptors for all connections: where one is missing, a connection that waits would be tried again and again. */
static bool has_descriptors(void) {
    struct rlimit limit;
    if (getrlimit(RLIMIT_NOFILE, &limit) != 0) {
        return false;
    }
    limit.rlim_cur = limit.rlim_cur < DESCRIPTORS ? DESCRIPTORS : limit.rlim_cur;
    errno = EMFILE;
    return limit.rlim_cur <= limit.rlim_max && setrlimit(RLIMIT_NOFILE, &limit) == 0;
}

/* Signals that end the server, and those that are to be errors of a call. */
static void take_signals(void) {
    signal(SIGTERM, on_signal);
    signal(SIGINT, on_signal);
    signal(SIGHUP, on_signal);
    signal(SIGPIPE, SIG_IGN);
    signal(SIGXFSZ, SIG_IGN);
}

/* Opens all that requests and commands come by. */
static void open_sockets(struct server *server, const struct options *options) {
    server->polled[0] = (struct pollfd){.fd = bound(SOCK_DGRAM, options), .events = POLLIN};
    server->polled[1] = (struct pollfd){.fd = bound(SOCK_STREAM, options), .events = POLLIN};
    server->polled[2].fd = -1;
    if (!take_commands(server)) {
        exit(EXIT_FAILURE);
    }
    for (size_t i = 0; i < CONNECTIONS; i++) {
        server->polled[FIRST + i].fd = -1;
    }
}

int main(int argc, char **argv) {
    struct options options;
    if (argc > 3 && strcmp(argv[1], "--ctl") == 0) {
        signal(SIGPIPE, SIG_IGN);
        return send_command(argv[2], argc - 3, argv + 3);
    }
    /* The process beside a server that watches others begins so. */
    long looks = argc > 1 && strncmp(argv[1], "--looks=", 8) == 0 ? strtol(argv[1] + 8, NULL, 10) : 0;
    if (looks > 0) {
        argc--;
        argv++;
    }
    if (!read_options(&options, argc, argv)) {
        fputs("usage: server [--address=A] [--port=N] [--share] [--backdate=SECONDS] [--step=SECONDS] [--rate=N] [--responses=N]\n"
              "              [--chain=WORDS] [--origin=NAME] [--auto] [--log=FILE] [--every=SECONDS] [--watch=HOST:PORT]..\n"
              "              [--parent=HOST:PORT].. [--look=SECONDS] FOLDER [MASTER-FILE]\n"
              "       server --ctl FOLDER COMMAND..\n", stderr);
        return EXIT_FAILURE;
    }
    if (options.log != NULL && !open_log(options.log)) {
        perror(options.log);
        return EXIT_FAILURE;
    }
    if (looks > 0) {
        struct watch *watch = read_watch(&options);
        if (watch != NULL) {
            look_on(watch, looks);
        }
        free(watch);
        return EXIT_SUCCESS;
    }
    struct server *server = calloc(1, sizeof *server);
    if (server == NULL) {
        fail("memory");
    }
    struct watch *watch = read_watch(&options);
    server->watch = watch != NULL ? argv + 1 : NULL;
    free(watch);
    take_signals();
    server->is_auto = options.is_auto;
    server->every = (time_t)options.every;
    if (!has_descriptors()) {
        fail("descriptors");
    }
    open_folder(&server->served, &options);
    open_sockets(server, &options);
    say_start(server, &options);
    serve(server);
    log_counts(&server->served);
    LOG("stop", as_text("why", server->is_stopping ? "command" : "signal"), as_number("moment", line_moment(&server->served)));
    close_all(server);
    return EXIT_SUCCESS;
}
