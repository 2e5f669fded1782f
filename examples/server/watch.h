/*
 * Reports that nobody has to make: a process beside the server asks the zone's servers and the parent's, and makes a report, or ends a
 * roll, once all of them show the change. It believes what they say: the way to them is to be one on which nobody forges.
 *
 * A report's TTL is the greatest of what was there before: of the zone the greatest that its records have or had; of the parent the
 * greatest that its servers said, which is known where each of them was asked while it had another DS set.
 */
#ifndef WATCH_H
#define WATCH_H

#include "ask.h"
#include "client.h"
#include "ds.h"
#include "log.h"
#include <signal.h>
#include <sys/prctl.h>

enum { WATCHED = 16 };

/* A server of the parent. */
struct parent {
    struct peer peer;
    struct set last;   /* the last DS set that it said */
    bool is_known;     /* it said one */
    bool is_now;       /* it did when it was asked last */
    bool was_other;    /* it said one that is not wanted now */
    uint32_t greatest; /* TTL of all that it said */
};

struct watch {
    const char *folder;
    unsigned seconds; /* between two looks */
    struct peer own, servers[WATCHED];
    struct parent parents[WATCHED];
    size_t server_count, parent_count;
    struct name name;  /* of the zone */
    uint32_t greatest; /* TTL of the zone's records */
    struct set wanted; /* the DS set that the parent is to have */
    struct set made;   /* the DS data of all keys that the zone publishes, with each digest that is made here */
    char lacking[512]; /* what the log said last of it */
};

/* Notes what a server lacks, if it was not noted last. False, as what it is about. */
static bool lacks(struct watch *watch, const char *peer, const char *what) {
    char text[sizeof watch->lacking];
    snprintf(text, sizeof text, "%s %s", peer, what);
    if (strcmp(text, watch->lacking) != 0) {
        memcpy(watch->lacking, text, sizeof text);
        LOG("lacks", as_text("server", peer), as_text("what", what));
    }
    return false;
}

/* Whether all servers of the zone show what this one shows. */
static bool have_set(struct watch *watch, uint16_t rtype, const char *what) {
    static struct set own, theirs;
    if (!ask_set(&watch->own, &watch->name, rtype, &own) || own.len == 0) {
        return lacks(watch, "the server itself", what);
    }
    for (size_t i = 0; i < watch->server_count; i++) {
        if (!ask_set(&watch->servers[i], &watch->name, rtype, &theirs) || !is_same(&own, &theirs)) {
            return lacks(watch, watch->servers[i].name, what);
        }
    }
    return watch->server_count > 0 || lacks(watch, "none", "is named by --watch");
}

/* Asks the parent's servers for the DS set. */
static void look_at_parents(struct watch *watch) {
    static struct set found;
    for (size_t i = 0; i < watch->parent_count; i++) {
        struct parent *parent = &watch->parents[i];
        parent->is_now = ask_set(&parent->peer, &watch->name, TYPE_DS, &found);
        if (parent->is_now) {
            parent->is_known = true;
            parent->last = found;
            parent->greatest = found.ttl > parent->greatest ? found.ttl : parent->greatest;
            parent->was_other = parent->was_other || !names_wanted(&found, &watch->wanted, &watch->made);
        }
    }
}

/* A DS record's data of a line that says it. */
static bool add_ds(struct set *set, const char *line) {
    uint8_t octets[4 + 64];
    unsigned tag, algorithm, type;
    char digest[129];
    size_t len = 4;
    if (sscanf(line, "DS %u %u %u %128s", &tag, &algorithm, &type, digest) != 4) {
        return false;
    }
    octets[0] = (uint8_t)(tag >> 8);
    octets[1] = (uint8_t)tag;
    octets[2] = (uint8_t)algorithm;
    octets[3] = (uint8_t)type;
    for (const char *at = digest; at[0] != 0 && at[1] != 0; at += 2) {
        const char pair[] = {at[0], at[1], 0};
        octets[len++] = (uint8_t)strtoul(pair, NULL, 16);
    }
    return add_line(set, octets, len);
}

/* Takes the DS set that the parent is to have. Where it is a new one, what a server said before is another one, or the same. */
static void take_wanted(struct watch *watch, const struct set *set) {
    static struct set keys;
    if (!ask_set(&watch->own, &watch->name, TYPE_DNSKEY, &keys) || !digests_of(&keys, &watch->name, &watch->made)) {
        watch->made = (struct set){.len = 0};
    }
    for (size_t i = 0; !is_same(set, &watch->wanted) && i < watch->parent_count; i++) {
        struct parent *parent = &watch->parents[i];
        parent->was_other = parent->is_known && !names_wanted(&parent->last, set, &watch->made);
    }
    watch->wanted = *set;
}

/* Whether all servers of the parent have the DS set, and the TTL of the one before is known if it is to be. */
static bool have_ds(struct watch *watch, bool needs_ttl) {
    for (size_t i = 0; i < watch->parent_count; i++) {
        struct parent *parent = &watch->parents[i];
        if (!parent->is_now || !names_wanted(&parent->last, &watch->wanted, &watch->made)) {
            return lacks(watch, parent->peer.name, "DS");
        } else if (needs_ttl && !parent->was_other) {
            return lacks(watch, parent->peer.name, "the TTL of the DS set before, which was not seen: report it by hand");
        }
    }
    return watch->parent_count > 0 || lacks(watch, "none", "is named by --parent");
}

/* The octets of the journal, in memory of their own; null where it cannot be read. */
static uint8_t *read_lines(const struct watch *watch, size_t *len) {
    char path[512], part[4096], *octets = NULL;
    snprintf(path, sizeof path, "%s/journal", watch->folder);
    FILE *file = fopen(path, "r"), *out = file == NULL ? NULL : open_memstream(&octets, len);
    for (size_t count; out != NULL && (count = fread(part, 1, sizeof part, file)) > 0;) {
        fwrite(part, 1, count, out);
    }
    bool is_read = out != NULL && !ferror(file) && !ferror(out);
    is_read = out != NULL && fclose(out) == 0 && is_read;
    if (file != NULL) {
        fclose(file);
    }
    if (!is_read) {
        free(octets);
        return NULL;
    }
    return (uint8_t *)octets;
}

/* Reads the zone's name and the greatest TTL of the records that it has or had. */
static bool read_zone(struct watch *watch) {
    char name[NAME_TEXT];
    size_t len = 0;
    struct zermuita_zone zone = ZERMUITA_ZONE_CLOSED;
    struct zermuita_zone_report report = {.size = sizeof report};
    struct zermuita_facts facts = {.size = sizeof facts};
    uint8_t *lines = read_lines(watch, &len);
    bool is_open = lines != NULL && zermuita_zone_open(&zone, lines, len, (uint8_t *)name, sizeof name, &report) == ZERMUITA_ZONE_DONE;
    bool is_read = is_open && zermuita_zone_facts(&zone, (uint8_t *)name, sizeof name - 1, &facts) == ZERMUITA_ZONE_DONE;
    zermuita_zone_close(&zone);
    free(lines);
    if (is_read) {
        name[facts.len] = 0;
        watch->greatest = facts.ttl;
    }
    return is_read && read_name(name, &watch->name);
}

/* Makes the report that a line of the status asks for, or ends the roll, if all servers show what it is about. */
static void look_at_roll(struct watch *watch, const char *line) {
    char roll[32], step[16], command[COMMAND_ROOM], *text = NULL;
    size_t len = 0;
    bool is_step = sscanf(line, "%31[^:]: %15s is next", roll, step) == 2;
    bool is_report = is_step && strncmp(step, "report", 6) == 0;
    bool of_zone = strstr(line, "DnskeyPropagated") != NULL || strstr(line, "RrsigPropagated") != NULL;
    bool of_parent = strstr(line, "DsPropagated") != NULL;
    if (!is_report && !(is_step && strcmp(step, "done") == 0)) {
        return;
    } else if (strstr(line, "DnskeyPropagated") != NULL && !have_set(watch, TYPE_DNSKEY, "DNSKEY")) {
        return;
    } else if (strstr(line, "RrsigPropagated") != NULL && !have_set(watch, TYPE_SOA, "RRSIG")) {
        return;
    } else if (of_parent && !have_ds(watch, is_report)) {
        return;
    }
    uint32_t ttl = of_zone ? watch->greatest : 0;
    for (size_t i = 0; of_parent && i < watch->parent_count; i++) {
        ttl = watch->parents[i].greatest > ttl ? watch->parents[i].greatest : ttl;
    }
    snprintf(command, sizeof command, is_report ? "%s %s %" PRIu32 : "%s %s", step, roll, ttl);
    FILE *said = open_memstream(&text, &len);
    bool is_done = said != NULL && tell(watch->folder, command, said) == TOLD_DONE;
    if (said != NULL && fclose(said) == 0) {
        text[strcspn(text, "\n")] = 0;
        LOG("watch", as_text("line", command), as_truth("done", is_done), as_text("said", text));
        watch->lacking[0] = 0;
    }
    free(text);
}

/* What the server says to a command, in memory of its own; null where it says nothing. */
static char *say_of(const struct watch *watch, const char *command) {
    char *text = NULL;
    size_t len = 0;
    FILE *said = open_memstream(&text, &len);
    bool is_said = said != NULL && tell(watch->folder, command, said) == TOLD_DONE;
    if (said != NULL && fclose(said) == 0 && is_said) {
        return text;
    }
    free(text);
    return NULL;
}

/* Asks all servers that are to be asked, once. */
static void look(struct watch *watch) {
    static struct set wanted;
    char *due = say_of(watch, "due"), *copy = due != NULL ? strdup(due) : NULL, *rest = copy;
    wanted = (struct set){.len = 0};
    if (copy != NULL && read_zone(watch)) {
        for (char *line; (line = strsep(&rest, "\n")) != NULL;) {
            add_ds(&wanted, line);
        }
        take_wanted(watch, &wanted);
        look_at_parents(watch);
        for (rest = due; rest != NULL;) {
            look_at_roll(watch, strsep(&rest, "\n"));
        }
    }
    free(copy);
    free(due);
}

static volatile sig_atomic_t is_watch_reopening;

static void reopen_in_watch(int number) {
    (void)number;
    is_watch_reopening = 1;
}

/* Sleeps, and opens the log again whenever it is told to. */
static void sleep_and_reopen(unsigned seconds) {
    do {
        if (is_watch_reopening) {
            is_watch_reopening = 0;
            reopen_log("watch");
        }
        seconds = sleep(seconds);
    } while (seconds > 0 || is_watch_reopening);
}

/*
 * Begins the process, which ends with this one: the same program with the same options behind `--looks=PID`, so that it has nothing of the
 * server's memory, keys least of all, and none of its descriptors. Gives its number, or one below 0 if it does not begin.
 */
static pid_t begin_watch(char **options) {
    char word[64];
    size_t count = 0;
    snprintf(word, sizeof word, "--looks=%ld", (long)getpid());
    while (options[count] != NULL) {
        count++;
    }
    char **words = calloc(count + 3, sizeof *words);
    pid_t made = words != NULL ? fork() : -1;
    if (made == 0) {
        words[0] = "watch";
        words[1] = word;
        memcpy(words + 2, options, count * sizeof *options);
        signal(SIGHUP, SIG_IGN); /* until the program takes it */
        execv("/proc/self/exe", words);
        _exit(EXIT_FAILURE);
    }
    free(words);
    return made;
}

/* Looks for as long as the server lives. */
static void look_on(struct watch *watch, long server) {
    prctl(PR_SET_PDEATHSIG, SIGTERM);
    signal(SIGHUP, reopen_in_watch);
    signal(SIGPIPE, SIG_IGN);
    while (getppid() == server) {
        sleep_and_reopen(watch->seconds);
        look(watch);
    }
}

#endif
