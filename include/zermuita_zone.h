/*
 * Serves a signed DNS zone: opens it from its journal, changes it by lines of text, and answers requests (RFC 1035, 4; RFC 4035,
 * 3.1; RFC 6891). zermuita_zone_open(3) and docs/use/SERVER.md show how to build a server on it.
 *
 * The library signs nothing: it lists the signatures that an answer lacks, and the caller makes them with OpenSSL, a hardware
 * module or a key server. It opens no file, reads no clock, and calls nothing but malloc, realloc and free.
 *
 * tools/man makes the man pages and docs/use/REPLIES.md from the comments of this file, as from those of zermuita.h.
 */
#ifndef ZERMUITA_ZONE_H
#define ZERMUITA_ZONE_H

#include "zermuita.h"

#ifdef __cplusplus
extern "C" {
#endif

/*
 * @page zermuita_zone_open: a signed zone whose keys roll
 *
 * A zone is opened from its journal, lines change it, and it answers requests (zermuita_zone_respond(3)). A journal is the lines
 * of a session (docs/use/SESSIONS.md of the source): the zone, its records, key calls and replacements.
 *
 * The caller owns the zone, on the stack, in a structure, or static: set it to ZERMUITA_ZONE_CLOSED once and touch no member. A
 * copy of an open zone is not a second zone.
 *
 * Pass no null pointer, not even with length 0, except inside struct zermuita_request and struct zermuita_master. What the
 * library reads must not overlap what it writes. Bytes are written to `out` if all `len` of them fit, and otherwise none.
 *
 * Use a zone only in the thread that opened it. Any number of zones may be open, also of one journal, whose lines determine what
 * each of them answers.
 *
 * @see zermuita_next_record zermuita_zone_lines zermuita_zone_respond
 * @standards RFC 6781, section 4; RFC 7344, section 3; RFC 7583.
 */

/* What a call returns. The comment after each value is the text of zermuita_zone_strerror(). */
enum zermuita_zone_reply {
    /*
     * # Replies of a zone
     */

    /* Do: Append an accepted line to the journal. */
    ZERMUITA_ZONE_DONE = 64, /* it is done */
    /* Do: Append the line; zermuita_zone_due() returns its actions again. */
    ZERMUITA_ZONE_UNTOLD = 65, /* the line is accepted, and memory ran out for what it answers */
    /* Do: Show the reason, which is in `out` if `len` bytes fit. */
    ZERMUITA_ZONE_REFUSED = 66, /* the line, the journal or the master file is refused */
    /* Do: Send `len` bytes of `out`, over TCP behind their length. */
    ZERMUITA_ZONE_RESPONSE = 67, /* these octets answer the request */
    /* Do: Send nothing; close a TCP connection. */
    ZERMUITA_ZONE_NO_RESPONSE = 68, /* nothing answers the request */
    /* Do: Make the signatures and call again. If you cannot, answer SERVFAIL. */
    ZERMUITA_ZONE_SIGN = 69, /* signatures are to be made */
    /*
     * Nothing has changed, except that the zone may note the time as answered.
     *
     * Do: Answer SERVFAIL to a request.
     */
    ZERMUITA_ZONE_OUT_OF_MEMORY = 70, /* memory ran out */
    /*
     * Only for master files, requests, zermuita_zone_due(), zermuita_zone_records() and zermuita_zone_facts().
     *
     * Do: Call again with room for `len` bytes.
     */
    ZERMUITA_ZONE_BUFFER_TOO_SMALL = 71, /* there are more octets than there is room for */

    /*
     * # Errors of the caller of a zone
     */
    ZERMUITA_ZONE_BAD_SIGNATURES = 72, /* the signatures are not entries */
    ZERMUITA_ZONE_BAD_CALL = 73,       /* a size, a number or a flag is unknown, or octets are null */
    ZERMUITA_ZONE_NOT_OPEN = 74,       /* the zone is not open */
    ZERMUITA_ZONE_IS_OPEN = 75,        /* the zone is open already */
    /* Do: Answer at a later time, `answers_from` of zermuita_zone_facts() or after it. */
    ZERMUITA_ZONE_TOO_SOON = 76, /* the time of the answer is not after the last replacement */
    /* Do: Use a smaller `backdate`, or a zone line with a longer lifetime. */
    ZERMUITA_ZONE_EXPIRED = 77 /* signatures live no longer than `backdate` */
};

/* A zone, open or closed. */
struct zermuita_zone {
    void *held;       /* the library's */
    uint32_t is_open; /* the library's */
};

/* The value of a closed zone. */
#define ZERMUITA_ZONE_CLOSED {NULL, 0}

/* What a call reports besides its reply. */
struct zermuita_zone_report {
    size_t size; /* sizeof(struct zermuita_zone_report), set before the call */
    size_t len;  /* how many bytes the output has, also if they do not fit */
    size_t line; /* for a refused journal or master file: the line, counted from 1; else 0 */
    /*
     * For a journal: how many bytes its complete lines have. What follows is an unfinished line that was not applied: cut the
     * journal here before you append to it.
     */
    size_t whole;
    /*
     * For a journal: how many bytes it has up to the last line after which no records wait for their replacement. If this is less
     * than `whole`, a replacement is incomplete: cut the journal here and open it again. If a key call follows, it was accepted
     * and a cut would lose it: remove only the `rr` lines.
     */
    size_t settled;
};

/*
 * Opens a closed zone from its journal. Returns ZERMUITA_ZONE_DONE, or ZERMUITA_ZONE_REFUSED with the line in the report and the
 * reason in `out`; then the zone stays closed. The first line that cannot be read or is refused refuses the whole journal.
 */
uint32_t zermuita_zone_open(struct zermuita_zone *zone, const uint8_t *journal, size_t journal_len, uint8_t *out, size_t out_len,
                            struct zermuita_zone_report *report);

/*
 * Applies a line without its line feed: a key call, a record for the next replacement, or a replacement. Its time is the second
 * that the clock shows, reduced as by `backdate`. A report takes the next second, because a second is over only when the next one
 * has begun: otherwise its wait may end up to a second early. `out` gets `ok` and the actions that are due, or the reason of a
 * refusal. ZERMUITA_ZONE_DONE and ZERMUITA_ZONE_UNTOLD mean that the line is accepted, even if `out` is too small: append it to
 * the journal with a line feed. With any other reply nothing has changed; after a refused replacement its records still wait.
 */
uint32_t zermuita_zone_apply(struct zermuita_zone *zone, const uint8_t *line, size_t line_len, uint8_t *out, size_t out_len,
                             struct zermuita_zone_report *report);

/*
 * Drops the records that wait for their replacement, as if their lines had not been applied. If those lines are in the journal,
 * cut them off.
 */
uint32_t zermuita_zone_forget(struct zermuita_zone *zone);

/* Closes a zone and frees everything it holds. Returns ZERMUITA_ZONE_DONE, also for a closed zone. */
uint32_t zermuita_zone_close(struct zermuita_zone *zone);

/* The rolls, in the order of docs/use/ROLLS.md. */
enum zermuita_roll {
    ZERMUITA_KSK_ROLL = 1,
    ZERMUITA_KSK_DOUBLE_DS_ROLL = 2,
    ZERMUITA_ZSK_ROLL = 3,
    ZERMUITA_ZSK_DOUBLE_SIGNATURE_ROLL = 4,
    ZERMUITA_CSK_ROLL = 5,
    ZERMUITA_ALGORITHM_ROLL = 6
};

/* The phase of a roll. */
enum zermuita_phase {
    ZERMUITA_NO_ROLL = 0,       /* it is not running */
    ZERMUITA_PROPAGATION_1 = 1, /* the first changes are spreading to all servers: `report1` is next */
    ZERMUITA_EXPIRY_1 = 2,      /* caches may hold the old records: `wait1` is next, from `from` on */
    ZERMUITA_PROPAGATION_2 = 3, /* the second changes are spreading: `report2` is next */
    ZERMUITA_EXPIRY_2 = 4,      /* `wait2` is next, from `from` on */
    ZERMUITA_ROLLED = 5         /* `done` is next */
};

/* What is due in a roll. */
struct zermuita_due {
    size_t size;    /* sizeof(struct zermuita_due), set before the call */
    size_t len;     /* how many bytes the output has */
    uint64_t from;  /* the first second at which the wait is accepted, and every later one is too; UINT64_MAX if there is none */
    uint32_t ttl;   /* in a wait: the seconds of its report; else 0 */
    uint32_t phase; /* a value of enum zermuita_phase */
};

/* Returns what is due in a roll. `out` gets the actions of its phase, each with a line feed. */
uint32_t zermuita_zone_due(struct zermuita_zone *zone, uint32_t roll, uint8_t *out, size_t out_len, struct zermuita_due *due);

/*
 * Returns a set of records by its type: 48, the DNSKEY set; 43, the DS set to publish at the parent; 59 and 60, the CDS and
 * CDNSKEY sets that ask the parent for it. Any other type is ZERMUITA_ZONE_BAD_CALL. `out` gets the data of the records in order
 * of key tag (zermuita_next_record(3)).
 */
uint32_t zermuita_zone_records(struct zermuita_zone *zone, uint16_t rtype, uint8_t *out, size_t out_len,
                               struct zermuita_zone_report *report);

/* What the lines of a zone say about it. */
struct zermuita_facts {
    size_t size;   /* sizeof(struct zermuita_facts), set before the call */
    size_t len;    /* how many bytes the zone's name has */
    uint64_t last; /* the greatest time of a key call or a replacement; 0 if there is none */
    /*
     * The first second that the zone answers: the one after its last replacement, so that no second has two versions of the
     * zone; 0 if there is no replacement; UINT64_MAX if there is no such second.
     */
    uint64_t answers_from;
    uint32_t ttl;  /* the greatest TTL of its records, those that were replaced included */
    uint32_t life; /* how many seconds a signature is valid */
};

/*
 * Returns the facts of a zone. `out` gets its name as text, without a dot at the end unless it is the root (RFC 1035, section
 * 5.1).
 */
uint32_t zermuita_zone_facts(struct zermuita_zone *zone, uint8_t *out, size_t out_len, struct zermuita_facts *facts);

/* Returns the name of a reply and a sentence. */
static inline const char *zermuita_zone_strerror(uint32_t reply) {
    switch (reply) {
    case ZERMUITA_ZONE_DONE: return "ZERMUITA_ZONE_DONE: it is done";
    case ZERMUITA_ZONE_UNTOLD: return "ZERMUITA_ZONE_UNTOLD: the line is accepted, and memory ran out for what it answers";
    case ZERMUITA_ZONE_REFUSED: return "ZERMUITA_ZONE_REFUSED: the line, the journal or the master file is refused";
    case ZERMUITA_ZONE_RESPONSE: return "ZERMUITA_ZONE_RESPONSE: these octets answer the request";
    case ZERMUITA_ZONE_NO_RESPONSE: return "ZERMUITA_ZONE_NO_RESPONSE: nothing answers the request";
    case ZERMUITA_ZONE_SIGN: return "ZERMUITA_ZONE_SIGN: signatures are to be made";
    case ZERMUITA_ZONE_OUT_OF_MEMORY: return "ZERMUITA_ZONE_OUT_OF_MEMORY: memory ran out";
    case ZERMUITA_ZONE_BUFFER_TOO_SMALL: return "ZERMUITA_ZONE_BUFFER_TOO_SMALL: there are more octets than there is room for";
    case ZERMUITA_ZONE_BAD_SIGNATURES: return "ZERMUITA_ZONE_BAD_SIGNATURES: the signatures are not entries";
    case ZERMUITA_ZONE_BAD_CALL: return "ZERMUITA_ZONE_BAD_CALL: a size, a number or a flag is unknown, or octets are null";
    case ZERMUITA_ZONE_NOT_OPEN: return "ZERMUITA_ZONE_NOT_OPEN: the zone is not open";
    case ZERMUITA_ZONE_IS_OPEN: return "ZERMUITA_ZONE_IS_OPEN: the zone is open already";
    case ZERMUITA_ZONE_TOO_SOON: return "ZERMUITA_ZONE_TOO_SOON: the time of the answer is not after the last replacement";
    case ZERMUITA_ZONE_EXPIRED: return "ZERMUITA_ZONE_EXPIRED: signatures live no longer than `backdate`";
    default: return "not a reply of a zone";
    }
}

/*
 * @page zermuita_zone_lines: a master file as the start of a journal
 *
 * zermuita_zone_lines() turns a master file into the lines that a journal begins with. It reads owners, TTLs, class IN, $ORIGIN,
 * $TTL,
 * @, relative names, parentheses, quotes, escapes and comments; the types A, NS, CNAME, SOA, PTR, MX, TXT, AAAA, SRV, DNAME, DS
 * and CAA; and other types with data in the form of RFC 3597. A missing TTL is that of $TTL, or else the last one that a record
 * has. Names in data are put in lower case, in which they are signed, except in NS and SOA records. docs/use/SESSIONS.md of the
 * source lists what is refused.
 *
 * The first line is that of the zone: the owner of the SOA record and the words of `chain`. The others are those of the records.
 * Whether the zone is accepted with these records is known when the journal is opened, or the replacement applied.
 *
 *     struct zermuita_zone_report report = {.size = sizeof report};
 *     struct zermuita_master master = {
 *         .size = sizeof master, .text = {file, file_len},
 *         .chain = {(const uint8_t *)"nsec 0 604800", 13},
 *     };
 *     uint32_t reply = zermuita_zone_lines(&master, journal, sizeof journal, &report);
 *
 * @see zermuita_zone_apply zermuita_zone_open
 * @standards RFC 1035, section 5; RFC 2308, section 4; RFC 3597, section 5; RFC 4034, section 6.2.
 */

/* A master file and options. Set it to zero, then its size, then what it needs. */
struct zermuita_master {
    size_t size;                   /* sizeof(struct zermuita_master) */
    struct zermuita_octets text;   /* the file (RFC 1035, 5) */
    struct zermuita_octets origin; /* the origin of relative names before the first $ORIGIN; may be empty */
    /*
     * The words of the zone's line after its name: "nsec 0 604800" for NSEC records and signatures that are valid for a week,
     * "nsec3 0 - 0 604800" for NSEC3 records. Empty: only the lines of the records, for a replacement.
     */
    struct zermuita_octets chain;
    struct zermuita_octets apex; /* the name of the zone, to refuse files of other zones; may be empty */
};

/* The function behind zermuita_zone_lines(), which does not accept null pointers. */
uint32_t zermuita_zone_lines_of(const struct zermuita_master *master, uint8_t *out, size_t out_len,
                                struct zermuita_zone_report *report);

/* How many bytes the library may read of a master file's structure, whatever its size. */
#define ZERMUITA_MASTER_ROOM 128

/*
 * Writes the lines. Returns ZERMUITA_ZONE_DONE, or ZERMUITA_ZONE_REFUSED with the reason in `out` and the line in the report,
 * which is 0 if the file has no SOA record or another member is wrong.
 */
static inline uint32_t zermuita_zone_lines(const struct zermuita_master *master, uint8_t *out, size_t out_len,
                                           struct zermuita_zone_report *report) {
    union {
        struct zermuita_master master;
        uint8_t octets[ZERMUITA_MASTER_ROOM];
    } room;
    memset(&room, 0, sizeof room);
    memcpy(&room, master, master->size < sizeof *master ? master->size : sizeof *master);
    if (!zermuita_octets_are(&room.master.text) || !zermuita_octets_are(&room.master.origin)
        || !zermuita_octets_are(&room.master.chain) || !zermuita_octets_are(&room.master.apex)) {
        return ZERMUITA_ZONE_BAD_CALL;
    }
    return zermuita_zone_lines_of(&room.master, out, out_len, report);
}

/*
 * @page zermuita_zone_respond: answers a request to a zone
 *
 * zermuita_zone_respond() answers a request, or lists the signatures that its answer lacks, all of them at once. Make each
 * signature (zermuita_next_sign()), append the output to `made`, and call again with the same `now`. If you cannot make one, or
 * the reply is an error other than ZERMUITA_ZONE_BUFFER_TOO_SMALL, send SERVFAIL: an entry without its signature would go into
 * the answer as it is.
 *
 * An entry is the DNSKEY data prefixed by their length in two bytes, the bytes to sign prefixed by their length in four, and the
 * signature prefixed by its length in two. The library leaves room for signatures of RSA, ECDSA, Ed25519 and Ed448; write an
 * entry of another algorithm anew, with its signature. It verifies no signature and ignores entries that the answer does not
 * need, so you may keep signatures, by key and signed bytes, and pass them in advance.
 *
 *     uint32_t reply = zermuita_zone_respond(&zone, &request, out, sizeof out, &report);
 *     if (reply == ZERMUITA_ZONE_SIGN) {
 *         struct zermuita_sign sign;
 *         uint8_t *next = out;
 *         bool are_made = report.len <= sizeof made;
 *         for (size_t left = report.len; are_made && zermuita_next_sign(&next, &left, &sign);) {
 *             are_made = make_signature(&sign); // by your library
 *         }
 *         if (are_made) {
 *             memcpy(made, out, report.len);
 *             request.made = (struct zermuita_octets){made, report.len};
 *             reply = zermuita_zone_respond(&zone, &request, out, sizeof out, &report);
 *         }
 *     } // still ZERMUITA_ZONE_SIGN: a signature is missing, send SERVFAIL
 *
 * A request changes no record and no key, but the zone notes the last time that it answered: a replacement at or before it is
 * refused. An answer at or before the last replacement is refused too (ZERMUITA_ZONE_TOO_SOON), so each second has one version of
 * the zone, also after the journal is opened again.
 *
 * @see zermuita_zone_open
 * @standards RFC 1035, section 4; RFC 2308, section 3; RFC 4034, section 3; RFC 4035, section 3.1; RFC 6891; RFC 9715.
 */

/* A request. Set it to zero, then its size, then what it needs. */
struct zermuita_request {
    size_t size;                    /* sizeof(struct zermuita_request) */
    struct zermuita_octets request; /* the received message, without the two length bytes of TCP */
    struct zermuita_octets made;    /* the signatures made for it: entries back to back, in any order */
    uint64_t now;                   /* the clock, in seconds since 1970 */
    uint32_t backdate;              /* the answer is dated so many seconds before `now`; less than the lifetime of signatures */
    uint32_t stream;                /* 1: the request came over a stream such as TCP; 0: in a datagram */
    uint16_t limit;                 /* the most bytes of a datagram response; below 512 it counts as 512 */
    uint16_t udp_size;              /* the datagram size that this server announces in OPT records */
};

/* The function behind zermuita_zone_respond(), which does not accept null pointers. */
uint32_t zermuita_zone_respond_to(struct zermuita_zone *zone, const struct zermuita_request *request, uint8_t *out, size_t out_len,
                                  struct zermuita_zone_report *report);

/* How many bytes the library may read of a request's structure, whatever its size. */
#define ZERMUITA_REQUEST_ROOM 128

/*
 * Answers a request. Returns ZERMUITA_ZONE_RESPONSE; ZERMUITA_ZONE_NO_RESPONSE for a message that is itself a reply or too short
 * for a header; or ZERMUITA_ZONE_SIGN, with one signature or more to make.
 */
static inline uint32_t zermuita_zone_respond(struct zermuita_zone *zone, const struct zermuita_request *request, uint8_t *out,
                                             size_t out_len, struct zermuita_zone_report *report) {
    union {
        struct zermuita_request request;
        uint8_t octets[ZERMUITA_REQUEST_ROOM];
    } room;
    memset(&room, 0, sizeof room);
    memcpy(&room, request, request->size < sizeof *request ? request->size : sizeof *request);
    if (!zermuita_octets_are(&room.request.request) || !zermuita_octets_are(&room.request.made)) {
        return ZERMUITA_ZONE_BAD_CALL;
    }
    return zermuita_zone_respond_to(zone, &room.request, out, out_len, report);
}

/* A signature to make. It points into the output, and is valid until that is written or freed. */
struct zermuita_sign {
    struct zermuita_octets dnskey; /* the data of the DNSKEY record: flags, protocol, algorithm and key (RFC 4034, section 2.1) */
    struct zermuita_octets key;    /* the key alone, in the format of its algorithm */
    struct zermuita_octets octets; /* the bytes to sign (RFC 4034, section 3.1.8.1) */
    uint8_t *signature;            /* where to write the signature */
    size_t signature_len;          /* its length; 0 if the library does not know the algorithm */
    uint8_t algorithm;             /* the algorithm number of the key (RFC 4034, appendix A.1) */
};

/* Removes the first entry from the `*len` bytes at `*next`. Returns 1, or 0 and changes nothing if there is none. */
static inline int zermuita_next_sign(uint8_t **next, size_t *len, struct zermuita_sign *sign) {
    struct zermuita_octets rest, signature;
    rest.data = *next;
    rest.len = *len;
    if (!zermuita_next_part(&rest, 2, &sign->dnskey) || !zermuita_next_part(&rest, 4, &sign->octets)
        || !zermuita_next_part(&rest, 2, &signature) || sign->dnskey.len < 4) {
        return 0;
    }
    sign->algorithm = sign->dnskey.data[3];
    sign->key.data = sign->dnskey.data + 4;
    sign->key.len = sign->dnskey.len - 4;
    sign->signature = *next + (*len - rest.len - signature.len);
    sign->signature_len = signature.len;
    *next += *len - rest.len;
    *len = rest.len;
    return 1;
}

#ifdef __cplusplus
}
#endif

#endif
