/*
 * Validates DNSSEC answers (RFC 4035, 5). zermuita_judge() validates one zone's answer, given the zone's DS set and DNSKEY
 * answer. zermuita_resolve() validates the whole path from a trust anchor to a name. docs/use/CALLING.md and
 * docs/use/RESOLVING.md show how to use them.
 *
 * The library checks no signature: it lists the signatures that have to be checked, and the caller checks them with a library of
 * its own. It keeps no state between calls, calls nothing but malloc, realloc and free, and frees all memory before a call
 * returns. It is thread-safe: threads may use the same bytes at once if nothing changes them.
 *
 * tools/man makes the man pages and docs/use/REPLIES.md from the comments of this file. `@page` begins a man page, which covers
 * the declarations up to the next one.
 */
#ifndef ZERMUITA_H
#define ZERMUITA_H

#include <stddef.h>
#include <stdint.h>
#include <string.h>

/*
 * @page zermuita_version: version of the library
 *
 * ZERMUITA_VERSION_NUMBER is the version of the header that a program was compiled with, ZERMUITA_VERSION the same as text. Below
 * 1.0 a minor version may break callers and has its own SONAME; from 1.0 on, only a major version may.
 */
#define ZERMUITA_VERSION_MAJOR 0
#define ZERMUITA_VERSION_MINOR 2
#define ZERMUITA_VERSION_PATCH 0
#define ZERMUITA_VERSION "0.2.0"
#define ZERMUITA_VERSION_NUMBER (ZERMUITA_VERSION_MAJOR << 16 | ZERMUITA_VERSION_MINOR << 8 | ZERMUITA_VERSION_PATCH)

#ifdef __cplusplus
extern "C" {
#endif

/* Returns the version of the running library: 65,536 times major plus 256 times minor plus patch. */
uint32_t zermuita_version(void);

/*
 * @page zermuita_next_part: length-prefixed bytes
 *
 * The functions that read DS sets, entries and outputs are built on these. Use them for byte strings of your own, such as a DS
 * set or an RSA key.
 *
 * @see zermuita_next_ask zermuita_next_record
 */

/* A byte string. `data` may be null if `len` is 0. */
struct zermuita_octets {
    const uint8_t *data;
    size_t len;
};

/* Returns the big-endian number in the first `width` bytes. */
static inline size_t zermuita_number(const uint8_t *octets, size_t width) {
    size_t number = 0;
    for (size_t i = 0; i < width; i++) {
        number = number << 8 | octets[i];
    }
    return number;
}

/*
 * Removes the first part from `rest`: a length in `width` bytes and that many bytes, which `part` then points to. Returns 1, or 0
 * and changes nothing if `rest` holds no whole part.
 */
static inline int zermuita_next_part(struct zermuita_octets *rest, size_t width, struct zermuita_octets *part) {
    size_t len = rest->len < width ? 0 : zermuita_number(rest->data, width);
    if (rest->len < width || rest->len - width < len) {
        return 0;
    }
    part->data = rest->data + width;
    part->len = len;
    rest->data += width + len;
    rest->len -= width + len;
    return 1;
}

/* Replaces a null pointer of length 0 with another pointer. Returns 0 if the pointer is null and the length is not 0, else 1. */
static inline int zermuita_octets_are(struct zermuita_octets *octets) {
    static const uint8_t none[1] = {0};
    if (octets->data == NULL && octets->len == 0) {
        octets->data = none;
    }
    return octets->data != NULL;
}

/*
 * @page zermuita_strerror: replies of zermuita_judge and zermuita_resolve
 *
 * For a walk see zermuita_resolve(3). A resolver answers SERVFAIL to a reply that it does not know. Initialise a variable for the
 * reply to ZERMUITA_BAD_CASE, since 0 is a verdict.
 *
 * @see zermuita_judge zermuita_resolve
 * @standards RFC 4035, section 4.3, defines secure, insecure and bogus.
 */

/* What a call returns. The comment after each value is the text of zermuita_strerror(). */
enum zermuita_reply {
    /*
     * # Verdicts
     *
     * 0 to 4 and 8 to 10 are secure, 6 and 7 insecure. 5 and 11 show where the zone ends and are no answer for a client. 2 to 4
     * and 9 never come under opt-out. A verdict is about the `name` and `rtype` of its call and about no other question.
     */

    /*
     * Includes a wildcard that is queried by its own name.
     *
     * Do: Answer NOERROR with the data in the output, whatever the message's RCODE.
     */
    ZERMUITA_RECORDS = 0, /* the name has records of the type */
    /*
     * The name exists and has no CNAME record. For DS see `delegates`. Compact denial without NXNAME denies missing names so.
     *
     * Do: Answer NODATA.
     */
    ZERMUITA_NODATA = 1, /* the name has no records of the type */
    /*
     * Nor is there a name below it, or a wildcard that matches.
     *
     * Do: Answer NXDOMAIN; for NXNAME, RFC 9824, 5.
     */
    ZERMUITA_NXDOMAIN = 2, /* there is no such name */
    /*
     * The name itself does not exist.
     *
     * Do: Answer NOERROR with the data in the output.
     */
    ZERMUITA_WILDCARD = 3, /* a wildcard stands for the name and has records of the type */
    /*
     * The name itself does not exist. The wildcard has no CNAME record.
     *
     * Do: Answer NODATA.
     */
    ZERMUITA_WILDCARD_NODATA = 4, /* a wildcard stands for the name and has no records of the type */
    /*
     * The output has the topmost delegation if the answer proves which one it is. For DS it is above the name.
     *
     * Do: Judge the same message for DS at that name, with `other_question` 1. Without a name, query for DS at the names between
     * `apex` and `name`.
     */
    ZERMUITA_DELEGATED = 5, /* the name is at or below a delegation */
    /*
     * A span covers the name or one above it, so an unsigned delegation may be there (RFC 5155, 6).
     *
     * Do: Use the message as unsigned. If it answers another question, query for the name first.
     */
    ZERMUITA_OPTOUT = 6, /* an opt-out chain leaves open what is there */
    /*
     * Or `no_ds` is 1. No message is read (RFC 4035, 5.2).
     *
     * Do: Use the message as unsigned.
     */
    ZERMUITA_INSECURE = 7, /* no DS record can be checked, so nothing vouches for the zone's keys */
    /*
     * The output has the target, about which nothing is proved.
     *
     * Do: Answer with the CNAME record and resolve the target from the trust anchor.
     */
    ZERMUITA_ALIAS = 8, /* the name has a CNAME record */
    /*
     * The same. The name itself does not exist.
     *
     * Do: The same.
     */
    ZERMUITA_WILDCARD_ALIAS = 9, /* a wildcard stands for the name and has a CNAME record */
    /*
     * The output has its owner and the new name, unless that exceeds 255 bytes.
     *
     * Do: Answer with the DNAME record and a CNAME record made from it (RFC 6672, 3.1), and resolve the new name. Without one,
     * answer YXDOMAIN.
     */
    ZERMUITA_DNAME = 10, /* a name above has a DNAME record */
    /*
     * The output has the delegation and its DS set, provided the zone has DS records only at delegations.
     *
     * Do: Go on in the zone below with these as `apex` and `ds`.
     */
    ZERMUITA_REFERRAL = 11, /* the name is at or below a delegation with DS records */

    /*
     * # Refusals
     *
     * They say why there is no verdict. Only 23 proves anything: a forged, altered or truncated message may cause the others.
     * "Ask another server" means: fetch the message again from a server that has not been asked. After three servers answer
     * SERVFAIL, with the last `ede`, or 22 if no server replied; 21, 22 and 25 are bogus then.
     */

    /*
     * Types 0, 41, 46 to 48, 50, 51 and 128 to 255 never are.
     *
     * Do: Judge CNAME and DNAME with `other_question` 1. Answer REFUSED for other classes.
     */
    ZERMUITA_QUESTION_NOT_ALLOWED = 16, /* the name is not in the zone, the class is not IN, or the type is not judged */
    /* Do: Ask another server. */
    ZERMUITA_BAD_DNSKEY_MESSAGE = 17, /* the DNSKEY answer is not a message */
    /* Do: Ask another server. */
    ZERMUITA_BAD_ANSWER_MESSAGE = 18, /* the answer is not a message */
    /*
     * Case is ignored. `answer` is compared only with `other_question` 0.
     *
     * Do: Drop it. Over UDP wait for the right one; over TCP ask another server.
     */
    ZERMUITA_QUESTION_MISMATCH = 19, /* a message answers another question */
    /*
     * Rare and allowed (RFC 4034, appendix B), but trying each key lets an attacker multiply the work (CVE-2023-50387). Found
     * before signatures are checked, so a forged answer causes it too.
     *
     * Do: Ask another server.
     */
    ZERMUITA_EQUAL_TAGS = 20, /* two different keys have one tag */
    /*
     * No signature is valid at `now` under a key in `ds`: it is forged or expired, clocks differ, or `ds` is out of date.
     *
     * Do: Ask other servers for both sets.
     */
    ZERMUITA_NO_TRUSTED_KEY = 21, /* no key that a DS record names signs the DNSKEY set */
    /*
     * No valid answer does this.
     *
     * Do: Ask another server.
     */
    ZERMUITA_MIXED_NSEC3_PARAMETERS = 22, /* NSEC3 records have different parameters */
    /*
     * This is proved, and nothing about the name. It comes before any verdict.
     *
     * Do: Answer SERVFAIL. Using the message as unsigned (RFC 9276, 3.2) lets anyone forge names in the zone and in those below.
     */
    ZERMUITA_ITERATIONS_OVER_LIMIT = 23, /* the NSEC3 iterations are over the limit */
    /* Do: Never returned. */
    ZERMUITA_HASH_FAILED = 24, /* a name was not hashed */
    /*
     * No RRset that a verdict can rest on is verified: the answer is forged, stripped, cut off (TC), for a query without DO, or
     * from a zone below; or clocks differ.
     *
     * Do: In this order: retry over TCP if TC is set; refresh a cached DNSKEY answer; query for DS to find a zone below; ask
     * another server.
     */
    ZERMUITA_NOT_PROVEN = 25, /* the signed records prove no verdict */
    /* Do: Call again later, or answer SERVFAIL. */
    ZERMUITA_OUT_OF_MEMORY = 26, /* memory ran out */
    /*
     * Only with `one_moment` 1.
     *
     * Do: Ask again, then answer SERVFAIL; or judge with `one_moment` 0, without its protection.
     */
    ZERMUITA_MIXED_VERSIONS = 27, /* signatures have different times, and one moment is demanded */
    /*
     * Over 65,535 bytes in canonical form; or over 4,096 bytes and more than 64 RRSIG records or 32,768 labels of owners.
     *
     * Do: Judge with `as_received` 1, then ask another server.
     */
    ZERMUITA_MESSAGE_TOO_LONG = 28, /* a message is too long in canonical form, or costs too much work */
    /* Do: Ask another server. */
    ZERMUITA_TOO_MANY_SIGNATURES = 29, /* more signatures are to be checked than the case allows */

    /*
     * # Replies of zermuita_resolve only
     *
     * These are refusals too.
     */

    /* Do: Ask another server for it. */
    ZERMUITA_NOTHING_TOLD = 30, /* a zone's answer tells nothing of the way to the name */
    /*
     * Or the target of an alias is not.
     *
     * Do: Use another trust anchor, if there is one.
     */
    ZERMUITA_OUTSIDE = 31, /* the name is not at or below the trust anchor, or the question is for DS at the anchor */

    /*
     * # Requests
     *
     * The library needs something before it can reply.
     */

    /* Do: Check those in the output and call again. */
    ZERMUITA_ASK = 32, /* signatures are to be checked */
    /* Do: Fetch those in the output and call again. */
    ZERMUITA_WANT = 33, /* messages are wanted */
    /* Do: Call again with room for `len` bytes. */
    ZERMUITA_BUFFER_TOO_SMALL = 34, /* the reply has more octets than there is room for */

    /*
     * # Errors of the caller
     *
     * Correct the call. If `ds` came from the library, answer SERVFAIL: the zone is not insecure.
     */
    ZERMUITA_BAD_APEX = 35,       /* the name of the zone is not a name in wire form */
    ZERMUITA_BAD_DS_SET = 36,     /* the DS set is not DS records behind their lengths */
    ZERMUITA_BAD_NAME = 37,       /* the name that was asked for is not a name in wire form */
    ZERMUITA_BAD_SIGNATURES = 38, /* the checked signatures are not entries */
    ZERMUITA_BAD_CASE = 39,       /* a size or a flag is unknown, octets are null, or no_ds contradicts ds */
    ZERMUITA_BAD_MESSAGES = 40,   /* the messages are not messages behind the names that they are of */

    /*
     * # Limits of zermuita_resolve
     *
     * These are refusals too. Answer SERVFAIL.
     */
    ZERMUITA_TOO_MANY_CUTS = 48,     /* more delegations are on the way to the name than are allowed */
    ZERMUITA_TOO_MANY_ALIASES = 49,  /* more aliases are on the way to the name than are allowed */
    ZERMUITA_TOO_MANY_MESSAGES = 50, /* more messages are wanted than the evidence may have */

    /*
     * # One more refusal
     *
     * It is not bogus, since some servers leave the missing record out of valid answers.
     */

    /*
     * It is one that RFC 4035, 3.1.3.4, or RFC 5155, 8.3, requires. `ede` is 12.
     *
     * Do: As for 25, but query for DS only if an NSEC3 record has the opt-out flag.
     */
    ZERMUITA_INCOMPLETE_DENIAL = 51, /* records verify, but a denial record that the proof needs is missing */

    /*
     * # One more limit of zermuita_resolve
     *
     * It also says why there is no verdict. Answer SERVFAIL.
     */
    ZERMUITA_TOO_MUCH_WORK = 52 /* the walk would go on, but may have used up the work that is allowed */
};

/*
 * Sets `text` to what zermuita_strerror() returns: ASCII with a terminating zero, which `len` counts. For languages that cannot
 * call an inline function.
 */
void zermuita_reply_text(uint32_t reply, struct zermuita_octets *text);

/*
 * Returns 1 if a reply is a verdict, else 0. Both functions are in the library and not inline, so that a program knows the
 * replies of a later library.
 */
uint32_t zermuita_is_verdict(uint32_t reply);

/* Returns 1 if a reply says why there is no verdict, else 0. Requests and errors of the caller are neither. */
uint32_t zermuita_is_refusal(uint32_t reply);

/*
 * Returns the name of a reply and a sentence, such as "ZERMUITA_NXDOMAIN: there is no such name", or "not a reply of this
 * library". Do not write to or free the text.
 */
static inline const char *zermuita_strerror(enum zermuita_reply reply) {
    static const uint8_t none[1] = {0};
    struct zermuita_octets text = {none, 0};
    zermuita_reply_text((uint32_t)reply, &text);
    return (const char *)text.data;
}

/*
 * @page zermuita_judge: validates a zone's answer to a question
 *
 * zermuita_judge() takes the DS set of a zone, its DNSKEY answer and its answer to a question. It returns what the zone says
 * about the name and type, or why that is not proved (RFC 4035, section 5; RFC 5155, section 8).
 *
 * Set the case to zero, set its size, then what the question needs; set the size of the report. Wrong sizes, also those of
 * version 0.1, are ZERMUITA_BAD_CASE. Fields left at 0 mean: check signatures of all algorithms, up to 16; no NSEC3 iterations;
 * signatures of any times; canonical form; an answer to this question; no record indexes. `now`, `rtype` and `rclass` have no
 * default.
 *
 * Names are in wire form without compression pointers, in any case (RFC 1035, section 3.1). Numbers are big-endian. Messages are
 * complete, without the two length bytes of TCP.
 *
 * # Checking signatures
 *
 * With ZERMUITA_ASK the output lists signatures that have to be checked. Check each one (zermuita_next_ask(3)), append the output
 * to `checked`, and call again. An answer whose signatures pass takes two calls, which is tested, not proved. If a signature
 * fails, the next call lists those that could still verify the same RRset.
 *
 * An entry of `checked` that says 1 is trusted. Append only entries that you have checked: an unchecked one counts as a signature
 * that fails, and of two entries for one signature the first counts. If a signature could not be checked, for lack of memory or a
 * device, check it again or answer SERVFAIL. Entries of a DNSKEY answer, whose signed bytes begin with 0 and 48, are valid for
 * every answer under the same keys: keep those that pass as long as that DNSKEY answer. Drop the entries of other answers: they
 * do no harm, but each look-up compares them.
 *
 * # Output
 *
 * The output begins with the indexes of verified records if `places` is 1 (zermuita_take_places(3)). Then:
 *
 * - ZERMUITA_RECORDS, ZERMUITA_WILDCARD: the data of each record, prefixed by its length in two bytes, in canonical order and
 *   form (RFC 4034, section 6): zermuita_next_record(3).
 * - ZERMUITA_ALIAS, ZERMUITA_WILDCARD_ALIAS: the target: zermuita_next_name(3).
 * - ZERMUITA_DNAME: the owner of the DNAME record and the name that `name` becomes, if that has at most 255 bytes.
 * - ZERMUITA_REFERRAL: the name of the delegation, followed by its DS set in the form of `ds`.
 * - ZERMUITA_DELEGATED: the name of the topmost delegation, or nothing if the answer does not prove which one it is.
 * - ZERMUITA_ASK: the signatures to check.
 * - All others: nothing.
 *
 * If `out_len` is too small, nothing is written, the reply is ZERMUITA_BUFFER_TOO_SMALL, and the report is that of the call with
 * enough room. `out` may be null if `out_len` is 0, and `report` may be null. Nothing that the library reads may overlap `out` or
 * `report`.
 *
 * Follow an alias only if `name` is the client's name. For a shorter name, as when DS was queried for a name above the client's,
 * judge the same message once more with the client's name and `other_question` 1.
 *
 * # Other languages
 *
 * zermuita_judge(), zermuita_resolve() and zermuita_strerror() are inline functions. A language that cannot call them calls
 * zermuita_judge_case(), zermuita_resolve_evidence() and zermuita_reply_text() directly, with three conditions. No pointer is
 * null, not even that of an empty byte string. The case or evidence is in ZERMUITA_CASE_ROOM readable bytes with zeros after its
 * last field. The report is in ZERMUITA_REPORT_ROOM writable bytes, with its size set.
 *
 * # Caveats
 *
 * It is proved that a verdict is the zone's, under premises that docs/proof/PROMISES.md of the source lists: well-formed zones,
 * messages in which nothing is forged, and others. ZERMUITA_NODATA for DS at `apex` says nothing about the parent's DS set.
 *
 * @see zermuita_next_ask zermuita_next_record zermuita_resolve zermuita_strerror zermuita_version
 * @standards RFC 4033, 4034 and 4035; RFC 5155; RFC 6672; RFC 6840; RFC 8198; RFC 8914; RFC 9077; RFC 9276.
 */

/* What is judged. */
struct zermuita_case {
    size_t size;                    /* sizeof(struct zermuita_case) */
    struct zermuita_octets apex;    /* the name of the zone */
    /*
     * The parent's DS set: the data of each DS record, prefixed by its length in two bytes. Take it from a trust anchor, from the
     * output of ZERMUITA_RECORDS for DS at this name with the parent as `apex`, or from that of ZERMUITA_REFERRAL. Never take it
     * from an unjudged message, from ZERMUITA_WILDCARD, or from a question for DS at `apex` itself: under any DS set but the
     * parent's a verdict means nothing. A record counts if its algorithm is in `algorithms` and its digest is SHA-256 or SHA-384.
     */
    struct zermuita_octets ds;
    struct zermuita_octets dnskey;  /* the zone's answer for its DNSKEY set, a whole message */
    struct zermuita_octets answer;  /* its answer to the question, a whole message */
    struct zermuita_octets name;    /* the name of the question */
    struct zermuita_octets checked; /* the signatures checked so far: entries back to back, in any order */
    uint64_t now;                   /* the time at which signatures have to be valid, in seconds since 1970 */
    uint16_t rtype;                 /* the type of the question */
    uint16_t rclass;                /* the class of the question: 1 */
    uint16_t max_nsec3_iterations;  /* the most NSEC3 iterations that are accepted (RFC 9276, section 3.2), for example 100 */
    /*
     * 1: the signatures that verify the RRsets of `answer` must have one inception and one expiration. Use it only for servers
     * that sign every answer anew and do not round both times: it refuses valid answers of zones that are signed in advance. 0:
     * any times.
     */
    uint32_t one_moment;
    /*
     * 1: messages are judged byte by byte. 0: names in the data of the types of RFC 4034, section 6.2, except NSEC, are expanded
     * and put in lower case first (RFC 6840, section 5.1).
     */
    uint32_t as_received;
    /*
     * The algorithms that the caller checks, a byte each. If it is empty, all count: then a zone with an unsupported algorithm is
     * refused and not insecure.
     */
    struct zermuita_octets algorithms;
    /*
     * The most signatures of both messages that are checked; 0: 16. Signatures that are requested count, and entries of `checked`
     * whose signatures are in one of the messages (KeyTrap, CVE-2023-50387). If `checked` has all that are needed, the limit does
     * not apply.
     */
    uint32_t max_signatures;
    /*
     * 1: the answer may be one to another question of the zone, such as a cached denial (RFC 8198); questions for CNAME and DNAME
     * are judged too. 0: such an answer is ZERMUITA_QUESTION_MISMATCH.
     */
    uint32_t other_question;
    /*
     * 1: the parent proved that `apex` is a delegation without DS records, and `ds` is empty. Only ZERMUITA_NODATA for DS with
     * `delegates` 1, with the parent as `apex`, proves this. 0: `ds` has records. Anything else is ZERMUITA_BAD_CASE, so that a
     * forgotten `ds` never makes a zone insecure.
     */
    uint32_t no_ds;
    uint32_t places; /* 1: the output begins with the indexes of the verified records of `answer`; 0: it does not */
};

/* Whether a name without DS records is a delegation. This is proved for a zone that does not change. */
enum zermuita_delegates {
    ZERMUITA_DELEGATES_UNKNOWN = 0, /* not known */
    ZERMUITA_DELEGATES_YES = 1,     /* the name is a delegation to an unsigned zone */
    ZERMUITA_DELEGATES_NO = 2       /* it is not: the zone itself answers for the name */
};

/* What a call reports besides its reply. */
struct zermuita_report {
    size_t size; /* sizeof(struct zermuita_report), set before the call */
    size_t len;  /* how many bytes the output has, also if they do not fit */
    /*
     * The last second, since 1970, in which the verdict holds. Up to then the same case has the same verdict of 0 to 7, except
     * ZERMUITA_DELEGATED without a name, ZERMUITA_NODATA for DS with `delegates` 0, and ZERMUITA_OPTOUT for a wildcard's alias.
     * For those and for 8 to 11 what the reply proves stays true, but the reply may change when another signature becomes valid.
     */
    uint64_t until;
    uint64_t verifications; /* how many signatures were looked up in `checked`, except for record indexes and for `ede` */
    /*
     * How many names were hashed. With ZERMUITA_ASK and ZERMUITA_TOO_MANY_SIGNATURES both counts end where signatures were
     * missing; with ZERMUITA_MESSAGE_TOO_LONG and errors of the caller they are 0.
     */
    uint64_t hashes;
    /*
     * For how many seconds after the message's arrival the verdict may be kept: the least TTL of the records that are verified
     * for it and of the original TTLs of their signatures (RFC 4035, section 5.3.3; RFC 9077). `ttl` and `until` are 0 with
     * ZERMUITA_INSECURE and without a verdict. If a verdict rests on several judgements of the message, they are the least of
     * all.
     */
    uint32_t ttl;
    /*
     * An extended error (RFC 8914) for the client, or 0 for none. With ZERMUITA_INSECURE: 2 if no record of `ds` has a known
     * digest, 1 if those that have one are of other algorithms, 0 with `no_ds`. With refusals: 7 expired, 8 not yet valid, 9 no
     * key that `ds` names, 10 no signatures, 12 a denial record is missing, 27 iterations, 6 bogus otherwise.
     */
    uint16_t ede;
    uint16_t delegates; /* with ZERMUITA_NODATA for DS: a value of enum zermuita_delegates; else 0 */
};

/* How many bytes the library may read of a case or of evidence, whatever its size: room for later versions. */
#define ZERMUITA_CASE_ROOM 256
/* How many bytes the library may write of a report. */
#define ZERMUITA_REPORT_ROOM 128

/* The function behind zermuita_judge(), for other languages. */
uint32_t zermuita_judge_case(const struct zermuita_case *handed, uint8_t *out, size_t out_len, struct zermuita_report *report);

/*
 * Judges a case.
 *
 *     struct zermuita_case handed = {
 *         .size = sizeof handed, .apex = apex, .ds = ds, .dnskey = dnskey,
 *         .answer = answer, .name = name, .rtype = 1, .rclass = 1,
 *         .now = time(NULL), .max_nsec3_iterations = 100,
 *         .algorithms = algorithms, .no_ds = parent_proved_no_ds,
 *     };
 *     uint8_t checked[65536], out[65536];
 *     struct zermuita_report report = {.size = sizeof report};
 *     enum zermuita_reply reply = ZERMUITA_BAD_CASE;
 *     size_t len = 0;
 *     for (;;) {
 *         handed.checked = (struct zermuita_octets){checked, len};
 *         reply = zermuita_judge(&handed, out, sizeof out, &report);
 *         if (reply != ZERMUITA_ASK || report.len > sizeof checked - len) {
 *             break; // done, or a larger buffer is needed
 *         }
 *         struct zermuita_ask ask;
 *         uint8_t *next = out;
 *         for (size_t left = report.len; zermuita_next_ask(&next, &left, &ask);) {
 *             zermuita_answer(&ask, signature_passes(&ask)); // by your library
 *         }
 *         memcpy(checked + len, out, report.len);
 *         len += report.len;
 *     }
 */
static inline enum zermuita_reply zermuita_judge(const struct zermuita_case *handed, uint8_t *out, size_t out_len,
                                                 struct zermuita_report *report) {
    union {
        struct zermuita_case handed;
        uint8_t octets[ZERMUITA_CASE_ROOM];
    } room;
    union {
        struct zermuita_report report;
        uint8_t octets[ZERMUITA_REPORT_ROOM];
    } said;
    uint8_t nowhere[1];
    enum zermuita_reply reply = ZERMUITA_BAD_CASE;
    memset(&said, 0, sizeof said);
    said.report.size = report != NULL ? report->size : sizeof said.report;
    memset(&room, 0, sizeof room);
    memcpy(&room, handed, handed->size < sizeof *handed ? handed->size : sizeof *handed);
    if (out == NULL) {
        out = nowhere;
        out_len = 0;
    }
    if (zermuita_octets_are(&room.handed.apex) && zermuita_octets_are(&room.handed.ds)
        && zermuita_octets_are(&room.handed.dnskey) && zermuita_octets_are(&room.handed.answer)
        && zermuita_octets_are(&room.handed.name) && zermuita_octets_are(&room.handed.checked)
        && zermuita_octets_are(&room.handed.algorithms)) {
        reply = (enum zermuita_reply)zermuita_judge_case(&room.handed, out, out_len, &said.report);
    }
    if (report != NULL) {
        memcpy(report, &said, report->size < sizeof *report ? report->size : sizeof *report);
    }
    return reply;
}

/*
 * @page zermuita_next_ask: signatures to check
 *
 * With ZERMUITA_ASK the output is a list of entries. An entry has four parts: the DNSKEY data prefixed by their length in two
 * bytes, the signed bytes prefixed by their length in four, the signature prefixed by its length in two, and one byte that is 1
 * if the signature passes and else 0.
 *
 * Check each signature, in any order or in parallel, and mark the entry. Nothing else of the RRSIG record needs a check: the
 * library lists only signatures that are valid at the time of the case. Mark an entry with an unsupported algorithm as failed. If
 * you implement RFC 5011, leave DS records of revoked keys out of `ds` and mark entries of such keys as failed: the library
 * ignores the REVOKE flag.
 *
 *     struct zermuita_ask ask;
 *     uint8_t *next = out;
 *     size_t left = report.len;
 *     while (zermuita_next_ask(&next, &left, &ask)) {
 *         zermuita_answer(&ask, signature_passes(&ask));
 *     }
 *
 * @see zermuita_judge zermuita_resolve
 * @standards RFC 4034, sections 2 and 3.
 */

/* A signature to check. It points into the output, and is valid until that is written or freed. */
struct zermuita_ask {
    struct zermuita_octets dnskey;    /* the data of the DNSKEY record: flags, protocol, algorithm, key (RFC 4034, section 2.1) */
    struct zermuita_octets key;       /* the key alone, in the format of its algorithm */
    struct zermuita_octets octets;    /* the signed bytes */
    struct zermuita_octets signature; /* as in the RRSIG record */
    uint8_t algorithm;                /* the algorithm number of key and signature (RFC 4034, appendix A.1) */
    uint8_t *passes;                  /* where zermuita_answer() writes */
};

/* Removes the first entry from the `*len` bytes at `*next`. Returns 1, or 0 and changes nothing if there is none. */
static inline int zermuita_next_ask(uint8_t **next, size_t *len, struct zermuita_ask *ask) {
    struct zermuita_octets rest;
    rest.data = *next;
    rest.len = *len;
    if (!zermuita_next_part(&rest, 2, &ask->dnskey) || !zermuita_next_part(&rest, 4, &ask->octets)
        || !zermuita_next_part(&rest, 2, &ask->signature) || rest.len == 0 || ask->dnskey.len < 4) {
        return 0;
    }
    ask->algorithm = ask->dnskey.data[3];
    ask->key.data = ask->dnskey.data + 4;
    ask->key.len = ask->dnskey.len - 4;
    ask->passes = *next + (*len - rest.len);
    *next = ask->passes + 1;
    *len = rest.len - 1;
    return 1;
}

/*
 * Marks an entry: its signature passes if `passes` is 1. Any other value means that it fails, also a library's negative error
 * code.
 */
static inline void zermuita_answer(const struct zermuita_ask *ask, int passes) {
    *ask->passes = passes == 1;
}

/*
 * @page zermuita_next_record: reading an output
 *
 * These functions read an output from front to back: first the record indexes (if `places` is 1), then names, then records. Each
 * removes what it returns from the front of `rest`, and returns 0 without a change if `rest` begins with something else.
 * Everything points into the output, and is valid until that is written or freed.
 *
 *     struct zermuita_octets rest = {out, report.len}, rdata;
 *     while (zermuita_next_record(&rest, &rdata)) {
 *         use(rdata.data, rdata.len);
 *     }
 *
 * A referral:
 *
 *     struct zermuita_octets rest = {out, report.len}, name;
 *     zermuita_next_name(&rest, &name);
 *     enter_zone(name, rest); // the rest is its DS set
 *
 * @see zermuita_judge zermuita_next_wanted zermuita_resolve
 * @standards RFC 1035, section 3.1; RFC 4034, section 6; RFC 4035, sections 3.2.3 and 5.3.
 */

/* Removes the data of one record. Records come in canonical order. */
static inline int zermuita_next_record(struct zermuita_octets *rest, struct zermuita_octets *rdata) {
    return zermuita_next_part(rest, 2, rdata);
}

/*
 * Removes a name in wire form: labels of up to 63 bytes prefixed by their lengths, the root label last, at most 255 bytes in
 * total.
 */
static inline int zermuita_next_name(struct zermuita_octets *rest, struct zermuita_octets *name) {
    size_t len = 0;
    while (len < rest->len && rest->data[len] != 0) {
        if (rest->data[len] > 63) {
            return 0;
        }
        len += 1 + (size_t)rest->data[len];
    }
    if (len >= rest->len || len >= 255) {
        return 0;
    }
    name->data = rest->data;
    name->len = len + 1;
    rest->data += len + 1;
    rest->len -= len + 1;
    return 1;
}

/*
 * Removes all record indexes: their number in four bytes, and each index in four. The rest is the output with `places` 0.
 *
 * The indexes are those of the verified records: the RRset of the question (for an alias its CNAME or DNAME RRset, for a referral
 * the DS set) and the NSEC and NSEC3 records. ZERMUITA_DELEGATED with a name and ZERMUITA_NODATA for DS have those of each
 * judgement that the reply rests on. RRSIG records have none: send those that cover the RRsets you send. Unverified records have
 * none either: SOA records of denials, NS records and addresses of referrals, CNAME records made from a DNAME. Send records with
 * what is left of `ttl`, never with the TTL in the message.
 *
 * With ZERMUITA_OPTOUT the indexes may be those of a wildcard's records under the queried name. It is verified that the wildcard
 * has them, not that they are this name's: send them without AD.
 *
 *     struct zermuita_octets rest = {out, report.len}, places;
 *     uint32_t place;
 *     if (zermuita_take_places(&rest, &places)) {
 *         while (zermuita_next_place(&places, &place)) {
 *             send_record(&handed.answer, place, ttl_left);
 *         }
 *     }
 */
static inline int zermuita_take_places(struct zermuita_octets *rest, struct zermuita_octets *places) {
    size_t count = rest->len < 4 ? 0 : zermuita_number(rest->data, 4);
    if (rest->len < 4 || (rest->len - 4) / 4 < count) {
        return 0;
    }
    places->data = rest->data + 4;
    places->len = 4 * count;
    rest->data += 4 + 4 * count;
    rest->len -= 4 + 4 * count;
    return 1;
}

/*
 * Removes one index: the number of a record of `answer`, counted from 0 over the answer, authority and additional sections and
 * over records of all types. Indexes ascend, and each comes once.
 */
static inline int zermuita_next_place(struct zermuita_octets *places, uint32_t *place) {
    if (places->len < 4) {
        return 0;
    }
    *place = (uint32_t)zermuita_number(places->data, 4);
    places->data += 4;
    places->len -= 4;
    return 1;
}

/*
 * @page zermuita_resolve: validates a name from a trust anchor down
 *
 * zermuita_resolve() walks over messages from a trust anchor down to the zone that has a name, and through aliases from the
 * anchor again. It returns the verdict of that zone, or from which delegation on the tree is unsigned, or which messages and
 * signatures it needs (RFC 4035, section 5). It sends nothing: the caller queries the zones' servers, and checks signatures as
 * for zermuita_judge(3). The result depends only on what is passed in.
 *
 * # Output
 *
 * Every verdict, every refusal with an output, ZERMUITA_OUTSIDE and the three limits begin with the targets of the aliases on the
 * way (zermuita_take_aliases(3)). Then:
 *
 * - ZERMUITA_RECORDS, ZERMUITA_WILDCARD: the zone's name and the data of the records, prefixed as in zermuita_judge(3). Secure.
 * - ZERMUITA_NODATA, ZERMUITA_NXDOMAIN, ZERMUITA_WILDCARD_NODATA: the zone's name. Secure.
 * - ZERMUITA_DNAME: nothing. Secure: the new name would exceed 255 bytes, so the client gets YXDOMAIN.
 * - ZERMUITA_INSECURE: the delegation below which nothing is signed.
 * - ZERMUITA_OPTOUT: the zone whose opt-out leaves the name open. Insecure.
 * - ZERMUITA_WANT: the messages that are needed (zermuita_next_wanted(3)). Append the answers to `messages` and call again.
 * - ZERMUITA_ASK: the signatures to check (zermuita_next_ask(3)).
 * - Refusals up to 27, ZERMUITA_INCOMPLETE_DENIAL, ZERMUITA_NOTHING_TOLD: the zone, name and type of the answer that is refused,
 *   in the form of ZERMUITA_WANT. With 17 and 19 to 21 the zone's DNSKEY answer is refused, not this one.
 * - ZERMUITA_OUT_OF_MEMORY, ZERMUITA_MESSAGE_TOO_LONG, ZERMUITA_TOO_MANY_SIGNATURES, ZERMUITA_TOO_MUCH_WORK, errors of the
 *   caller: nothing, and no aliases.
 * - All others: nothing.
 *
 * After a refusal replace the refused message: of two messages for one question of a zone the first counts.
 *
 * # Report
 *
 * `ttl` and `until` say how long a secure or insecure result may be kept: `ttl` seconds from the arrival of the oldest message
 * that it rests on, and until the second `until`. Both are the least of all steps. `verifications` and `hashes` count all
 * judgements of the call, and are 0 with ZERMUITA_OUT_OF_MEMORY, ZERMUITA_MESSAGE_TOO_LONG and errors of the caller. `ede` is
 * that of zermuita_judge() for the refused answer. If that answer has no record of a denial, it is 7 or 8 where that is the error
 * of the zone's answer to the question. With ZERMUITA_INSECURE it is that of the delegation's DS set, 0 if it is proved that there
 * is none. `delegates` is 0.
 *
 * # Work
 *
 * Each call judges all messages again, so `max_work` limits the work of all calls. The work of a call is the sum over its
 * searches: 8 for each record of the zone's DNSKEY answer and of the other answer, plus one for each label of its owner, 32 times
 * as much for NSEC and NSEC3 records; and one for each 32 bytes. It is multiplied by the calls that the evidence counts as: one
 * for each message, one for each entry of `checked` that passes, and 16 for each that fails. If the walk needs more, and the
 * product exceeds `max_work`, it returns ZERMUITA_TOO_MUCH_WORK. A result that the evidence proves is returned in any case.
 *
 * # Caveats
 *
 * It is proved that a reply is what the tree of zones says, under premises that docs/proof/PROMISES.md of the source lists.
 *
 * @see zermuita_judge zermuita_next_ask zermuita_next_wanted zermuita_strerror
 * @standards RFC 1034, section 4.3.2; RFC 4033, 4034 and 4035; RFC 5155; RFC 6672.
 */

/*
 * What a walk is given. Set it to zero, then its size, then what the question needs. The class is IN.
 */
struct zermuita_evidence {
    size_t size;                       /* sizeof(struct zermuita_evidence); 128 if `max_work` is unknown */
    struct zermuita_octets anchor;     /* the name of the trust anchor's zone; the root is one byte, 0 */
    struct zermuita_octets ds;         /* its DS set, as in a case; ZERMUITA_BAD_DS_SET if no record of it counts */
    struct zermuita_octets name;       /* the name of the question */
    struct zermuita_octets messages;   /* the messages so far, back to back, in any order (zermuita_put_message(3)) */
    struct zermuita_octets checked;    /* the signatures checked so far: entries back to back, in any order */
    struct zermuita_octets algorithms; /* the algorithms that the caller checks, a byte each; empty: all */
    uint64_t now;                      /* the time at which signatures have to be valid, in seconds since 1970 */
    uint16_t rtype;                    /* the type of the question */
    uint16_t max_nsec3_iterations;     /* the most NSEC3 iterations that are accepted (RFC 9276, section 3.2) */
    uint16_t max_cuts;                 /* the most delegations for one name; 0: 32 */
    uint16_t max_aliases;              /* the most aliases that are followed; 0: 16; over 255: 255 */
    uint16_t one_moment;               /* as in a case */
    uint16_t max_messages;             /* with this many messages no more are requested; 0: 128 */
    uint32_t max_signatures;           /* the most entries of `checked` and requested signatures together; 0: 256 */
    uint64_t max_work;                 /* the most work of all calls of a walk, in the units below; 0: 6,000,000 */
};

/* The function behind zermuita_resolve(), for other languages. */
uint32_t zermuita_resolve_evidence(const struct zermuita_evidence *handed, uint8_t *out, size_t out_len,
                                   struct zermuita_report *report);

/*
 * Walks over evidence. Null pointers, room and overlaps are as for zermuita_judge().
 *
 *     for (;;) {
 *         handed.messages = (struct zermuita_octets){messages.data, messages.len};
 *         handed.checked = (struct zermuita_octets){checked.data, checked.len};
 *         reply = zermuita_resolve(&handed, out, sizeof out, &report);
 *         struct zermuita_octets rest = {out, report.len}, answer;
 *         struct zermuita_wanted wanted;
 *         if (reply == ZERMUITA_WANT) {
 *             while (zermuita_next_wanted(&rest, &wanted)) {
 *                 answer = query_servers_of(&wanted); // your transport or cache
 *                 size_t room = zermuita_message_room(&wanted, answer.len);
 *                 zermuita_put_message(grown(&messages, room), &wanted, answer);
 *             }
 *         } else if (reply == ZERMUITA_ASK) {
 *             struct zermuita_ask ask;
 *             uint8_t *next = out;
 *             for (size_t left = report.len; zermuita_next_ask(&next, &left, &ask);) {
 *                 zermuita_answer(&ask, signature_passes(&ask)); // by your library
 *             }
 *             memcpy(grown(&checked, report.len), out, report.len);
 *         } else {
 *             break;
 *         }
 *     }
 */
static inline enum zermuita_reply zermuita_resolve(const struct zermuita_evidence *handed, uint8_t *out, size_t out_len,
                                                   struct zermuita_report *report) {
    union {
        struct zermuita_evidence handed;
        uint8_t octets[ZERMUITA_CASE_ROOM];
    } room;
    union {
        struct zermuita_report report;
        uint8_t octets[ZERMUITA_REPORT_ROOM];
    } said;
    uint8_t nowhere[1];
    enum zermuita_reply reply = ZERMUITA_BAD_CASE;
    memset(&said, 0, sizeof said);
    said.report.size = report != NULL ? report->size : sizeof said.report;
    memset(&room, 0, sizeof room);
    memcpy(&room, handed, handed->size < sizeof *handed ? handed->size : sizeof *handed);
    if (out == NULL) {
        out = nowhere;
        out_len = 0;
    }
    if (zermuita_octets_are(&room.handed.anchor) && zermuita_octets_are(&room.handed.ds) && zermuita_octets_are(&room.handed.name)
        && zermuita_octets_are(&room.handed.messages) && zermuita_octets_are(&room.handed.checked)
        && zermuita_octets_are(&room.handed.algorithms)) {
        reply = (enum zermuita_reply)zermuita_resolve_evidence(&room.handed, out, out_len, &said.report);
    }
    if (report != NULL) {
        memcpy(report, &said, report->size < sizeof *report ? report->size : sizeof *report);
    }
    return reply;
}

/*
 * @page zermuita_next_wanted: messages for zermuita_resolve
 *
 *     struct zermuita_octets rest = {out, report.len}, names, name, zone;
 *     struct zermuita_wanted refused;
 *     if (zermuita_take_aliases(&rest, &names)) {
 *         while (zermuita_next_name(&names, &name)) {
 *             note_alias_target(name);
 *         }
 *     }
 *     if (zermuita_is_refusal(reply) && zermuita_next_wanted(&rest, &refused)) {
 *         query_another_server(&refused);
 *     } else if (reply == ZERMUITA_INSECURE || reply == ZERMUITA_OPTOUT) {
 *         resolve_without_validation(rest); // a delegation, or a zone
 *     } else if (zermuita_next_name(&rest, &zone)) {
 *         use(zone, rest); // secure: the rest is the data of the records
 *     }
 *
 * @see zermuita_next_record zermuita_resolve
 */

/* A message that is needed, or an answer that is refused. */
struct zermuita_wanted {
    struct zermuita_octets zone; /* the zone whose servers to query */
    struct zermuita_octets name; /* the name to query */
    uint16_t rtype;              /* the type to query, in class 1 */
};

/*
 * Removes the targets of aliases from `rest`, which is the start of an output of zermuita_resolve(): their number in four bytes,
 * then the names, which zermuita_next_name() removes from `names` one by one. Returns 1, or 0 and changes nothing if there are
 * none, as for an empty output.
 */
static inline int zermuita_take_aliases(struct zermuita_octets *rest, struct zermuita_octets *names) {
    struct zermuita_octets behind = *rest, name;
    size_t count = rest->len < 4 ? 0 : zermuita_number(rest->data, 4);
    if (rest->len < 4) {
        return 0;
    }
    behind.data += 4;
    behind.len -= 4;
    for (size_t i = 0; i < count; i++) {
        if (!zermuita_next_name(&behind, &name)) {
            return 0;
        }
    }
    names->data = rest->data + 4;
    names->len = (size_t)(behind.data - names->data);
    *rest = behind;
    return 1;
}

/* Removes a message that is needed: two names in wire form and a type in two bytes. Returns 1, or 0 if there are no more. */
static inline int zermuita_next_wanted(struct zermuita_octets *rest, struct zermuita_wanted *wanted) {
    struct zermuita_octets behind = *rest;
    if (!zermuita_next_name(&behind, &wanted->zone) || !zermuita_next_name(&behind, &wanted->name) || behind.len < 2) {
        return 0;
    }
    wanted->rtype = (uint16_t)zermuita_number(behind.data, 2);
    rest->data = behind.data + 2;
    rest->len = behind.len - 2;
    return 1;
}

/* Returns how many bytes a message of `len` bytes takes in `messages`. */
static inline size_t zermuita_message_room(const struct zermuita_wanted *wanted, size_t len) {
    return 2 + wanted->zone.len + 2 + wanted->name.len + 2 + 4 + len;
}

/*
 * Writes a message to `out`, which has room for zermuita_message_room() bytes: the zone and the name, each prefixed by its length
 * in two bytes, the type in two bytes, and the message prefixed by its length in four. `wanted` holds the zone and the question that
 * the message answers; the message may also come from a cache.
 */
static inline void zermuita_put_message(uint8_t *out, const struct zermuita_wanted *wanted, struct zermuita_octets message) {
    const struct zermuita_octets names[2] = {wanted->zone, wanted->name};
    for (int i = 0; i < 2; i++) {
        *out++ = (uint8_t)(names[i].len >> 8);
        *out++ = (uint8_t)names[i].len;
        memcpy(out, names[i].data, names[i].len);
        out += names[i].len;
    }
    *out++ = (uint8_t)(wanted->rtype >> 8);
    *out++ = (uint8_t)wanted->rtype;
    for (int shift = 24; shift >= 0; shift -= 8) {
        *out++ = (uint8_t)(message.len >> shift);
    }
    if (message.len != 0) {
        memcpy(out, message.data, message.len);
    }
}

#ifdef __cplusplus
}
#endif

#endif
