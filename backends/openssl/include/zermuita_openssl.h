/*
 * Validates DNSSEC answers with the library zermuita, and checks signatures with OpenSSL 3. A caller writes no cryptography:
 * zermuita_openssl_judge() and zermuita_openssl_resolve() call the library until it needs nothing more. Algorithms 8, 10, 13, 14,
 * 15 and 16 are checked (RFC 8624, section 3.1). docs/use/CALLING.md of the source begins with an example.
 *
 * The functions of this header are tested, not proved; what they pass to the library is. They keep no global state. A
 * zermuita_openssl and trust anchors may be used by any number of threads at once, if nothing sets or adds to them meanwhile. A
 * result belongs to one thread at a time.
 */
#ifndef ZERMUITA_OPENSSL_H
#define ZERMUITA_OPENSSL_H

#include <zermuita.h>

#ifdef __cplusplus
extern "C" {
#endif

/*
 * @page zermuita_openssl_judge: validates an answer, with signatures checked by OpenSSL
 *
 *     struct zermuita_openssl *checker = zermuita_openssl_new();
 *     struct zermuita_case handed;
 *     zermuita_openssl_case_init(&handed, sizeof handed);
 *     handed.apex = apex, handed.ds = ds, handed.dnskey = dnskey;
 *     handed.answer = answer, handed.name = name, handed.rtype = 1;
 *     struct zermuita_openssl_result *result = zermuita_openssl_judge(checker, &handed);
 *     puts(zermuita_strerror(zermuita_openssl_reply(result)));
 *     struct zermuita_octets rdata;
 *     for (size_t i = 0; zermuita_openssl_record(result, i, &rdata); i++) {
 *         use(rdata);
 *     }
 *     zermuita_openssl_result_free(result);
 *     zermuita_openssl_free(checker);
 *
 * zermuita_openssl_judge() calls zermuita_judge(3), checks the signatures that it lists, and calls it again until it lists no
 * more. A message that is too long in canonical form is judged once more with `as_received` 1.
 *
 * @see zermuita_judge zermuita_openssl_anchors_new zermuita_openssl_new zermuita_openssl_reply zermuita_openssl_resolve
 * @standards RFC 4035, section 5; RFC 8624, section 3.1.
 */

/* Checks signatures, and keeps keys that it has read. */
struct zermuita_openssl;

/* What a call says: zermuita_openssl_reply(3). */
struct zermuita_openssl_result;

/*
 * Sets a case to the values that a validator begins with: class IN, the time that the clock shows, 100 NSEC3 iterations. `size` is
 * sizeof(struct zermuita_case): that of the caller, who may have an older header than the library.
 */
void zermuita_openssl_case_init(struct zermuita_case *handed, size_t size);

/* The same for evidence: the time, and 100 NSEC3 iterations. */
void zermuita_openssl_evidence_init(struct zermuita_evidence *handed, size_t size);

/*
 * Judges a case. `checked` may have entries of earlier calls, and `algorithms` may be empty: then they are those that `checker`
 * checks. Returns null only if memory runs out, or `checker` is null. All functions for results take null as a result that says
 * ZERMUITA_OUT_OF_MEMORY.
 *
 * If a signature could not be checked, the reply is ZERMUITA_OUT_OF_MEMORY, or ZERMUITA_ASK if something other than memory was
 * missing. Answer SERVFAIL to both.
 */
struct zermuita_openssl_result *zermuita_openssl_judge(struct zermuita_openssl *checker, const struct zermuita_case *handed);

/* Frees a result, which may be null, with everything that its functions returned. */
void zermuita_openssl_result_free(struct zermuita_openssl_result *result);

/*
 * @page zermuita_openssl_resolve: validates a name from a trust anchor down, with signatures checked by OpenSSL
 *
 * zermuita_openssl_resolve() calls zermuita_resolve(3), fetches the messages that it wants by a function of the caller, and checks
 * the signatures that it lists, until it needs nothing more.
 *
 *     static int fetch(void *servers, const struct zermuita_wanted *wanted,
 *                      unsigned attempt, struct zermuita_octets *message) {
 *         uint8_t query[ZERMUITA_OPENSSL_QUERY_ROOM];
 *         size_t len = zermuita_openssl_query(wanted, random_id(), query);
 *         return ask_server_of(servers, wanted->zone, attempt, query, len, message);
 *     }
 *
 *     struct zermuita_evidence handed;
 *     zermuita_openssl_evidence_init(&handed, sizeof handed);
 *     handed.name = name, handed.rtype = 1;
 *     zermuita_openssl_anchor(anchors, name, 1, &handed.anchor, &handed.ds);
 *     result = zermuita_openssl_resolve(checker, &handed, fetch, servers);
 *
 * # Refused messages
 *
 * A forged, altered or truncated message may cause a refusal. So a refused message is fetched again, at most twice for one
 * question of a zone and 16 times for a walk: the zone's DNSKEY answer after ZERMUITA_BAD_DNSKEY_MESSAGE,
 * ZERMUITA_QUESTION_MISMATCH, ZERMUITA_EQUAL_TAGS and ZERMUITA_NO_TRUSTED_KEY; the answer itself after
 * ZERMUITA_BAD_ANSWER_MESSAGE, ZERMUITA_MIXED_NSEC3_PARAMETERS, ZERMUITA_NOT_PROVEN, ZERMUITA_INCOMPLETE_DENIAL,
 * ZERMUITA_MIXED_VERSIONS and ZERMUITA_NOTHING_TOLD.
 *
 * @see zermuita_openssl_anchors_new zermuita_openssl_judge zermuita_openssl_reply zermuita_resolve
 * @standards RFC 3225; RFC 4035, section 5; RFC 6891.
 */

/*
 * Fetches a message that is wanted: sets `message` and returns 1, or returns 0 if no server replies. `attempt` is 0, or 1 or 2 if
 * the messages before this were refused: then ask another server, or return 0. The bytes must stay as they are until the next call
 * of this function, or until zermuita_openssl_resolve() returns.
 */
typedef int zermuita_openssl_fetch(void *context, const struct zermuita_wanted *wanted, unsigned attempt,
                                   struct zermuita_octets *message);

/*
 * Walks from a trust anchor down. `messages` and `checked` may have those of a cache. If nothing that is wanted is fetched, the
 * reply is ZERMUITA_WANT, and zermuita_openssl_refused() returns what was wanted first. Otherwise as zermuita_openssl_judge().
 */
struct zermuita_openssl_result *zermuita_openssl_resolve(struct zermuita_openssl *checker, const struct zermuita_evidence *handed,
                                                         zermuita_openssl_fetch *fetch, void *context);

/* How many bytes a query has at most. */
#define ZERMUITA_OPENSSL_QUERY_ROOM 288

/*
 * Writes a query for a message that is wanted, with EDNS, DO, 1,232 bytes and without RD, and returns its length; 0 if the name is
 * not one in wire form. Check ID, address, port and question of the answer, and ask over TCP if it has TC.
 */
size_t zermuita_openssl_query(const struct zermuita_wanted *wanted, uint16_t id, uint8_t *query);

/*
 * @page zermuita_openssl_reply: what a judgement or a walk says
 *
 * Everything that these functions return belongs to the result, and is valid until that is freed. A part that a reply does not
 * have is empty; an item that does not exist returns 0. zermuita_judge(3) and zermuita_resolve(3) say which reply has which part,
 * zermuita_strerror(3) what each reply means.
 *
 * @see zermuita_judge zermuita_openssl_judge zermuita_openssl_resolve zermuita_resolve zermuita_strerror
 * @standards RFC 4035, section 4.3; RFC 8914.
 */

/* How far an answer may be trusted (RFC 4035, section 4.3). The least trusted is 0, so that cleared memory trusts nothing. */
enum zermuita_openssl_security {
    /*
     * Nothing is known: requests, errors of the caller, refusals that concern a server, policy or memory, incomplete denials, and
     * ZERMUITA_DELEGATED and ZERMUITA_REFERRAL, which show where the zone ends and are no answer. Answer SERVFAIL to refusals.
     */
    ZERMUITA_OPENSSL_INDETERMINATE = 0, /* neither a proof, nor a proof that there need not be one */
    /*
     * ZERMUITA_NO_TRUSTED_KEY, ZERMUITA_MIXED_NSEC3_PARAMETERS and ZERMUITA_NOT_PROVEN, if no other server has an answer with a
     * verdict. Answer SERVFAIL.
     */
    ZERMUITA_OPENSSL_BOGUS = 1, /* there must be a proof, and there is none */
    /* ZERMUITA_INSECURE and ZERMUITA_OPTOUT. Answer without AD. */
    ZERMUITA_OPENSSL_INSECURE = 2, /* it is proved that nothing there is signed, or need be */
    /*
     * ZERMUITA_RECORDS, ZERMUITA_NODATA, ZERMUITA_NXDOMAIN, ZERMUITA_WILDCARD, ZERMUITA_WILDCARD_NODATA, ZERMUITA_ALIAS,
     * ZERMUITA_WILDCARD_ALIAS and ZERMUITA_DNAME. An alias is secure, its target has to be resolved.
     */
    ZERMUITA_OPENSSL_SECURE = 3 /* it is proved */
};

/* Returns how far a reply may be trusted. Also for replies of zermuita_judge() and zermuita_resolve(). */
enum zermuita_openssl_security zermuita_openssl_security_of(enum zermuita_reply reply);

/* Returns the same of the result's reply. */
enum zermuita_openssl_security zermuita_openssl_security(const struct zermuita_openssl_result *result);

/* Returns the reply. */
enum zermuita_reply zermuita_openssl_reply(const struct zermuita_openssl_result *result);

/* Returns the report: `ttl`, `until`, `ede`, `delegates` and the counts. Its `len` means nothing here. */
const struct zermuita_report *zermuita_openssl_report(const struct zermuita_openssl_result *result);

/*
 * Sets `rdata` to the data of a record of ZERMUITA_RECORDS and ZERMUITA_WILDCARD, counted from 0 in canonical order. Returns 1, or
 * 0 if there is none.
 */
int zermuita_openssl_record(const struct zermuita_openssl_result *result, size_t index, struct zermuita_octets *rdata);

/*
 * Returns a DS set in the form of a case: that of ZERMUITA_REFERRAL, or the records of ZERMUITA_RECORDS for DS. Enter the zone
 * below with it.
 */
struct zermuita_octets zermuita_openssl_ds(const struct zermuita_openssl_result *result);

/*
 * Returns where an alias leads: the target of ZERMUITA_ALIAS and ZERMUITA_WILDCARD_ALIAS, the name that ZERMUITA_DNAME makes.
 * Empty after ZERMUITA_DNAME if that exceeds 255 bytes.
 */
struct zermuita_octets zermuita_openssl_target(const struct zermuita_openssl_result *result);

/* Returns the owner of the DNAME record of ZERMUITA_DNAME. */
struct zermuita_octets zermuita_openssl_owner(const struct zermuita_openssl_result *result);

/*
 * Returns a delegation: that of ZERMUITA_REFERRAL; of ZERMUITA_DELEGATED, if the answer proves which one it is; in a walk that of
 * ZERMUITA_INSECURE, below which nothing is signed.
 */
struct zermuita_octets zermuita_openssl_cut(const struct zermuita_openssl_result *result);

/* Returns the zone that a secure verdict of a walk comes from, or whose opt-out leaves the name open. */
struct zermuita_octets zermuita_openssl_zone(const struct zermuita_openssl_result *result);

/* Sets `name` to the target of an alias on the way of a walk, counted from 0. Returns 1, or 0 if there is none. */
int zermuita_openssl_alias(const struct zermuita_openssl_result *result, size_t index, struct zermuita_octets *name);

/*
 * Sets `place` to an index that `places` of a case asks for (zermuita_take_places(3)), counted from 0. Returns 1, or 0 if there is
 * none.
 */
int zermuita_openssl_place(const struct zermuita_openssl_result *result, size_t index, uint32_t *place);

/*
 * Sets `refused` to the message of a walk that is refused, or with ZERMUITA_WANT to the first one that was not fetched. Returns 1,
 * or 0 if there is none.
 */
int zermuita_openssl_refused(const struct zermuita_openssl_result *result, struct zermuita_wanted *refused);

/* Returns the checked signatures, in the form of `checked`: those that were passed, then those that this call checked. */
struct zermuita_octets zermuita_openssl_entries(const struct zermuita_openssl_result *result);

/* Returns the messages of a walk, in the form of `messages`: those that were passed, and those that were fetched. */
struct zermuita_octets zermuita_openssl_messages(const struct zermuita_openssl_result *result);

/*
 * @page zermuita_openssl_new: checks signatures with OpenSSL
 *
 * # Limits
 *
 * RSA keys have 512 to 4,096 bits, for algorithm 10 at least 1,024 (RFC 5702, section 2), and an odd exponent of at most 64 bits,
 * not 1. named has the same limits for moduli and accepts exponents of up to 35 bits; OpenSSL limits exponents to 64 bits for
 * moduli of more than 3,072 bits; unbound has no limits of its own. A signature of RSA is as long as its modulus, others have the
 * lengths of RFC 6605 and RFC 8080. A point that is not on its curve is no key.
 *
 * # Keys
 *
 * Keys are read once and kept: 64 of them, the least used ones go first. Refused keys are not kept.
 *
 * # Algorithms
 *
 * An algorithm counts only if OpenSSL's providers have it: without Ed448, say, zones with DS records of it alone are insecure (RFC
 * 4035, section 5.2).
 *
 * # Errors of OpenSSL
 *
 * The calling thread's error queue of OpenSSL is empty after a check.
 *
 * @see zermuita_next_ask zermuita_openssl_judge zermuita_openssl_resolve
 * @standards RFC 3110; RFC 5702; RFC 6605; RFC 8080; RFC 8624.
 */

/* Declared by OpenSSL's headers as OSSL_LIB_CTX. */
struct ossl_lib_ctx_st;

/* What the check of a signature says. 1 alone means that it passes. */
enum zermuita_openssl_checked {
    ZERMUITA_OPENSSL_FAILS = 0,         /* the key did not make this signature over these bytes */
    ZERMUITA_OPENSSL_PASSES = 1,        /* the key made this signature over these bytes */
    ZERMUITA_OPENSSL_BAD_KEY = 2,       /* the key cannot be read, or cannot be one of its algorithm */
    ZERMUITA_OPENSSL_BAD_KEY_SIZE = 3,  /* an RSA key is too small or too large, or its exponent is */
    ZERMUITA_OPENSSL_BAD_SIGNATURE = 4, /* the signature does not have the length that its algorithm and key demand */
    ZERMUITA_OPENSSL_UNSUPPORTED = 5,   /* the algorithm is not one that is checked */
    ZERMUITA_OPENSSL_NO_MEMORY = 6,     /* memory ran out: nothing is known about the signature */
    ZERMUITA_OPENSSL_BROKEN = 7         /* it could not be checked for another reason, such as a device that is gone */
};

/* The number of values of enum zermuita_openssl_checked. */
#define ZERMUITA_OPENSSL_CHECKED_COUNT 8

/* Returns the name of a value and a sentence. */
const char *zermuita_openssl_checked_text(enum zermuita_openssl_checked checked);

/* Returns how many signatures of a call had this result. */
size_t zermuita_openssl_count(const struct zermuita_openssl_result *result, enum zermuita_openssl_checked checked);

/* Makes a checker over OpenSSL's default context. Returns null if memory runs out. */
struct zermuita_openssl *zermuita_openssl_new(void);

/*
 * Makes a checker over a context of OpenSSL, null for the default one, with a query for properties such as "fips=yes", which may be
 * null, that keeps `keys` keys, at most 4,096; 0: it keeps none. The context must outlive it. Returns null if memory runs out, or
 * OpenSSL cannot say which algorithms it has.
 */
struct zermuita_openssl *zermuita_openssl_new_in(struct ossl_lib_ctx_st *context, const char *properties, size_t keys);

/* Frees a checker, which may be null. */
void zermuita_openssl_free(struct zermuita_openssl *checker);

/* Returns the algorithms that are checked, a byte each, in the form of a case's `algorithms`. */
struct zermuita_octets zermuita_openssl_algorithms(const struct zermuita_openssl *checker);

/* Checks a signature. The context is that of the call that sets the function: for zermuita_openssl_check() a checker. */
typedef enum zermuita_openssl_checked zermuita_openssl_check_function(void *context, const struct zermuita_ask *ask);

/*
 * The function by which a checker checks signatures as long as no other is set. A signature does not pass with any result but
 * ZERMUITA_OPENSSL_PASSES.
 */
enum zermuita_openssl_checked zermuita_openssl_check(void *checker, const struct zermuita_ask *ask);

/*
 * Sets another function, such as one that calls a device or counts, with the algorithms that it checks, at most 16. Null is
 * zermuita_openssl_check() again. Returns 1, or 0 and changes nothing if the algorithms are none or too many. Threads that use the
 * checker call the function at once.
 */
int zermuita_openssl_set_check(struct zermuita_openssl *checker, zermuita_openssl_check_function *check, void *context,
                               struct zermuita_octets algorithms);

/*
 * @page zermuita_openssl_anchors_new: names, DS records and trust anchors from text
 *
 *     struct zermuita_openssl_anchors *anchors = zermuita_openssl_anchors_new();
 *     struct zermuita_openssl_name name;
 *     if (zermuita_openssl_anchors_read(anchors, "/usr/share/dns/root.ds") != 0
 *         || zermuita_openssl_name_from_text("www.example.com", &name) != 0) {
 *         return; // zermuita_openssl_error_text() says why
 *     }
 *
 * # Trust anchors
 *
 * Text has DS and DNSKEY records of class IN in the presentation form (RFC 1035, section 5.1; RFC 4034), as the files root.ds and
 * root.key of Debian, and the trust anchor files of unbound. A TTL, the class, comments and parentheses may be there, and lines
 * with $TTL, or with $ORIGIN and the root; names are absolute. Of a DNSKEY record the DS record with a SHA-256 digest counts; a DS
 * record with another digest than those of types 1, 2 and 4 does not.
 *
 * In a file that unbound maintains (RFC 5011), keys count in the states 2, VALID, and 3, MISSING, as for unbound. A key with the
 * REVOKE flag never counts. If all keys of the file are revoked, it is refused.
 *
 * @see zermuita_openssl_judge zermuita_openssl_resolve
 * @standards RFC 1035, section 5.1; RFC 4034; RFC 4509; RFC 5011; RFC 6605.
 */

/* Why text is refused. */
enum zermuita_openssl_error {
    ZERMUITA_OPENSSL_DONE = 0,         /* it is not refused */
    ZERMUITA_OPENSSL_BAD_NAME = 1,     /* a name is too long, or has an empty label or a wrong escape */
    ZERMUITA_OPENSSL_BAD_RECORD = 2,   /* a line is not a DS or a DNSKEY record of class IN */
    ZERMUITA_OPENSSL_BAD_DIGEST = 3,   /* a digest does not have the length of its type, or is not in hexadecimal digits */
    ZERMUITA_OPENSSL_BAD_ZONE_KEY = 4, /* a key is not in base64, or it is no zone's key, or of another protocol than 3 */
    ZERMUITA_OPENSSL_NO_ANCHOR = 5,    /* there is no record that counts */
    ZERMUITA_OPENSSL_REVOKED = 6,      /* all keys of the zone are revoked */
    ZERMUITA_OPENSSL_NOT_READ = 7,     /* the file cannot be read, or has more than a million bytes */
    ZERMUITA_OPENSSL_TEXT_MEMORY = 8   /* memory ran out */
};

/* Returns the name of a value and a sentence. */
const char *zermuita_openssl_error_text(enum zermuita_openssl_error error);

/* A name in wire form. */
struct zermuita_openssl_name {
    size_t len;          /* how many bytes it has */
    uint8_t octets[255]; /* the name */
};

/* Reads a name, with or without a dot at its end, with the escapes of RFC 1035, section 5.1. */
enum zermuita_openssl_error zermuita_openssl_name_from_text(const char *text, struct zermuita_openssl_name *name);

/* Returns the bytes of a name, as cases and evidence have it. They belong to `name`. */
struct zermuita_octets zermuita_openssl_name_octets(const struct zermuita_openssl_name *name);

/* How many bytes the text of a name takes, with a terminating zero. */
#define ZERMUITA_OPENSSL_TEXT_ROOM 1008

/*
 * Writes a name with a dot at its end and a terminating zero, and returns its length without that; 0, and an empty text, if it is
 * not a name in wire form. Bytes that are not printable are written as `\DDD`.
 */
size_t zermuita_openssl_name_to_text(struct zermuita_octets name, char *text);

/* A DS record in the form of a case: its data prefixed by their length in two bytes. */
struct zermuita_openssl_ds_record {
    size_t len;         /* how many bytes it has */
    uint8_t octets[54]; /* the record */
};

/* Reads the data of a DS record, such as "20326 8 2 E06D44B8..": key tag, algorithm, digest type 1, 2 or 4, and digest. */
enum zermuita_openssl_error zermuita_openssl_ds_from_text(const char *text, struct zermuita_openssl_ds_record *ds);

/*
 * Makes the DS record of a zone's key: of its name in wire form, in any case, and the data of its DNSKEY record. `digest_type` is
 * 2, SHA-256, or 4, SHA-384.
 */
enum zermuita_openssl_error zermuita_openssl_ds_from_key(struct zermuita_octets zone, struct zermuita_octets dnskey,
                                                         uint8_t digest_type, struct zermuita_openssl_ds_record *ds);

/* Trust anchors: zones with DS sets. */
struct zermuita_openssl_anchors;

/* Makes an empty set. Returns null if memory runs out. */
struct zermuita_openssl_anchors *zermuita_openssl_anchors_new(void);

/* Frees a set, which may be null. */
void zermuita_openssl_anchors_free(struct zermuita_openssl_anchors *anchors);

/* Adds the records of a text. If it is refused, nothing is added. */
enum zermuita_openssl_error zermuita_openssl_anchors_add(struct zermuita_openssl_anchors *anchors, const char *text, size_t len);

/* Adds the records of a file. */
enum zermuita_openssl_error zermuita_openssl_anchors_read(struct zermuita_openssl_anchors *anchors, const char *path);

/* Returns the line for which the last text was refused, counted from 1; 0 if it was not, or for none. */
size_t zermuita_openssl_anchors_line(const struct zermuita_openssl_anchors *anchors);

/*
 * Finds the anchor to begin a walk with: the lowest at or above the name; for type DS, above it. Returns 1, or 0 if there is none:
 * then the name is not validated. What it returns belongs to `anchors`.
 */
int zermuita_openssl_anchor(const struct zermuita_openssl_anchors *anchors, struct zermuita_octets name, uint16_t rtype,
                            struct zermuita_octets *zone, struct zermuita_octets *ds);

#ifdef __cplusplus
}
#endif

#endif
