/* DNS messages, read without a copy (RFC 1035, 4). */
#ifndef MESSAGE_H
#define MESSAGE_H

#include "octets.h"

enum {
    TYPE_NS = 2,
    TYPE_CNAME = 5,
    TYPE_SOA = 6,
    TYPE_DNAME = 39,
    TYPE_OPT = 41,
    TYPE_DS = 43,
    TYPE_RRSIG = 46,
    TYPE_NSEC = 47
};
enum { TYPE_DNSKEY = 48, TYPE_NSEC3 = 50, TYPE_NXNAME = 128, CLASS_IN = 1 };
enum {
    FLAG_QR = 0x8000,
    FLAG_AA = 0x0400,
    FLAG_TC = 0x0200,
    FLAG_AD = 0x0020,
    FLAG_CD = 0x0010,
    MASK_OPCODE = 0x7800,
    MASK_RCODE = 15
};
enum { RCODE_NOERROR = 0, RCODE_SERVFAIL = 2, RCODE_NXDOMAIN = 3 };
enum section { ANSWER, AUTHORITY, ADDITIONAL, SECTIONS };
enum { NAME_ROOM = 255, TEXT_ROOM = 4 * NAME_ROOM + 1, HEADER = 12, MESSAGE_ROOM = 65535 };

/* A name in wire form and lower case, without pointers. */
struct name {
    size_t len;
    uint8_t octets[NAME_ROOM];
};

struct message {
    struct octets octets;
    uint16_t flags, counts[SECTIONS], qtype, qclass;
    struct name qname;
    size_t records_at;
};

struct record {
    struct name owner;
    uint16_t rtype, rclass;
    uint32_t ttl;
    struct octets data;
    enum section section;
};

/* A walk over the records of a message that was read. */
struct walk {
    const struct message *message;
    size_t at;
    unsigned section, number;
};

/* Reads a message that has one question. Gives false where it, or one of its records, can't be read. */
bool read_message(struct octets octets, struct message *message);
struct walk walk_of(const struct message *message);
bool next_record(struct walk *walk, struct record *record);

/* What an RRSIG record says (RFC 4034, 3.1). */
struct signature {
    uint16_t covered;
    uint32_t original_ttl, expiration;
    struct name signer;
    struct octets octets; /* the signature itself, at the end of the record's data */
};
bool read_signature(const struct message *message, const struct record *record, struct signature *signature);
/* Whether a message has a signature, outside of the additional section, by a signer; by any where that is null. */
bool is_signed_by(const struct message *message, const struct name *signer);
/*
 * The zone that signed what a message has of a name: the signer furthest down. What is signed of the
 * aliases that led to the name says nothing of it. Gives false where there is none, or where a SOA
 * record says that an unsigned zone further down answered.
 */
bool find_signer(const struct message *message, const struct name *name, struct name *signer);
/* How long all records of a message may be kept together, in seconds (RFC 4035, 5.3.3; RFC 2308, 5). */
uint32_t least_ttl(const struct message *message, uint64_t now);
/* Whether there is a record of a type in the answer section; of any owner where that is null. */
bool has_answer(const struct message *message, const struct name *owner, uint16_t rtype);
/* Whether a record is an NSEC or NSEC3 record with a type in its bitmap (RFC 4034, 4.1.2; RFC 5155, 3.2). */
bool has_type(const struct message *message, const struct record *record, uint16_t rtype);
/* The record of EDNS (RFC 6891). */
bool find_edns(const struct message *message, struct record *edns);
/* Takes options of EDNS off the front of `rest`, up to the next extended error (RFC 8914). Gives false where there is none. */
bool next_extended_error(struct octets *rest, uint16_t *code);
/* Whether a message is a referral: the owner of its NS set is the cut. */
bool is_referral(const struct message *message, struct name *cut);
/*
 * Writes what a message says of the DS set of a name as an answer to the question for it: the DS set, NSEC and NSEC3 records,
 * and their signatures. Gives how many octets were written, 0 where there is no room. No verdict rests on how records are put
 * together.
 */
size_t write_ds_answer(const struct message *message, const struct name *cut, uint8_t *out, size_t room);
/* Writes a message as an answer to the question for another name. Gives how many octets, 0 where there is no room. */
size_t write_answer_for(const struct message *message, const struct name *qname, uint8_t *out, size_t room);

/* Writes a record up to its data, and gives the place where these begin; and, behind them, their length. */
size_t begin_record(struct written *to, const struct record *record);
void end_record(struct written *to, size_t begin);
/* Writes a record with names in full: those in its data in lower case, where they are signed so (RFC 4034, 6.2). */
void write_in_full(struct written *to, const struct message *message, const struct record *record);

/* Reads the name at a place, in lower case. Gives the place behind it, or 0 where there is none. */
size_t read_name(struct octets all, size_t at, struct name *name);
bool name_of_octets(struct octets octets, struct name *name);
bool name_of_text(const char *text, struct name *name);
/* In the form of master files (RFC 1035, 5.1). */
void name_text(const struct name *name, char text[TEXT_ROOM]);
bool names_equal(const struct name *one, const struct name *other);
/* Whether a name is at or below another. */
bool is_at_or_below(const struct name *name, const struct name *above);
size_t label_count(const struct name *name);
/* The last labels of a name, the root's not counted. */
struct name last_labels(const struct name *name, size_t count);

#endif
