/*
 * The judge for a module of a resolver: takes the messages that the resolver has, judges what it is about to answer, and writes
 * the answer that it gives instead. A module calls it through a foreign function interface, so all types are plain.
 *
 * Calls may be made in several threads: they wait for one another.
 */
#ifndef MODULE_H
#define MODULE_H

#include <stddef.h>
#include <stdint.h>

struct zermuita_module;

/* What to do with an answer. */
enum zermuita_module_action {
    ZERMUITA_MODULE_PASS,     /* both agree, or nothing is known to be wrong */
    ZERMUITA_MODULE_CLEAR_AD, /* it may be right, and is not proved: opt-out, or a zone without DS */
    ZERMUITA_MODULE_REFUSE    /* it is proved to be false, or its own messages do not prove what it claims */
};

/* What was counted. */
struct zermuita_module_counts {
    uint64_t learned, judged, agreed, cleared, refused, not_judged;
};

/*
 * `anchors` is a file of DS records as master files have them. `log` is a file to which a line of JSON is appended for each
 * disagreement, as docs/use/SHADOW.md describes; null for none. `mib` bounds the messages that are kept. Returns null if a file
 * cannot be read or written, or memory runs out.
 */
struct zermuita_module *zermuita_module_open(const char *anchors, const char *log, uint32_t iterations, uint32_t mib);
void zermuita_module_close(struct zermuita_module *module);
/* Takes a message that the resolver has: of a server, or of its cache. `now` is in seconds since 1970. */
void zermuita_module_learn(struct zermuita_module *module, const uint8_t *octets, size_t len, uint64_t now, uint32_t is_of_server);
/*
 * Takes the keys of a DNSKEY answer for trusted, if the resolver has validated them and does not show the DS set by which. The last
 * 60 or so zones are kept.
 */
void zermuita_module_vouch(struct zermuita_module *module, const uint8_t *octets, size_t len);
/* Judges the answer to a client. It needs the bits AD, CD and RCODE, and DO in its OPT record if it has no AD. */
uint32_t zermuita_module_judge(struct zermuita_module *module, const uint8_t *octets, size_t len, uint64_t now, uint16_t *ede);
/*
 * Writes SERVFAIL instead of an answer: its header, question and OPT record, which gets the extended error (RFC 8914).
 * Returns how many bytes; 0 if there is no room or the answer cannot be read.
 */
size_t zermuita_module_refusal(const uint8_t *octets, size_t len, uint16_t ede, uint8_t *out, size_t room);
void zermuita_module_counts(struct zermuita_module *module, struct zermuita_module_counts *counts);

#endif
