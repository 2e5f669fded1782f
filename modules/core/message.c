#include "message.h"

#include <ctype.h>

enum { OPTION_EDE = 15, MAX_POINTERS = 255 };

/* Pointers lead backwards alone, so reading ends; and each name has at most as many as the library reads, so it ends soon. */
size_t read_name(struct octets all, size_t at, struct name *name) {
    size_t end = 0, before = at, pointers = 0;
    name->len = 0;
    while (at < all.len && all.data[at] != 0) {
        size_t label = all.data[at];
        if (label >= 0xc0) {
            size_t to = at + 1 < all.len ? (label & 0x3f) << 8 | all.data[at + 1] : all.len;
            if (to >= before || ++pointers > MAX_POINTERS) {
                return 0;
            }
            end = end != 0 ? end : at + 2;
            before = at = to;
            continue;
        }
        if (label >= 0x40 || all.len - at <= label || name->len + label + 2 > NAME_ROOM) {
            return 0;
        }
        name->octets[name->len++] = (uint8_t)label;
        for (size_t i = 1; i <= label; i++) {
            name->octets[name->len++] = (uint8_t)tolower(all.data[at + i]);
        }
        at += 1 + label;
    }
    name->octets[name->len++] = 0;
    return at >= all.len ? 0 : end != 0 ? end : at + 1;
}

struct walk walk_of(const struct message *message) {
    return (struct walk){.message = message, .at = message->records_at};
}

bool next_record(struct walk *walk, struct record *record) {
    struct octets all = walk->message->octets;
    while (walk->section < SECTIONS && walk->number == walk->message->counts[walk->section]) {
        walk->section++;
        walk->number = 0;
    }
    if (walk->section == SECTIONS) {
        return false;
    }
    size_t at = read_name(all, walk->at, &record->owner);
    if (at == 0 || all.len - at < 10 || all.len - at - 10 < number16(all.data + at + 8)) {
        return false;
    }
    record->rtype = number16(all.data + at);
    record->rclass = number16(all.data + at + 2);
    record->ttl = number32(all.data + at + 4);
    record->data = (struct octets){all.data + at + 10, number16(all.data + at + 8)};
    record->section = (enum section)walk->section;
    walk->at = at + 10 + record->data.len;
    walk->number++;
    return true;
}

bool read_message(struct octets octets, struct message *message) {
    if (octets.len < HEADER || octets.len > MESSAGE_ROOM || number16(octets.data + 4) != 1) {
        return false;
    }
    message->octets = octets;
    message->flags = number16(octets.data + 2);
    size_t at = read_name(octets, HEADER, &message->qname);
    if (at == 0 || octets.len - at < 4) {
        return false;
    }
    message->qtype = number16(octets.data + at);
    message->qclass = number16(octets.data + at + 2);
    message->records_at = at + 4;
    unsigned all = 0, seen = 0;
    for (int i = 0; i < SECTIONS; i++) {
        message->counts[i] = number16(octets.data + 6 + 2 * i);
        all += message->counts[i];
    }
    struct record record;
    for (struct walk walk = walk_of(message); next_record(&walk, &record);) {
        seen++;
    }
    return seen == all;
}

bool read_signature(const struct message *message, const struct record *record, struct signature *signature) {
    const uint8_t *data = record->data.data;
    if (record->rtype != TYPE_RRSIG || record->data.len < 19) {
        return false;
    }
    signature->covered = number16(data);
    signature->original_ttl = number32(data + 4);
    signature->expiration = number32(data + 8);
    struct octets up_to_end = {message->octets.data, (size_t)(data - message->octets.data) + record->data.len};
    size_t behind = read_name(up_to_end, (size_t)(data - message->octets.data) + 18, &signature->signer);
    signature->octets = (struct octets){message->octets.data + behind, up_to_end.len - behind};
    return behind != 0;
}

bool is_signed_by(const struct message *message, const struct name *signer) {
    struct record record;
    struct signature signature;
    for (struct walk walk = walk_of(message); next_record(&walk, &record) && record.section != ADDITIONAL;) {
        if (read_signature(message, &record, &signature) && (signer == NULL || names_equal(&signature.signer, signer))) {
            return true;
        }
    }
    return false;
}

/*
 * Whether a signature says something of a name: it is over records of the name in the answer section,
 * over a DNAME record above it, or over records of the authority section. NSEC and NSEC3 records there
 * say something of the name where the answer section has nothing of it; else they stand beside a
 * wildcard of another name (RFC 4035, 3.1.3.3).
 */
static bool is_of_name(const struct record *record, uint16_t covered, const struct name *name,
                       bool is_denied) {
    if (record->section == ANSWER) {
        bool is_dname = covered == TYPE_DNAME && is_at_or_below(name, &record->owner);
        return is_dname || names_equal(&record->owner, name);
    }
    return is_denied || (covered != TYPE_NSEC && covered != TYPE_NSEC3);
}

/* Whether the answer section has no record of a name. */
static bool has_none_of(const struct message *message, const struct name *name) {
    struct record record;
    for (struct walk walk = walk_of(message); next_record(&walk, &record) && record.section == ANSWER;) {
        if (names_equal(&record.owner, name)) {
            return false;
        }
    }
    return true;
}

bool find_signer(const struct message *message, const struct name *name, struct name *signer) {
    struct record record;
    struct signature signature;
    struct name denying = {0};
    bool is_found = false, is_denied = has_none_of(message, name);
    for (struct walk walk = walk_of(message); next_record(&walk, &record) && record.section != ADDITIONAL;) {
        bool is_soa = record.rtype == TYPE_SOA && record.section == AUTHORITY;
        if (is_soa && is_at_or_below(name, &record.owner)) {
            denying = record.owner;
        }
        if (read_signature(message, &record, &signature) && is_at_or_below(name, &signature.signer)
            && is_of_name(&record, signature.covered, name, is_denied)
            && (!is_found || signature.signer.len > signer->len)) {
            is_found = true;
            *signer = signature.signer;
        }
    }
    return is_found && denying.len <= signer->len;
}

static uint32_t lesser(uint32_t one, uint32_t other) {
    return one < other ? one : other;
}

uint32_t least_ttl(const struct message *message, uint64_t now) {
    uint32_t ttl = UINT32_MAX;
    struct record record;
    struct signature signature;
    for (struct walk walk = walk_of(message); next_record(&walk, &record) && record.section != ADDITIONAL;) {
        ttl = lesser(ttl, record.ttl);
        if (record.rtype == TYPE_SOA && record.data.len >= 4) {
            ttl = lesser(ttl, number32(record.data.data + record.data.len - 4));
        }
        if (read_signature(message, &record, &signature)) {
            ttl = lesser(ttl, signature.original_ttl);
            /* One that has expired already bounds nothing: what is made of it is kept, too (RFC 1982 for the comparison). */
            uint32_t left = signature.expiration - (uint32_t)now;
            ttl = left <= INT32_MAX ? lesser(ttl, left) : ttl;
        }
    }
    return ttl == UINT32_MAX ? 0 : ttl;
}

bool has_answer(const struct message *message, const struct name *owner, uint16_t rtype) {
    struct record record;
    for (struct walk walk = walk_of(message); next_record(&walk, &record) && record.section == ANSWER;) {
        if (record.rtype == rtype && (owner == NULL || names_equal(&record.owner, owner))) {
            return true;
        }
    }
    return false;
}

/* Where the bitmap of an NSEC or NSEC3 record begins in its data; at or behind their end where there is none. */
static size_t bitmap_at(const struct message *message, const struct record *record) {
    const struct octets *data = &record->data;
    if (record->rtype == TYPE_NSEC) {
        struct name next;
        size_t begin = (size_t)(data->data - message->octets.data);
        size_t end = read_name(message->octets, begin, &next);
        return end > begin ? end - begin : data->len;
    }
    size_t salt_end = record->rtype == TYPE_NSEC3 && data->len > 4 ? 5 + (size_t)data->data[4] : data->len;
    return salt_end < data->len ? salt_end + 1 + data->data[salt_end] : data->len;
}

bool has_type(const struct message *message, const struct record *record, uint16_t rtype) {
    const struct octets *data = &record->data;
    for (size_t at = bitmap_at(message, record); at + 2 <= data->len;) {
        size_t window = data->data[at], len = data->data[at + 1], octet = (rtype & 255) >> 3;
        if (window == rtype >> 8 && octet < len && at + 2 + octet < data->len) {
            return (data->data[at + 2 + octet] & 0x80 >> (rtype & 7)) != 0;
        }
        at += 2 + len;
    }
    return false;
}

bool find_edns(const struct message *message, struct record *edns) {
    for (struct walk walk = walk_of(message); next_record(&walk, edns);) {
        if (edns->rtype == TYPE_OPT && edns->section == ADDITIONAL) {
            return true;
        }
    }
    return false;
}

bool next_extended_error(struct octets *rest, uint16_t *code) {
    while (rest->len >= 4 && rest->len - 4 >= number16(rest->data + 2)) {
        size_t len = number16(rest->data + 2);
        bool is_error = number16(rest->data) == OPTION_EDE && len >= 2;
        *code = is_error ? number16(rest->data + 4) : 0;
        *rest = (struct octets){rest->data + 4 + len, rest->len - 4 - len};
        if (is_error) {
            return true;
        }
    }
    return false;
}

bool is_referral(const struct message *message, struct name *cut) {
    struct record record;
    bool has_servers = false;
    if ((message->flags & FLAG_AA) != 0 || (message->flags & MASK_RCODE) != RCODE_NOERROR || message->counts[ANSWER] != 0) {
        return false;
    }
    for (struct walk walk = walk_of(message); next_record(&walk, &record) && record.section == AUTHORITY;) {
        if (record.rtype == TYPE_SOA) {
            return false;
        }
        if (record.rtype == TYPE_NS) {
            has_servers = true;
            *cut = record.owner;
        }
    }
    return has_servers && is_at_or_below(&message->qname, cut);
}

/* Writes the records of a message that are of the DS set of a name, or else those of the chain. Gives how many. */
static unsigned put_records(struct written *to, const struct message *message, const struct name *cut, bool is_set) {
    unsigned count = 0;
    struct record record;
    for (struct walk walk = walk_of(message); next_record(&walk, &record) && record.section != ADDITIONAL;) {
        bool is_signature = record.rtype == TYPE_RRSIG && record.data.len >= 2;
        unsigned of = is_signature ? number16(record.data.data) : record.rtype;
        bool is_of_set = of == TYPE_DS && names_equal(&record.owner, cut);
        if (is_set ? is_of_set : of == TYPE_NSEC || of == TYPE_NSEC3) {
            write_in_full(to, message, &record);
            count++;
        }
    }
    return count;
}

size_t write_ds_answer(const struct message *message, const struct name *cut, uint8_t *out, size_t room) {
    struct written to = {out, 0, room};
    write_octets(&to, (uint8_t[HEADER]){0, 0, FLAG_QR >> 8, 0, 0, 1}, HEADER);
    write_octets(&to, cut->octets, cut->len);
    write16(&to, TYPE_DS);
    write16(&to, CLASS_IN);
    unsigned of_set = put_records(&to, message, cut, true);
    unsigned of_chain = put_records(&to, message, cut, false);
    if (to.len > room) {
        return 0;
    }
    out[7] = (uint8_t)of_set;
    out[6] = (uint8_t)(of_set >> 8);
    out[9] = (uint8_t)of_chain;
    out[8] = (uint8_t)(of_chain >> 8);
    return to.len;
}

size_t write_answer_for(const struct message *message, const struct name *qname, uint8_t *out, size_t room) {
    struct written to = {out, 0, room};
    struct record record;
    write_octets(&to, message->octets.data, HEADER);
    write_octets(&to, qname->octets, qname->len);
    write16(&to, message->qtype);
    write16(&to, message->qclass);
    for (struct walk walk = walk_of(message); next_record(&walk, &record);) {
        write_in_full(&to, message, &record);
    }
    return to.len <= room ? to.len : 0;
}
