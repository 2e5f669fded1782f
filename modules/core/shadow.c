#include "shadow.h"

#include "report.h"

/* An answer of TTL 0 is of use for the question that it was asked for, and no longer. */
enum { GRACE = 2, MOST_STEPS = 12 };

/* Whether a server's message answers its question: another may be asked where it doesn't. */
static bool is_answer(const struct message *message) {
    unsigned rcode = message->flags & MASK_RCODE;
    struct name cut;
    return (rcode == RCODE_NOERROR || rcode == RCODE_NXDOMAIN) && !is_referral(message, &cut);
}

static void keep_answer(struct shadow *shadow, const struct event *event, const struct message *message) {
    uint8_t zone[1 + NAME_ROOM] = {(uint8_t)event->zone.len};
    memcpy(zone + 1, event->zone.octets, event->zone.len);
    uint64_t until = event->moment + GRACE + least_ttl(message, event->moment);
    table_put(shadow->answers, &message->qname, message->qtype, (struct octets){zone, 1 + event->zone.len}, message->octets,
              until);
}

void shadow_learn(struct shadow *shadow, const struct event *event) {
    struct message message;
    if (!read_message((struct octets){event->octets, event->len}, &message)) {
        return;
    }
    if ((message.flags & (FLAG_QR | FLAG_TC | MASK_OPCODE)) != FLAG_QR || message.qclass != CLASS_IN) {
        return;
    }
    chain_learn(shadow->chain, &message, event->moment);
    if (event->origin == FROM_SERVER && is_answer(&message)) {
        keep_answer(shadow, event, &message);
    }
}

/* Whether all that a resolver says of its SERVFAIL is of the network or of policy (RFC 8914, 4). */
static bool is_other_fault(const struct told *told) {
    static const uint8_t others[] = {14, 15, 16, 17, 18, 20, 22, 23};
    struct octets rest = told->has_edns ? told->edns.data : (struct octets){NULL, 0};
    bool is_other = false;
    for (uint16_t code; next_extended_error(&rest, &code);) {
        if (code > UINT8_MAX || memchr(others, code, sizeof others) == NULL) {
            return false;
        }
        is_other = true;
    }
    return is_other;
}

static bool is_alias(const struct message *answer) {
    return has_answer(answer, NULL, TYPE_CNAME) || has_answer(answer, NULL, TYPE_DNAME);
}

/* Whether a message gives an alias, and says nothing of what that leads to: no record of the type, and no SOA record. */
static bool is_alias_alone(const struct message *message) {
    struct record record;
    for (struct walk walk = walk_of(message); next_record(&walk, &record) && record.section != ADDITIONAL;) {
        if (record.rtype == TYPE_SOA && record.section == AUTHORITY) {
            return false;
        }
    }
    return (message->flags & MASK_RCODE) == RCODE_NOERROR && is_alias(message) && !has_answer(message, NULL, message->qtype);
}

/* What the resolver said. Gives false where it says nothing of a proof. */
static bool is_told(const struct message *message, struct told *told, enum reason *reason) {
    uint16_t flags = message->flags;
    told->qname = message->qname;
    told->rcode = flags & MASK_RCODE;
    told->has_edns = find_edns(message, &told->edns);
    told->has_records = has_answer(message, NULL, message->qtype);
    told->is_alias_alone = is_alias_alone(message);
    told->wants_proof = told->has_edns && (told->edns.ttl & 0x8000) != 0;
    bool is_code = told->rcode == RCODE_NOERROR || told->rcode == RCODE_NXDOMAIN || told->rcode == RCODE_SERVFAIL;
    if (!is_code || message->qclass != CLASS_IN || (flags & (FLAG_QR | MASK_OPCODE)) != FLAG_QR) {
        *reason = REASON_CODE;
        return false;
    }
    if ((flags & (FLAG_CD | FLAG_TC)) != 0) {
        *reason = (flags & FLAG_CD) != 0 ? REASON_CHECKING_DISABLED : REASON_CUT_OFF;
        return false;
    }
    if (told->rcode == RCODE_SERVFAIL && is_other_fault(told)) {
        *reason = REASON_OTHER_FAULT;
        return false;
    }
    told->result = told->rcode == RCODE_SERVFAIL ? BOGUS
                   : (flags & FLAG_AD) != 0      ? SECURE
                   : told->wants_proof           ? INSECURE
                                                 : UNTOLD;
    return true;
}

/* Messages that answer a question, in the order in which they are tried. */
enum source {
    OF_SERVER, /* what the resolver had for the question */
    FORMER,    /* what it had for the name that led to this one, which may answer for it, too */
    OF_CLIENT, /* what it handed to its client, where that was to have signatures */
    SOURCES
};

/* The way from one name to the next. */
struct way {
    const struct message *client;
    const struct told *told;
    bool has_former;
    struct message former;
};

/* Makes a message an answer to the question for a name. What it was stays, and is the next one's former. */
static bool answers_for(const struct message *whole, const struct name *qname, struct message *answer) {
    static uint8_t room[MESSAGE_ROOM];
    if (names_equal(&whole->qname, qname)) {
        *answer = *whole;
        return true;
    }
    size_t len = write_answer_for(whole, qname, room, sizeof room);
    return len > 0 && read_message((struct octets){room, len}, answer);
}

/* Finds a message for a name, whole as it was and as an answer for the name, and the zone of the server that gave it. */
static bool find_answer(struct shadow *shadow, const struct way *way, enum source source, const struct trial *trial,
                        struct message *whole, struct message *answer, struct name *zone) {
    struct octets kept;
    zone->len = 0;
    if (source == OF_SERVER) {
        if (!table_get(shadow->answers, &trial->qname, trial->qtype, trial->now, &kept, NULL)) {
            return false;
        }
        size_t len = kept.data[0];
        name_of_octets((struct octets){kept.data + 1, len}, zone);
        if (!read_message((struct octets){kept.data + 1 + len, kept.len - 1 - len}, whole)) {
            return false;
        }
    } else if (source == FORMER ? way->has_former : way->told->rcode != RCODE_SERVFAIL && way->told->wants_proof) {
        *whole = source == FORMER ? way->former : *way->client;
    } else {
        return false;
    }
    return answers_for(whole, &trial->qname, answer);
}

/* Whether an NSEC3 record says that unsigned delegations may be left out (RFC 5155, 6). */
static bool has_opt_out(const struct message *answer) {
    struct record record;
    for (struct walk walk = walk_of(answer); next_record(&walk, &record) && record.section != ADDITIONAL;) {
        if (record.rtype == TYPE_NSEC3 && record.data.len > 1 && (record.data.data[1] & 1) != 0) {
            return true;
        }
    }
    return false;
}

/* Whether an NSEC or NSEC3 record says that its name does not exist (RFC 9824, 3.1). */
static bool has_nxname(const struct message *answer) {
    struct record record;
    for (struct walk walk = walk_of(answer); next_record(&walk, &record) && record.section != ADDITIONAL;) {
        if (has_type(answer, &record, TYPE_NXNAME)) {
            return true;
        }
    }
    return false;
}

static enum result result_of(enum finding finding) {
    return finding == FOUND_BOGUS || finding == FOUND_BOGUS_KEYS ? BOGUS : finding == FOUND_OPTOUT ? INSECURE : SECURE;
}

/*
 * Whether a refusal of an answer says that it is bogus. It does where the answer is one of this zone: no other zone can begin
 * on the way to the name, or the zone signed some of it. Else a zone of which nothing was seen may have answered. Without
 * trusted keys all is bogus.
 */
static bool is_of_zone(const struct place *place, const struct message *answer, const struct name *zone, enum reason *reason) {
    if (place->is_whole) {
        return true;
    }
    struct name signer;
    bool is_signed = find_signer(answer, &answer->qname, &signer);
    bool is_signed_below = is_signed && signer.len > place->apex.len;
    bool is_from_below = zone->len > place->apex.len && is_at_or_below(zone, &place->apex);
    if (is_from_below || is_signed_below) {
        *reason = REASON_NO_DS;
        return false;
    }
    *reason = REASON_NO_CUT;
    return is_signed && names_equal(&signer, &place->apex);
}

/* Judges an answer of a signed zone. Gives false where there is no verdict, and why. */
static bool is_judged(struct shadow *shadow, const struct place *place, const struct message *answer, const struct name *zone,
                      struct trial *trial, struct verdict *verdict, enum reason *reason) {
    if (!chain_keys(shadow->chain, &place->apex, trial->now, &trial->dnskey)) {
        *reason = REASON_NO_DNSKEY;
        return false;
    }
    if (is_alias(answer) && !judges_aliases()) {
        *reason = REASON_ALIAS;
        return false;
    }
    struct judgement judgement = judge(shadow->judge, trial);
    *verdict = (struct verdict){
        .result = result_of(judgement.finding),
        .finding = judgement.finding,
        .target = judgement.target,
        .reply = judgement.reply,
        .ede = judgement.ede,
        .has_nxname = has_nxname(answer),
    };
    switch (judgement.finding) {
    case FOUND_LEFT_OUT:
        *reason = REASON_TYPE;
        return false;
    case FOUND_EQUAL_TAGS:
        *reason = REASON_EQUAL_TAGS;
        return false;
    case FOUND_ITERATIONS:
        *reason = REASON_ITERATIONS;
        return false;
    case FOUND_REFUSED:
        *reason = REASON_REFUSED;
        return false;
    case FOUND_NOTHING:
        *reason = REASON_MEMORY;
        return false;
    case FOUND_DELEGATED:
        *reason = REASON_NO_DS;
        return false;
    case FOUND_DEAD_END:
        *reason = REASON_CODE;
        return false;
    case FOUND_BOGUS:
        *reason = REASON_ALIAS;
        return !(is_alias(answer) && has_opt_out(answer)) && is_of_zone(place, answer, zone, reason);
    default:
        return true;
    }
}

/* Whether both say the same; of secure answers which they are, too, as far as a client sees it. */
static bool agrees(const struct told *told, const struct verdict *verdict) {
    if (told->result == UNTOLD) {
        return verdict->result != BOGUS;
    }
    if (told->result != verdict->result || told->result != SECURE) {
        return told->result == verdict->result;
    }
    if (told->is_alias_alone) {
        return true;
    }
    bool is_missing = verdict->finding == FOUND_NXDOMAIN;
    bool has_records = verdict->finding == FOUND_RECORDS || verdict->finding == FOUND_WILDCARD;
    /* Beside NXNAME a client that sets DO and not CO gets NOERROR (RFC 9824, 5.1). */
    bool is_code = (told->rcode == RCODE_NXDOMAIN) == is_missing || (is_missing && verdict->has_nxname);
    return is_code && told->has_records == has_records;
}

static void count(struct shadow *shadow, const struct trial *trial, const struct told *told, const struct verdict *verdict) {
    shadow->counts.judged++;
    if (!agrees(told, verdict)) {
        shadow->counts.disagree++;
        report_disagreement(shadow, trial, told, verdict);
    }
}

/* What is compared of an unsigned zone. What an alias of it leads to may fail, and is not sought. */
static bool is_insecure(struct shadow *shadow, const struct way *way, struct trial *trial, struct verdict *verdict,
                        enum reason *reason) {
    struct message whole, answer;
    struct name zone;
    bool is_seen = find_answer(shadow, way, OF_SERVER, trial, &whole, &answer, &zone)
                   || find_answer(shadow, way, OF_CLIENT, trial, &whole, &answer, &zone);
    bool is_servfail = way->told->rcode == RCODE_SERVFAIL;
    if (is_servfail && (!is_seen || is_alias(&answer))) {
        *reason = is_seen ? REASON_ALIAS : REASON_NO_ANSWER;
        return false;
    }
    trial->answer = is_seen || answers_for(way->client, &trial->qname, &answer) ? answer.octets : way->client->octets;
    *verdict = (struct verdict){.result = INSECURE,
                                .finding = FOUND_DELEGATED,
                                .reply = "the zone is insecure: its parent proves that it has no DS record"};
    return true;
}

/*
 * Judges what answers a name. The message that led to the name may have left it out, so that it counts where it proves
 * something, and else not.
 */
static bool is_answer_judged(struct shadow *shadow, struct way *way, const struct place *place, struct trial *trial,
                             struct verdict *verdict, enum reason *reason) {
    struct message whole, answer;
    struct name zone;
    *reason = REASON_NO_ANSWER;
    for (enum source source = 0; source < SOURCES; source++) {
        if (!find_answer(shadow, way, source, trial, &whole, &answer, &zone)) {
            continue;
        }
        trial->answer = answer.octets;
        bool has_verdict = is_judged(shadow, place, &answer, &zone, trial, verdict, reason);
        if (source == FORMER && (!has_verdict || verdict->result == BOGUS)) {
            *reason = REASON_NO_ANSWER;
            continue;
        }
        if (has_verdict && verdict->finding == FOUND_OPTOUT && way->told->rcode == RCODE_SERVFAIL && is_alias(&answer)) {
            *reason = REASON_ALIAS;
            return false;
        }
        way->former = whole;
        way->has_former = true;
        return has_verdict;
    }
    return false;
}

/* Judges a name on the way. Gives false where there is no verdict, and why. */
static bool is_step_judged(struct shadow *shadow, struct way *way, struct place *place, struct trial *trial,
                           struct verdict *verdict, enum reason *reason) {
    chain_descend(shadow->chain, &trial->qname, trial->qtype, trial->now, place);
    trial->apex = place->apex;
    switch (place->standing) {
    case NO_ANCHOR:
        *reason = REASON_NO_ANCHOR;
        return false;
    case UNCHECKED:
        *reason = REASON_ALGORITHMS;
        return false;
    case UNSIGNED:
        trial->ds = trial->dnskey = (struct octets){NULL, 0};
        return is_insecure(shadow, way, trial, verdict, reason);
    default:
        trial->ds = (struct octets){place->ds, place->ds_len};
        return is_answer_judged(shadow, way, place, trial, verdict, reason);
    }
}

/*
 * Beside aliases alone a client may get the denial of what the last one leads to, as of PowerDNS
 * Recursor to questions for DS. Where that is by opt-out the answer is insecure (RFC 5155, 9.2).
 */
static void judge_denial(struct shadow *shadow, const struct message *client, struct place *place,
                         struct trial *trial, struct verdict *verdict) {
    static uint8_t room[MESSAGE_ROOM];
    static const struct name no_zone;
    struct trial further = *trial;
    struct place behind;
    struct message answer;
    struct verdict found;
    enum reason reason;
    further.qname = verdict->target;
    size_t len = write_answer_for(client, &further.qname, room, sizeof room);
    further.answer = (struct octets){room, len};
    if (!has_opt_out(client) || !read_message(further.answer, &answer)) {
        return;
    }
    chain_descend(shadow->chain, &further.qname, further.qtype, further.now, &behind);
    further.apex = behind.apex;
    further.ds = (struct octets){behind.ds, behind.ds_len};
    if (behind.standing == SIGNED
        && is_judged(shadow, &behind, &answer, &no_zone, &further, &found, &reason)
        && found.finding == FOUND_OPTOUT) {
        *place = behind;
        *trial = further;
        trial->ds.data = place->ds;
        *verdict = found;
    }
}

/* Finds what is to be compared with what was told, from alias to alias. Gives false where nothing is, and why. */
static bool find_verdict(struct shadow *shadow, const struct message *client, const struct told *told, struct place *place,
                         struct trial *trial, struct verdict *verdict, enum reason *reason) {
    struct way way = {.client = client, .told = told};
    for (unsigned step = 0; step < MOST_STEPS; step++) {
        if (!is_step_judged(shadow, &way, place, trial, verdict, reason)) {
            return false;
        }
        if (verdict->finding != FOUND_ALIAS) {
            return true;
        }
        if (told->is_alias_alone && !has_answer(client, &verdict->target, TYPE_CNAME)) {
            judge_denial(shadow, client, place, trial, verdict);
            return true;
        }
        trial->qname = verdict->target;
    }
    *reason = REASON_ALIAS;
    return false;
}

void shadow_compare(struct shadow *shadow, const struct event *event) {
    struct message client;
    struct told told = {.result = UNTOLD};
    struct verdict verdict;
    struct place place;
    enum reason reason;
    if (!read_message((struct octets){event->octets, event->len}, &client)) {
        return;
    }
    struct trial trial = {.qname = client.qname, .qtype = client.qtype, .now = event->moment};
    if (is_told(&client, &told, &reason) && find_verdict(shadow, &client, &told, &place, &trial, &verdict, &reason)) {
        count(shadow, &trial, &told, &verdict);
    }
}
