#include "module.h"

#include "report.h"

#include <openssl/evp.h>
#include <pthread.h>
#include <stdlib.h>

enum { MOST_ANSWERS = 1 << 16, EDE_BOGUS = 6, RCODE_BITS = 15, OPTION_EDE = 15 };
enum { SHA_256 = 2, SHA_256_ROOM = 32, DS_HEAD = 4, ZONE_KEY = 0x0100 };

struct zermuita_module {
    pthread_mutex_t lock;
    struct shadow shadow;
    struct anchors anchors;
    size_t first_vouched, next_vouched; /* anchors that the resolver vouched for are behind those of the file, in a ring */
    struct zermuita_module_counts counts;
    /* The last disagreement. */
    bool is_different;
    enum result said, judged;
    uint16_t ede;
};

/* The module whose answer is judged, for the call below; the lock is held. */
static _Thread_local struct zermuita_module *judging;

/* The shadow reports a disagreement: the linker puts this in front (--wrap). */
void __real_report_disagreement(struct shadow *shadow, const struct trial *trial, const struct told *told,
                                const struct verdict *verdict);
void __wrap_report_disagreement(struct shadow *shadow, const struct trial *trial, const struct told *told,
                                const struct verdict *verdict);

void __wrap_report_disagreement(struct shadow *shadow, const struct trial *trial, const struct told *told,
                                const struct verdict *verdict) {
    judging->is_different = true;
    judging->said = told->result;
    judging->judged = verdict->result;
    judging->ede = verdict->ede;
    if (shadow->log != NULL) {
        __real_report_disagreement(shadow, trial, told, verdict);
    }
}

void zermuita_module_close(struct zermuita_module *module) {
    if (module == NULL) {
        return;
    }
    free_chain(module->shadow.chain);
    free_table(module->shadow.answers);
    free_judge(module->shadow.judge);
    if (module->shadow.log != NULL) {
        fclose(module->shadow.log);
    }
    pthread_mutex_destroy(&module->lock);
    free(module);
}

struct zermuita_module *zermuita_module_open(const char *anchors, const char *log, uint32_t iterations, uint32_t mib) {
    struct zermuita_module *module = calloc(1, sizeof *module);
    if (module == NULL || !read_anchors(anchors, &module->anchors)) {
        free(module);
        return NULL;
    }
    module->first_vouched = module->next_vouched = module->anchors.count;
    pthread_mutex_init(&module->lock, NULL);
    size_t octets = (size_t)mib << 20;
    struct shadow *shadow = &module->shadow;
    shadow->judge = make_judge((uint16_t)iterations);
    shadow->chain = shadow->judge != NULL ? make_chain(&module->anchors, shadow->judge, octets / 2) : NULL;
    shadow->answers = make_table((struct bounds){MOST_ANSWERS, octets / 2});
    shadow->log = log != NULL ? fopen(log, "a") : NULL;
    if (shadow->chain == NULL || shadow->answers == NULL || (log != NULL && shadow->log == NULL)) {
        zermuita_module_close(module);
        return NULL;
    }
    return module;
}

static struct event *event_of(const uint8_t *octets, size_t len, uint64_t now, enum origin origin) {
    struct event *event = len <= MESSAGE_ROOM ? calloc(1, sizeof *event + len) : NULL;
    if (event != NULL) {
        event->origin = origin;
        event->moment = now;
        event->len = len;
        memcpy(event->octets, octets, len);
    }
    return event;
}

void zermuita_module_learn(struct zermuita_module *module, const uint8_t *octets, size_t len, uint64_t now,
                           uint32_t is_of_server) {
    struct event *event = event_of(octets, len, now, is_of_server ? FROM_SERVER : TO_CLIENT);
    if (event != NULL) {
        pthread_mutex_lock(&module->lock);
        shadow_learn(&module->shadow, event);
        module->counts.learned++;
        pthread_mutex_unlock(&module->lock);
        free(event);
    }
}

/* The tag of a key (RFC 4034, appendix B). */
static uint16_t tag_of(struct octets dnskey) {
    uint32_t sum = 0;
    for (size_t i = 0; i < dnskey.len; i++) {
        sum += (i & 1) != 0 ? dnskey.data[i] : (uint32_t)dnskey.data[i] << 8;
    }
    return (uint16_t)(sum + (sum >> 16));
}

/* Writes a DS record's data of a key behind their length (RFC 4034, 5.1.4). */
static void write_ds(struct written *to, const struct name *apex, struct octets dnskey) {
    uint8_t digest[EVP_MAX_MD_SIZE];
    unsigned len = 0;
    EVP_MD_CTX *context = EVP_MD_CTX_new();
    if (context != NULL && EVP_DigestInit_ex(context, EVP_sha256(), NULL) > 0
        && EVP_DigestUpdate(context, apex->octets, apex->len) > 0
        && EVP_DigestUpdate(context, dnskey.data, dnskey.len) > 0 && EVP_DigestFinal_ex(context, digest, &len) > 0) {
        write16(to, DS_HEAD + SHA_256_ROOM);
        write16(to, tag_of(dnskey));
        write_octets(to, (uint8_t[]){dnskey.data[3], SHA_256}, 2);
        write_octets(to, digest, SHA_256_ROOM);
    }
    EVP_MD_CTX_free(context);
}

/* The place of an anchor: that of the same zone, or of the one that was vouched for first. */
static struct anchor *place_of(struct zermuita_module *module, const struct name *apex) {
    struct anchors *anchors = &module->anchors;
    for (size_t i = 0; i < anchors->count; i++) {
        if (names_equal(&anchors->of[i].apex, apex)) {
            return i < module->first_vouched ? NULL : &anchors->of[i];
        }
    }
    if (module->first_vouched == MOST_ANCHORS) {
        return NULL;
    }
    size_t at = module->next_vouched;
    module->next_vouched = at + 1 < MOST_ANCHORS ? at + 1 : module->first_vouched;
    anchors->count = at < anchors->count ? anchors->count : at + 1;
    return &anchors->of[at];
}

void zermuita_module_vouch(struct zermuita_module *module, const uint8_t *octets, size_t len) {
    struct message message;
    struct record record;
    uint8_t ds[ANCHOR_ROOM];
    struct written to = {ds, 0, sizeof ds};
    if (!read_message((struct octets){octets, len}, &message) || message.qtype != TYPE_DNSKEY) {
        return;
    }
    for (struct walk walk = walk_of(&message); next_record(&walk, &record) && record.section == ANSWER;) {
        bool is_key = record.rtype == TYPE_DNSKEY && record.data.len > DS_HEAD && names_equal(&record.owner, &message.qname);
        if (is_key && (number16(record.data.data) & ZONE_KEY) != 0) {
            write_ds(&to, &message.qname, record.data);
        }
    }
    pthread_mutex_lock(&module->lock);
    struct anchor *anchor = to.len > 0 && to.len <= sizeof ds ? place_of(module, &message.qname) : NULL;
    if (anchor != NULL) {
        anchor->apex = message.qname;
        anchor->len = to.len;
        memcpy(anchor->ds, ds, to.len);
    }
    pthread_mutex_unlock(&module->lock);
}

/* Compares an answer with what the judge says. Gives whether both disagree; the module has how. */
static bool disagrees(struct zermuita_module *module, struct event *event) {
    module->is_different = false;
    judging = module;
    shadow_compare(&module->shadow, event);
    judging = NULL;
    return module->is_different;
}

static bool wants_proof(const struct message *client) {
    struct record edns;
    return find_edns(client, &edns) && (edns.ttl & 0x8000) != 0;
}

/*
 * Whether the resolver takes a delegation for unsigned by a denial of DS that it has, and that proves nothing. Where it has
 * none, nothing is known.
 */
static bool is_cut_unproved(struct zermuita_module *module, const struct message *client, uint64_t now) {
    struct place place;
    struct octets kept;
    chain_descend(module->shadow.chain, &client->qname, client->qtype, now, &place);
    if (place.standing != SIGNED || place.is_whole
        || !table_get(module->shadow.answers, &place.unseen, TYPE_DS, now, &kept, NULL)) {
        return false;
    }
    size_t zone = 1u + kept.data[0];
    struct event *event = event_of(kept.data + zone, kept.len - zone, now, TO_CLIENT);
    if (event == NULL || event->len < HEADER) {
        free(event);
        return false;
    }
    /* As if a client had been told so with AD. */
    event->octets[3] = (uint8_t)((event->octets[3] & ~FLAG_CD) | FLAG_AD);
    bool is_unproved = disagrees(module, event) && module->judged == BOGUS;
    free(event);
    return is_unproved;
}

/*
 * Whether the resolver says secure of an answer without any signature: no zone's keys can have proved it. Where the client did
 * not want signatures, it is the server's message that is looked at, if the answer is that.
 */
static bool is_unsigned_secure(struct zermuita_module *module, const struct message *client, uint64_t now) {
    struct message message = *client;
    struct octets kept;
    if ((client->flags & (FLAG_AD | FLAG_CD)) != FLAG_AD) {
        return false;
    }
    if (!wants_proof(client)) {
        if (!table_get(module->shadow.answers, &client->qname, client->qtype, now, &kept, NULL)) {
            return false;
        }
        size_t zone = 1u + kept.data[0];
        if (!read_message((struct octets){kept.data + zone, kept.len - zone}, &message)
            || (message.flags & MASK_RCODE) != (client->flags & MASK_RCODE)
            || has_answer(&message, NULL, client->qtype) != has_answer(client, NULL, client->qtype)) {
            return false;
        }
    }
    return !is_signed_by(&message, NULL);
}

static bool is_insecure_answer(const struct message *client) {
    return wants_proof(client) && (client->flags & (FLAG_AD | FLAG_CD)) == 0 && (client->flags & MASK_RCODE) != RCODE_SERVFAIL;
}

static uint32_t action_of(struct zermuita_module *module, const struct message *client, struct event *event) {
    uint64_t judged = module->shadow.counts.judged;
    bool is_different = disagrees(module, event);
    if (!is_different && module->shadow.counts.judged == judged && is_insecure_answer(client)) {
        is_different = is_cut_unproved(module, client, event->moment);
    }
    bool was_judged = module->shadow.counts.judged > judged;
    if (!was_judged && is_unsigned_secure(module, client, event->moment)) {
        was_judged = is_different = true;
        module->said = SECURE;
        module->judged = BOGUS;
    }
    module->counts.judged += was_judged;
    module->counts.not_judged += !was_judged;
    /* Never the other way round: what the resolver refuses stays refused. */
    if (!is_different || module->said == BOGUS) {
        module->counts.agreed += was_judged && !is_different;
        return ZERMUITA_MODULE_PASS;
    }
    if (module->judged == INSECURE) {
        module->counts.cleared++;
        return ZERMUITA_MODULE_CLEAR_AD;
    }
    /* A resolver may claim less than is proved. */
    if (module->said == INSECURE && module->judged == SECURE) {
        return ZERMUITA_MODULE_PASS;
    }
    module->counts.refused++;
    return ZERMUITA_MODULE_REFUSE;
}

uint32_t zermuita_module_judge(struct zermuita_module *module, const uint8_t *octets, size_t len, uint64_t now, uint16_t *ede) {
    uint32_t action = ZERMUITA_MODULE_PASS;
    struct event *event = event_of(octets, len, now, TO_CLIENT);
    struct message client;
    *ede = 0;
    pthread_mutex_lock(&module->lock);
    if (event != NULL && read_message((struct octets){event->octets, event->len}, &client)) {
        action = action_of(module, &client, event);
        *ede = action == ZERMUITA_MODULE_REFUSE && module->ede != 0 ? module->ede : EDE_BOGUS;
    }
    pthread_mutex_unlock(&module->lock);
    free(event);
    return action;
}

size_t zermuita_module_refusal(const uint8_t *octets, size_t len, uint16_t ede, uint8_t *out, size_t room) {
    struct message message;
    struct record edns;
    struct written to = {out, 0, room};
    if (!read_message((struct octets){octets, len}, &message)) {
        return 0;
    }
    bool has_edns = find_edns(&message, &edns);
    uint16_t flags = (uint16_t)((message.flags & ~(FLAG_AA | FLAG_AD | RCODE_BITS)) | RCODE_SERVFAIL);
    write_octets(&to, octets, 2);
    write16(&to, flags);
    write16(&to, 1);
    write16(&to, 0);
    write16(&to, 0);
    write16(&to, has_edns);
    write_octets(&to, octets + HEADER, message.records_at - HEADER);
    if (has_edns) {
        write_octets(&to, "", 1);
        write16(&to, TYPE_OPT);
        write16(&to, edns.rclass);
        write16(&to, edns.ttl >> 16);
        write16(&to, edns.ttl & 0xFFFF);
        write16(&to, 6);
        write16(&to, OPTION_EDE);
        write16(&to, 2);
        write16(&to, ede);
    }
    return to.len <= room ? to.len : 0;
}

void zermuita_module_counts(struct zermuita_module *module, struct zermuita_module_counts *counts) {
    pthread_mutex_lock(&module->lock);
    *counts = module->counts;
    pthread_mutex_unlock(&module->lock);
}
