/*
 * Judges answers by zermuita_judge: once for the signatures that it asks for, then, counted, call by call from an empty list, once more
 * with places, and once as though no signature over the answer passed, so that the reply is a refusal with its extended error.
 */
#include "asked.h"

#include "judgement.h"

#include "../../examples/c/signature.h"

enum { DNSKEY = 48, ROOM = 4096 };

static struct zermuita_case case_of(const struct asked *asked) {
    return (struct zermuita_case){
        .size = sizeof(struct zermuita_case),
        .apex = octets_of(&asked->apex),
        .ds = octets_of(&asked->ds),
        .dnskey = octets_of(&asked->dnskey),
        .answer = octets_of(&asked->answer),
        .name = octets_of(&asked->name),
        .now = asked->moment,
        .rtype = asked->rtype,
        .rclass = 1,
        .max_nsec3_iterations = asked->limit,
        .no_ds = asked->ds.len == 0,
    };
}

static bool passes(const struct zermuita_ask *ask) {
    return signature_passes(ask);
}

/* Whether it is one over keys, of which the signed octets begin with their type, and passes. */
static bool passes_over_keys(const struct zermuita_ask *ask) {
    return ask->octets.len >= 2 && zermuita_number(ask->octets.data, 2) == DNSKEY && signature_passes(ask);
}

static const struct caller checking = {call, passes, NULL}, checking_keys = {call, passes_over_keys, NULL};

/* What is handed in and what was replied. */
static struct zermuita_case handed;
static struct judgement judgement;
static enum zermuita_reply reply;

static bool call_once(const struct asked *asked) {
    (void)asked;
    reply = zermuita_judge(&handed, judgement.octets.data, judgement.octets.room, &judgement.report);
    return reply == ZERMUITA_ASK || reply == ZERMUITA_RECORDS || reply == ZERMUITA_NXDOMAIN;
}

static bool call_refused(const struct asked *asked) {
    return !call_once(asked) && reply == ZERMUITA_NOT_PROVEN && judgement.report.ede != 0;
}

int main(void) {
    struct asked asked = {0};
    buffer_reserve(&judgement.octets, ROOM);
    while (next_asked(&asked)) {
        handed = case_of(&asked);
        judge((struct handed){.judged = handed}, &checking, &judgement);
        handed.checked = (struct zermuita_octets){judgement.checked.data, 0};
        for (reply = ZERMUITA_ASK; reply == ZERMUITA_ASK;) {
            count(&asked, "judge", call_once);
            if (reply == ZERMUITA_ASK) {
                handed.checked.len += judgement.report.len;
            }
        }
        handed.places = 1;
        count(&asked, "places", call_once);
        handed.places = 0;
        judge((struct handed){.judged = handed}, &checking_keys, &judgement);
        handed.checked = octets_of(&judgement.checked);
        count(&asked, "refused", call_refused);
    }
    judgement_free(&judgement);
    asked_free(&asked);
    return 0;
}
