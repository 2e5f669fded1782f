#include "judgement.h"

struct zermuita_octets octets_of(const struct buffer *buffer) {
    return (struct zermuita_octets){buffer->data, buffer->len};
}

void call(const struct handed *handed, struct judgement *judgement) {
    struct buffer *octets = &judgement->octets;
    struct zermuita_report *report = &judgement->report;
    report->size = sizeof *report;
    judgement->reply = handed->is_walk ? zermuita_resolve(&handed->walked, octets->data, octets->room, report)
                                       : zermuita_judge(&handed->judged, octets->data, octets->room, report);
    octets->len = report->len;
}

/* A call, and another one where there was no room. */
static void call_with_room(struct handed *handed, const struct caller *caller, struct judgement *judgement) {
    if (handed->is_walk) {
        handed->walked.messages = octets_of(&judgement->messages);
        handed->walked.checked = octets_of(&judgement->checked);
    } else {
        handed->judged.checked = octets_of(&judgement->checked);
    }
    caller->calls(handed, judgement);
    if (judgement->reply == ZERMUITA_BUFFER_TOO_SMALL) {
        buffer_reserve(&judgement->octets, judgement->report.len);
        caller->calls(handed, judgement);
    }
}

static bool take_checked(const struct caller *caller, struct judgement *judgement) {
    struct zermuita_ask ask;
    uint8_t *next = judgement->octets.data;
    for (size_t len = judgement->octets.len; zermuita_next_ask(&next, &len, &ask);) {
        zermuita_answer(&ask, caller->passes(&ask));
    }
    buffer_append(&judgement->checked, judgement->octets.data, judgement->octets.len);
    return true;
}

/* Takes the messages that are wanted; whether one is there. */
static bool take_wanted(const struct handed *handed, const struct caller *caller, struct judgement *judgement) {
    struct zermuita_octets rest = octets_of(&judgement->octets);
    struct zermuita_wanted wanted;
    bool is_one_there = false;
    while (zermuita_next_wanted(&rest, &wanted)) {
        is_one_there |= caller->answers(handed, &wanted, &judgement->messages);
    }
    return is_one_there;
}

void go_on(struct handed handed, const struct caller *caller, struct judgement *judgement) {
    bool goes_on = true;
    buffer_reserve(&judgement->octets, 512);
    for (judgement->calls = 0; goes_on && judgement->calls < MOST_CALLS; judgement->calls++) {
        call_with_room(&handed, caller, judgement);
        goes_on = (judgement->reply == ZERMUITA_ASK && take_checked(caller, judgement))
            || (judgement->reply == ZERMUITA_WANT && take_wanted(&handed, caller, judgement));
    }
}

void judge(struct handed handed, const struct caller *caller, struct judgement *judgement) {
    judgement->messages.len = judgement->checked.len = 0;
    go_on(handed, caller, judgement);
}

bool are_same_replies(const struct judgement *one, const struct judgement *other) {
    return one->reply == other->reply && memcmp(&one->report, &other->report, sizeof one->report) == 0
        && (one->octets.len > one->octets.room || memcmp(one->octets.data, other->octets.data, one->octets.len) == 0);
}

void judgement_free(struct judgement *judgement) {
    buffer_free(&judgement->octets);
    buffer_free(&judgement->messages);
    buffer_free(&judgement->checked);
}
