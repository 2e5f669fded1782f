/*
 * Walks whose evidence is handed in otherwise: all messages at once and in another order, with less room for each reply, with octets
 * cut off at each place, and with limits as low as the walk allows, lower, and the highest. Each reply must be the one that the header
 * says. Prints how many walks and calls there were, and how many replies were others.
 */
#include "cases.h"

#include <stdio.h>

static unsigned long calls, wrong;
static size_t number;
/* The walk as its line has it; how many messages there were when the last one was wanted; and the walk with something changed. */
static struct judgement first, other;
static size_t when_wanted;

static void expect(bool holds, const char *what, size_t with) {
    if (!holds) {
        printf("walk %zu: not so: %s, %zu: %d, and %d before\n", number, what, with, (int)other.reply, (int)first.reply);
        wrong++;
    }
}

static void call_counted(const struct handed *handed, struct judgement *judgement) {
    calls++;
    call(handed, judgement);
}

static const struct caller counting = {call_counted, is_in_table, answer_wanted};

/* Makes each call with each smaller room too, in which nothing is to be written. */
static void call_with_less_room(const struct handed *handed, struct judgement *judgement) {
    static uint8_t out[16384], untouched[16384];
    struct zermuita_report report;
    call_counted(handed, judgement);
    when_wanted = judgement->reply == ZERMUITA_WANT ? messages_in(octets_of(&judgement->messages)) : when_wanted;
    memset(out, 0xee, sizeof out);
    memset(untouched, 0xee, sizeof untouched);
    for (size_t room = 0; room < judgement->report.len && room <= sizeof out; room++, calls++) {
        report.size = sizeof report;
        other.reply = zermuita_resolve(&handed->walked, room == 0 ? NULL : out, room, &report);
        bool is_same_report = memcmp(&report, &judgement->report, sizeof report) == 0;
        expect(other.reply == ZERMUITA_BUFFER_TOO_SMALL && is_same_report, "too little room", room);
        expect(memcmp(out, untouched, sizeof out) == 0, "nothing is written", room);
    }
}

static const struct caller with_less_room = {call_with_less_room, is_in_table, answer_wanted};

/* Walks from all messages on, the last first. */
static void walk_at_once(struct handed handed) {
    struct zermuita_octets rest = octets_of(&first.messages), octets;
    struct zermuita_wanted question;
    struct buffer behind = {0};
    other.messages.len = other.checked.len = 0;
    while (take_message(&rest, &question, &octets)) {
        behind.len = 0;
        buffer_append(&behind, other.messages.data, other.messages.len);
        other.messages.len = 0;
        put_message(&other.messages, &question, octets);
        buffer_append(&other.messages, behind.data, behind.len);
    }
    go_on(handed, &counting, &other);
    expect(are_same_replies(&first, &other), "all messages at once, the last first", first.calls);
    buffer_free(&behind);
}

/* How many octets the first part of a list has. */
static size_t message_in(struct zermuita_octets list) {
    struct zermuita_octets rest = list, octets;
    struct zermuita_wanted question;
    return take_message(&rest, &question, &octets) ? list.len - rest.len : list.len;
}

static size_t entry_in(struct zermuita_octets list) {
    struct zermuita_octets rest = list, part;
    bool is_entry = zermuita_next_part(&rest, 2, &part) && zermuita_next_part(&rest, 4, &part) && zermuita_next_part(&rest, 2, &part);
    return is_entry ? list.len - rest.len + 1 : list.len;
}

static size_t all_in(struct zermuita_octets octets) {
    return octets.len;
}

/* A call that is to say that something cannot be read, or not. */
static void expect_unread(const struct zermuita_evidence *walked, enum zermuita_reply unread, bool is_unread, size_t with) {
    uint8_t out[64];
    struct zermuita_report report = {.size = sizeof report};
    calls++;
    other.reply = zermuita_resolve(walked, out, sizeof out, &report);
    bool is_empty = report.len + report.until + report.verifications + report.hashes + report.ttl + report.ede + report.delegates == 0;
    expect((other.reply == unread) == is_unread && (is_empty || !is_unread), "octets that are cut off", with);
}

/* Cuts all octets off at each place. Lists can be read where the place is between two parts. */
static void cut_each(struct zermuita_evidence walked) {
    const struct {
        struct zermuita_octets *octets;
        enum zermuita_reply unread;
        size_t (*first_in)(struct zermuita_octets list);
    } parts[] = {
        {&walked.anchor, ZERMUITA_BAD_APEX, all_in},
        {&walked.ds, ZERMUITA_BAD_DS_SET, all_in},
        {&walked.name, ZERMUITA_BAD_NAME, all_in},
        {&walked.messages, ZERMUITA_BAD_MESSAGES, message_in},
        {&walked.checked, ZERMUITA_BAD_SIGNATURES, entry_in},
    };
    for (size_t i = 0; i < sizeof parts / sizeof *parts; i++) {
        struct zermuita_octets whole = *parts[i].octets;
        bool is_list = parts[i].first_in != all_in;
        for (size_t len = 0, between = 0; len < whole.len; len++) {
            if (len > between) {
                between += parts[i].first_in((struct zermuita_octets){whole.data + between, whole.len - between});
            }
            parts[i].octets->len = len;
            expect_unread(&walked, parts[i].unread, !is_list || len != between, len);
        }
        *parts[i].octets = whole;
    }
}

/* Walks with a limit: the reply is the one without, or that the limit was passed. */
static void expect_limited(struct handed handed, enum zermuita_reply limit, bool is_passed, size_t with) {
    judge(handed, &counting, &other);
    expect(is_passed ? other.reply == limit : are_same_replies(&first, &other), zermuita_strerror(limit), with);
}

/* How many names aliases led through, of a reply that has them. */
static size_t aliases_of(const struct judgement *judgement) {
    return judgement->octets.len < 4 ? 0 : zermuita_number(judgement->octets.data, 4);
}

static size_t entries_of(const struct buffer *checked) {
    size_t count = 0, len = checked->len;
    struct zermuita_ask ask;
    for (uint8_t *next = checked->data; zermuita_next_ask(&next, &len, &ask);) {
        count++;
    }
    return count;
}

/* Limits of messages and of signatures: each up to one more than the walk takes, none, and the highest. Of work the least and most. */
static void limit_lists(struct handed handed) {
    struct handed limited = handed;
    size_t messages = messages_in(octets_of(&first.messages)), entries = entries_of(&first.checked);
    for (size_t most = 1; most <= messages + 3 && first.reply != ZERMUITA_TOO_MANY_MESSAGES; most++) {
        limited.walked.max_messages = (uint16_t)(most <= messages + 1 ? most : most == messages + 2 ? 0 : UINT16_MAX);
        expect_limited(limited, ZERMUITA_TOO_MANY_MESSAGES, most <= when_wanted, most);
    }
    limited = handed;
    for (size_t most = 1; most <= entries + 3 && first.reply != ZERMUITA_TOO_MANY_SIGNATURES; most++) {
        limited.walked.max_signatures = (uint32_t)(most <= entries + 1 ? most : most == entries + 2 ? 0 : UINT32_MAX);
        expect_limited(limited, ZERMUITA_TOO_MANY_SIGNATURES, most < entries, most);
    }
    limited = handed;
    limited.walked.max_work = 1;
    expect_limited(limited, ZERMUITA_TOO_MUCH_WORK, entries > 0, 1);
    limited.walked.max_work = UINT64_MAX;
    expect_limited(limited, ZERMUITA_TOO_MUCH_WORK, false, 0);
}

/* Limits of aliases and of delegations. No walk here goes down more than four of these for a name. */
static void limit_ways(struct handed handed) {
    static const uint16_t most_cuts[] = {1, 2, 3, 4, 32, 33, UINT16_MAX, 0};
    struct handed limited = handed;
    bool is_verdict = zermuita_is_verdict(first.reply), is_enough = false;
    size_t aliases = aliases_of(&first);
    for (uint16_t most = 1; is_verdict && most <= aliases + 3; most++) {
        limited.walked.max_aliases = (uint16_t)(most <= aliases + 1 ? most : most == aliases + 2 ? 0 : UINT16_MAX);
        expect_limited(limited, ZERMUITA_TOO_MANY_ALIASES, most < aliases, most);
    }
    limited = handed;
    for (size_t i = 0; i < sizeof most_cuts / sizeof *most_cuts && first.reply != ZERMUITA_TOO_MANY_CUTS; i++) {
        limited.walked.max_cuts = most_cuts[i];
        judge(limited, &counting, &other);
        is_enough |= other.reply != ZERMUITA_TOO_MANY_CUTS || most_cuts[i] > 3;
        expect(!is_enough || are_same_replies(&first, &other), "a limit of delegations", most_cuts[i]);
    }
    static const uint16_t most_aliases[][2] = {{0, 16}, {1, 1}, {16, 16}, {255, 255}, {256, 255}, {UINT16_MAX, 255}};
    limited = handed;
    for (size_t i = 0; i < sizeof most_aliases / sizeof *most_aliases && first.reply == ZERMUITA_TOO_MANY_ALIASES; i++) {
        limited.walked.max_aliases = most_aliases[i][0];
        judge(limited, &counting, &other);
        bool is_limit = other.reply == ZERMUITA_TOO_MANY_ALIASES && aliases_of(&other) == most_aliases[i][1];
        expect(is_limit, "a limit of aliases", most_aliases[i][0]);
    }
}

int main(void) {
    struct cases cases = read_cases();
    for (number = 0; number < cases.len; number++) {
        struct handed handed = handed_of(&cases.all[number]);
        when_wanted = 0;
        judge(handed, &with_less_room, &first);
        walk_at_once(handed);
        limit_lists(handed);
        limit_ways(handed);
        handed.walked.messages = octets_of(&first.messages);
        handed.walked.checked = octets_of(&first.checked);
        cut_each(handed.walked);
    }
    printf("%zu walks otherwise, in %lu calls: %lu replies as they must not be\n", cases.len, calls, wrong);
    judgement_free(&first);
    judgement_free(&other);
    cases_free(&cases);
    return wrong > 0;
}
