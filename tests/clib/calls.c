/*
 * Calls everything that the header has, as C99 and as C++17, on cases that need no zone, and prints each reply's number with what
 * zermuita_strerror says of it.
 */
#include <stdio.h>
#include <stdlib.h>
#include <zermuita.h>

static int failed;

static void expect(int holds, const char *what) {
    if (!holds) {
        printf("not so: %s\n", what);
        failed = 1;
    }
}

static const uint8_t root[] = {0}, name[] = {1, 'a', 0};

static struct zermuita_octets of(const uint8_t *data, size_t len) {
    struct zermuita_octets octets;
    octets.data = data;
    octets.len = len;
    return octets;
}

/* A report of which each field has something that no call writes. */
static struct zermuita_report report_of_nines(void) {
    struct zermuita_report report;
    memset(&report, 9, sizeof report);
    report.size = sizeof report;
    return report;
}

/* Whether a report says nothing. */
static int is_empty(const struct zermuita_report *report) {
    return report->len == 0 && report->until == 0 && report->verifications == 0 && report->hashes == 0 && report->ttl == 0
        && report->ede == 0 && report->delegates == ZERMUITA_DELEGATES_UNKNOWN;
}

/* A question for the address of a name, beside no DS record and no messages. */
static struct zermuita_case without_messages(void) {
    struct zermuita_case handed;
    memset(&handed, 0, sizeof handed);
    handed.size = sizeof handed;
    handed.apex = of(root, sizeof root);
    handed.name = of(name, sizeof name);
    handed.rtype = 1;
    handed.rclass = 1;
    handed.no_ds = 1;
    return handed;
}

static enum zermuita_reply reply_to(struct zermuita_case handed) {
    return zermuita_judge(&handed, NULL, 0, NULL);
}

/* No octets, null or not; null with a length. */
static void call_with_null(void) {
    struct zermuita_case handed = without_messages();
    expect(reply_to(handed) == ZERMUITA_INSECURE, "no DS record: insecure");
    handed.ds = handed.dnskey = handed.answer = handed.checked = of(root, 0);
    expect(reply_to(handed) == ZERMUITA_INSECURE, "no octets, by a pointer");
    handed.ds = of(NULL, 1);
    struct zermuita_report report = report_of_nines();
    expect(zermuita_judge(&handed, NULL, 0, &report) == ZERMUITA_BAD_CASE && is_empty(&report), "null with a length");
    handed = without_messages();
    handed.algorithms = of(NULL, 1);
    expect(reply_to(handed) == ZERMUITA_BAD_CASE, "algorithms, null with a length");
    handed = without_messages();
    handed.apex = of(NULL, 0);
    expect(reply_to(handed) == ZERMUITA_BAD_APEX, "no octets are no name");
    handed = without_messages();
    handed.name = of(name, 2);
    expect(reply_to(handed) == ZERMUITA_BAD_NAME, "a name without its end");
    handed = without_messages();
    handed.checked = of(name, sizeof name);
    expect(reply_to(handed) == ZERMUITA_BAD_SIGNATURES, "octets that are no entries");
}

/* Sizes of other headers: those of 0.1 were 120 and 128. */
static void call_with_sizes(void) {
    struct zermuita_case handed = without_messages();
    for (size_t size = 0; size < sizeof handed + 32; size++) {
        handed.size = size;
        expect((reply_to(handed) == ZERMUITA_INSECURE) == (size == sizeof handed), "the size of the case, and no other");
        expect(size == sizeof handed || reply_to(handed) == ZERMUITA_BAD_CASE, "another size");
    }
    handed.size = (size_t)-1;
    expect(reply_to(handed) == ZERMUITA_BAD_CASE, "the greatest size");
}

/* Sizes of reports: of an unknown one nothing but its size is written. */
static void call_with_reports(void) {
    struct zermuita_case handed = without_messages();
    uint8_t out[1] = {9};
    for (size_t size = 0; size < sizeof(struct zermuita_report) + 32; size++) {
        struct zermuita_report report = report_of_nines();
        report.size = size;
        enum zermuita_reply reply = zermuita_judge(&handed, out, sizeof out, &report);
        expect(reply == (size == sizeof report ? ZERMUITA_INSECURE : ZERMUITA_BAD_CASE), "the size of a report");
        expect(out[0] == 9, "no octets of a reply that has none");
    }
    struct zermuita_report report = report_of_nines();
    expect(zermuita_judge(&handed, out, sizeof out, &report) == ZERMUITA_INSECURE && is_empty(&report), "an empty report");
    expect(report.size == sizeof report, "a report's size stays");
}

/* Each flag is 0 or 1. */
static void call_with_flags(void) {
    for (uint32_t flag = 0; flag < 5; flag++) {
        struct zermuita_case handed = without_messages();
        uint32_t *const flags[] = {&handed.one_moment, &handed.as_received, &handed.other_question, &handed.places, &handed.no_ds};
        for (uint32_t value = 0; value < 3; value++) {
            handed = without_messages();
            *flags[flag] = value;
            int fits = value < 2 && (flags[flag] != &handed.no_ds || value == 1);
            expect(reply_to(handed) == (fits ? ZERMUITA_INSECURE : ZERMUITA_BAD_CASE), "a flag");
        }
        handed = without_messages();
        *flags[flag] = (uint32_t)-1;
        expect(reply_to(handed) == ZERMUITA_BAD_CASE, "the greatest flag");
    }
    struct zermuita_case handed = without_messages();
    handed.rtype = 5;
    expect(reply_to(handed) == ZERMUITA_QUESTION_NOT_ALLOWED, "a question for CNAME");
    handed.other_question = 1;
    expect(reply_to(handed) == ZERMUITA_INSECURE, "a question for CNAME that another answer may answer");
    struct zermuita_report report = report_of_nines();
    handed.places = 1;
    expect(zermuita_judge(&handed, NULL, 0, &report) == ZERMUITA_INSECURE && is_empty(&report), "no places of what is insecure");
}

/* Classes: nothing is said of a question of another class than IN, which is 1. */
static void call_with_classes(void) {
    static const uint16_t others[] = {0, 3, 4, 254, 255, 257, 65535};
    struct zermuita_case handed = without_messages();
    for (uint32_t other_question = 0; other_question < 2; other_question++) {
        handed.other_question = other_question;
        for (size_t i = 0; i < sizeof others / sizeof *others; i++) {
            struct zermuita_report report = report_of_nines();
            handed.rclass = others[i];
            enum zermuita_reply reply = zermuita_judge(&handed, NULL, 0, &report);
            expect(reply == ZERMUITA_QUESTION_NOT_ALLOWED && is_empty(&report), "a question of another class than IN");
        }
    }
}

/* The data of a DS record behind their length, with a digest of so many octets. */
static size_t put_ds(uint8_t *at, uint8_t algorithm, uint8_t digest_type, size_t digest_len) {
    memset(at, 0, 6 + digest_len);
    at[1] = (uint8_t)(4 + digest_len);
    at[4] = algorithm;
    at[5] = digest_type;
    return 6 + digest_len;
}

/*
 * What is said beside a set of two DS records, of empty messages: insecure with an extended error; or where that is 0, that these
 * are none, with error 6.
 */
static void expect_beside(const uint8_t kinds[4], struct zermuita_octets algorithms, unsigned ede, const char *what) {
    uint8_t ds[256];
    size_t len = put_ds(ds, kinds[0], kinds[1], kinds[1] == 1 ? 20 : 32);
    len += put_ds(ds + len, kinds[2], kinds[3], kinds[3] == 1 ? 20 : 32);
    struct zermuita_case handed = without_messages();
    struct zermuita_report report = report_of_nines();
    handed.no_ds = 0;
    handed.ds = of(ds, len);
    handed.algorithms = algorithms;
    enum zermuita_reply reply = zermuita_judge(&handed, NULL, 0, &report);
    expect(reply == (ede != 0 ? ZERMUITA_INSECURE : ZERMUITA_BAD_DNSKEY_MESSAGE) && report.ede == (ede != 0 ? ede : 6), what);
    report.ede = 0;
    expect(is_empty(&report), what);
    handed.no_ds = 1;
    expect(reply_to(handed) == ZERMUITA_BAD_CASE, "DS records beside the flag that there is none");
}

/* DS sets: records of algorithms that are checked and of digests that are made count (RFC 4035, 5.2; RFC 8914, 4.2 and 4.3). */
static void call_with_ds(void) {
    static const uint8_t eight[] = {8}, both[] = {13, 8}, none[] = {0};
    static const uint8_t sha1[4] = {8, 1, 13, 1}, made[4] = {8, 2, 13, 4}, mixed[4] = {8, 1, 13, 2}, gost[4] = {8, 3, 13, 5};
    expect_beside(sha1, of(NULL, 0), 2, "digests that are not made");
    expect_beside(gost, of(both, 2), 2, "digests that are not made, of algorithms that are checked");
    expect_beside(made, of(NULL, 0), 0, "digests that are made");
    expect_beside(made, of(eight, 1), 0, "one record of an algorithm that is checked");
    expect_beside(made, of(none, 1), 1, "no record of an algorithm that is checked");
    expect_beside(mixed, of(NULL, 0), 0, "one record of a digest that is made");
    expect_beside(mixed, of(both, 2), 0, "that record, of an algorithm that is checked");
    expect_beside(mixed, of(eight, 1), 1, "one record of either kind alone");
    struct zermuita_case handed = without_messages();
    handed.no_ds = 0;
    expect(reply_to(handed) == ZERMUITA_BAD_CASE, "a DS set that was forgotten");
    handed.ds = of(name, sizeof name);
    expect(reply_to(handed) == ZERMUITA_BAD_DS_SET, "octets that are no DS set");
}

/* A question for the address of a name, from an anchor with a DS record on, beside no messages. */
static struct zermuita_evidence without_anything(struct zermuita_octets anchor, struct zermuita_octets ds) {
    struct zermuita_evidence handed;
    memset(&handed, 0, sizeof handed);
    handed.size = sizeof handed;
    handed.anchor = anchor;
    handed.ds = ds;
    handed.name = of(name, sizeof name);
    handed.rtype = 1;
    return handed;
}

static enum zermuita_reply walk_of(struct zermuita_evidence handed) {
    uint8_t out[64];
    return zermuita_resolve(&handed, out, sizeof out, NULL);
}

/* Evidence of walks: its size, its flag, and how many messages it may have. */
static void call_with_evidence(struct zermuita_evidence good) {
    uint8_t messages[64];
    struct zermuita_evidence handed = good;
    for (size_t size = 0; size < sizeof handed + 32; size++) {
        handed.size = size;
        expect(walk_of(handed) == (size == 128 || size == 136 ? ZERMUITA_WANT : ZERMUITA_BAD_CASE), "the size of evidence");
    }
    handed.size = (size_t)-1;
    expect(walk_of(handed) == ZERMUITA_BAD_CASE, "the greatest size of evidence");
    handed = good;
    for (uint16_t flag = 0; flag < 3; flag++) {
        handed.one_moment = flag;
        expect(walk_of(handed) == (flag < 2 ? ZERMUITA_WANT : ZERMUITA_BAD_CASE), "the flag of evidence");
    }
    handed.one_moment = 65535;
    expect(walk_of(handed) == ZERMUITA_BAD_CASE, "the greatest flag of evidence");
    handed = good;
    handed.max_cuts = handed.max_aliases = handed.max_messages = 65535;
    handed.max_signatures = (uint32_t)-1;
    handed.max_work = (uint64_t)-1;
    expect(walk_of(handed) == ZERMUITA_WANT, "the greatest limits");
    handed = good;
    struct zermuita_wanted wanted;
    wanted.zone = wanted.name = of(root, sizeof root);
    wanted.rtype = 1;
    zermuita_put_message(messages, &wanted, of(NULL, 0));
    handed.messages = of(messages, zermuita_message_room(&wanted, 0));
    for (uint16_t most = 0; most < 3; most++) {
        handed.max_messages = most;
        expect(walk_of(handed) == (most == 1 ? ZERMUITA_TOO_MANY_MESSAGES : ZERMUITA_WANT), "as many messages as there may be");
    }
    struct zermuita_report report = report_of_nines();
    handed.max_messages = 1;
    expect(zermuita_resolve(&handed, messages, 0, &report) == ZERMUITA_BUFFER_TOO_SMALL && report.len == 4, "no room for no aliases");
}

/* No octets, null or not; null with a length; octets that are not what they are to be. */
static void walk_with_null(struct zermuita_evidence good) {
    struct zermuita_evidence handed = good;
    struct zermuita_octets *const parts[] = {
        &handed.anchor, &handed.ds, &handed.name, &handed.messages, &handed.checked, &handed.algorithms,
    };
    static const enum zermuita_reply none[] = {
        ZERMUITA_BAD_APEX, ZERMUITA_BAD_DS_SET, ZERMUITA_BAD_NAME, ZERMUITA_WANT, ZERMUITA_WANT, ZERMUITA_WANT,
    };
    static const enum zermuita_reply unread[] = {
        ZERMUITA_BAD_APEX, ZERMUITA_BAD_DS_SET, ZERMUITA_BAD_NAME, ZERMUITA_BAD_MESSAGES, ZERMUITA_BAD_SIGNATURES,
    };
    for (size_t i = 0; i < sizeof parts / sizeof *parts; i++) {
        struct zermuita_report report = report_of_nines();
        handed = good;
        *parts[i] = of(NULL, 1);
        expect(zermuita_resolve(&handed, NULL, 0, &report) == ZERMUITA_BAD_CASE && is_empty(&report), "null with a length");
        *parts[i] = of(NULL, 0);
        expect(walk_of(handed) == none[i], "no octets");
        *parts[i] = of(root, 0);
        expect(walk_of(handed) == none[i], "no octets, by a pointer");
        *parts[i] = of(name, 2);
        expect(i == 5 || walk_of(handed) == unread[i], "octets that cannot be read");
    }
}

/* Sizes of reports, and room: of an unknown size nothing is written, and nothing where there is too little room. */
static void walk_with_reports(struct zermuita_evidence handed) {
    uint8_t out[64];
    for (size_t size = 0; size < sizeof(struct zermuita_report) + 32; size++) {
        struct zermuita_report report = report_of_nines();
        memset(out, 9, sizeof out);
        report.size = size;
        enum zermuita_reply reply = zermuita_resolve(&handed, out, sizeof out, &report);
        expect(reply == (size == sizeof report ? ZERMUITA_WANT : ZERMUITA_BAD_CASE), "the size of a report beside a walk");
        expect((out[0] == 9) == (reply != ZERMUITA_WANT), "octets beside a report that is unknown");
    }
    struct zermuita_report report = report_of_nines();
    expect(zermuita_resolve(&handed, out, sizeof out, &report) == ZERMUITA_WANT, "the first call of a walk");
    size_t len = report.len;
    report.len = 0;
    expect(len > 0 && is_empty(&report) && report.size == sizeof report, "an empty report beside messages that are wanted");
    for (size_t room = 0; room <= len; room++) {
        memset(out, 9, sizeof out);
        report = report_of_nines();
        enum zermuita_reply reply = zermuita_resolve(&handed, room == 0 ? NULL : out, room == 0 ? sizeof out : room, &report);
        expect(reply == (room < len ? ZERMUITA_BUFFER_TOO_SMALL : ZERMUITA_WANT) && report.len == len, "room for what is wanted");
        expect((out[0] == 9) == (room < len) && out[len] == 9, "octets where there is too little room");
    }
    expect(zermuita_resolve(&handed, NULL, 0, NULL) == ZERMUITA_BUFFER_TOO_SMALL, "no report beside a walk");
}

/* Trust anchors: in lower case in what is wanted; names outside them; DS sets of which no record counts. */
static void walk_from_anchors(struct zermuita_evidence good) {
    static const uint8_t capital[] = {1, 'A', 0}, eight[] = {8, 5};
    uint8_t out[64], ds[64];
    struct zermuita_evidence handed = good;
    struct zermuita_report report = report_of_nines();
    struct zermuita_wanted wanted;
    handed.anchor = of(capital, sizeof capital);
    expect(zermuita_resolve(&handed, out, sizeof out, &report) == ZERMUITA_WANT, "an anchor with capitals");
    struct zermuita_octets rest = of(out, report.len), names;
    expect(zermuita_next_wanted(&rest, &wanted) && wanted.zone.len == 3 && wanted.zone.data[1] == 'a', "its name in lower case");
    handed.rtype = 43;
    for (int outside = 0; outside < 2; outside++) {
        handed.name = outside ? of(root, sizeof root) : of(name, sizeof name);
        handed.rtype = outside ? 1 : 43;
        expect(zermuita_resolve(&handed, out, sizeof out, &report) == ZERMUITA_OUTSIDE, "DS at an anchor, and a name above");
        rest = of(out, report.len);
        expect(zermuita_take_aliases(&rest, &names) && names.len == 0 && rest.len == 0, "no aliases");
    }
    handed = good;
    handed.algorithms = of(eight, sizeof eight);
    expect(walk_of(handed) == ZERMUITA_BAD_DS_SET, "an anchor of an algorithm that is not checked");
    handed = good;
    handed.ds = of(ds, put_ds(ds, 13, 1, 20));
    expect(walk_of(handed) == ZERMUITA_BAD_DS_SET, "an anchor of a digest that is not made");
}

static void call_with_walks(void) {
    uint8_t ds[64];
    struct zermuita_evidence good = without_anything(of(root, sizeof root), of(ds, put_ds(ds, 13, 2, 32)));
    call_with_evidence(good);
    walk_with_null(good);
    walk_with_reports(good);
    walk_from_anchors(good);
}

/* What walks over replies, on octets made by hand. */
static void walk_over_replies(void) {
    static const uint8_t records[] = {0, 2, 'a', 'b', 0, 0, 0, 1, 'c', 0, 9};
    struct zermuita_octets rest = of(records, sizeof records), rdata;
    expect(zermuita_next_record(&rest, &rdata) && rdata.len == 2 && rdata.data == records + 2, "the first record");
    expect(zermuita_next_record(&rest, &rdata) && rdata.len == 0, "a record without octets");
    expect(zermuita_next_record(&rest, &rdata) && rdata.len == 1 && rdata.data[0] == 'c', "the third record");
    expect(!zermuita_next_record(&rest, &rdata), "octets that end too early");
    expect(rest.len == 2, "what is no record stays");

    uint8_t entries[] = {0, 5, 1, 1, 3, 13, 'k', 0, 0, 0, 2, 'o', 'p', 0, 1, 's', 0, 0, 4, 1, 0, 3, 8, 0, 0, 0, 0, 0, 0, 0};
    uint8_t *next = entries;
    size_t len = sizeof entries;
    struct zermuita_ask ask;
    expect(zermuita_next_ask(&next, &len, &ask) && ask.algorithm == 13 && ask.key.len == 1 && ask.key.data[0] == 'k', "a key");
    expect(ask.dnskey.len == 5 && ask.octets.len == 2 && ask.octets.data[1] == 'p' && ask.signature.data[0] == 's', "its parts");
    zermuita_answer(&ask, 1);
    expect(entries[16] == 1, "a signature that passes");
    static const int others[] = {0, -1, 2};
    for (size_t i = 0; i < sizeof others / sizeof *others; i++) {
        entries[16] = 1;
        zermuita_answer(&ask, others[i]);
        expect(entries[16] == 0, "one that doesn't, or of which a library says an error");
    }
    expect(zermuita_next_ask(&next, &len, &ask) && ask.algorithm == 8 && ask.key.len == 0 && len == 0, "the second entry");
    expect(!zermuita_next_ask(&next, &len, &ask), "no third");
    next = entries;
    for (len = 0; len < 17; len++) {
        size_t cut = len;
        expect(!zermuita_next_ask(&next, &cut, &ask) && next == entries && cut == len, "an entry that is cut off");
    }
}

/* A name of labels of a length, cut where the octets are to end. Gives how many octets of it are a name. */
static size_t name_taken(uint8_t label, size_t len) {
    uint8_t octets[300];
    memset(octets, 'n', sizeof octets);
    struct zermuita_octets rest = of(octets, len), taken = of(NULL, 0);
    for (size_t at = 0; at < sizeof octets; at += 1 + (size_t)label) {
        octets[at] = label;
    }
    if (len > 0) {
        octets[len - 1] = 0;
    }
    int is_taken = zermuita_next_name(&rest, &taken);
    expect(rest.len == len - taken.len && rest.data == octets + taken.len, "what is behind a name, or all where there is none");
    expect(is_taken ? taken.data == octets && taken.len > 0 : taken.len == 0, "a name that is taken, or none");
    return taken.len;
}

/* Names in front of octets: of the lengths that names and labels may have (RFC 1035, 3.1). */
static void walk_over_names(void) {
    static const uint8_t two[] = {1, 'a', 0, 0, 0, 1, 7}, pointer[] = {1, 'a', 0xc0, 0, 0}, endless[] = {1, 'a', 1, 'b'};
    struct zermuita_octets rest = of(two, sizeof two), name_of_two;
    expect(zermuita_next_name(&rest, &name_of_two) && name_of_two.data == two && name_of_two.len == 3, "a name");
    expect(zermuita_next_name(&rest, &name_of_two) && name_of_two.data == two + 3 && name_of_two.len == 1, "the root");
    expect(zermuita_next_record(&rest, &name_of_two) && name_of_two.len == 1 && rest.len == 0, "a record behind names");
    expect(!zermuita_next_name(&rest, &name_of_two), "no octets are no name");
    rest = of(pointer, sizeof pointer);
    expect(!zermuita_next_name(&rest, &name_of_two) && rest.data == pointer, "a pointer is none");
    rest = of(endless, sizeof endless);
    expect(!zermuita_next_name(&rest, &name_of_two) && rest.len == sizeof endless, "nor octets without an end");
    expect(name_taken(63, 65) == 65 && name_taken(64, 66) == 0, "labels of 63 octets, and of 64");
    expect(name_taken(1, 255) == 255 && name_taken(1, 257) == 0, "names of 255 octets, and of more");
}

/* Places in front of octets. */
static void walk_over_places(void) {
    static const uint8_t two[] = {0, 0, 0, 2, 0, 0, 0, 7, 0, 1, 2, 255, 9}, none[] = {0, 0, 0, 0};
    static const uint8_t many[] = {255, 255, 255, 255, 0, 0, 0, 1};
    struct zermuita_octets rest = of(two, sizeof two), places;
    uint32_t place = 0;
    expect(zermuita_take_places(&rest, &places) && places.data == two + 4 && places.len == 8, "two places");
    expect(rest.data == two + 12 && rest.len == 1, "what is behind places");
    expect(zermuita_next_place(&places, &place) && place == 7, "the first place");
    expect(zermuita_next_place(&places, &place) && place == 66303, "the second place");
    expect(!zermuita_next_place(&places, &place) && place == 66303 && places.len == 0, "no third place");
    rest = of(none, sizeof none);
    expect(zermuita_take_places(&rest, &places) && places.len == 0 && rest.len == 0, "no places");
    expect(!zermuita_take_places(&rest, &places), "no octets are no places");
    rest = of(many, sizeof many);
    expect(!zermuita_take_places(&rest, &places) && rest.data == many && rest.len == sizeof many, "more places than octets");
    for (size_t len = 0; len < 12; len++) {
        rest = of(two, len);
        expect(!zermuita_take_places(&rest, &places) && rest.len == len, "places that are cut off");
    }
}

int main(void) {
    call_with_null();
    call_with_sizes();
    call_with_reports();
    call_with_flags();
    call_with_classes();
    call_with_ds();
    call_with_walks();
    walk_over_replies();
    walk_over_names();
    walk_over_places();
    expect(zermuita_version() == ZERMUITA_VERSION_NUMBER, "the version");
    for (int reply = 0; reply < 64; reply++) {
        uint32_t number = (uint32_t)reply;
        expect(zermuita_is_verdict(number) == (number <= ZERMUITA_REFERRAL), "verdicts");
        int is_further = ZERMUITA_TOO_MANY_CUTS <= number && number <= ZERMUITA_TOO_MUCH_WORK;
        expect(zermuita_is_refusal(number) == ((16 <= number && number <= ZERMUITA_OUTSIDE) || is_further), "refusals");
        printf("%d %s\n", reply, zermuita_strerror((enum zermuita_reply)reply));
    }
    expect(!zermuita_is_verdict((uint32_t)-1) && !zermuita_is_refusal((uint32_t)-1), "a number that no reply has");
    return failed;
}
