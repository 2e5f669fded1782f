/* Judges answers of name servers, and walks over them, and prints a line for each: reply, counts, calls, TTL, until, extended error,
 * what is said of a delegation, octets; of a walk in front of these how many messages it took. OpenSSL checks the signatures; with an
 * argument they pass by the table. */
#include "cases.h"
#include "text.h"

#include "../../examples/c/signature.h"

#include <inttypes.h>
#include <stdio.h>

static bool passes(const struct zermuita_ask *ask) {
    return signature_passes(ask);
}

int main(int argc, char **argv) {
    (void)argv;
    static const struct caller by_openssl = {call, passes, answer_wanted};
    struct cases cases = read_cases();
    struct judgement judgement = {0};
    for (size_t i = 0; i < cases.len; i++) {
        judge(handed_of(&cases.all[i]), argc > 1 ? &plainly : &by_openssl, &judgement);
        const struct zermuita_report *report = &judgement.report;
        if (cases.all[i].is_walk) {
            printf("%zu ", messages_in(octets_of(&judgement.messages)));
        }
        printf("%d %" PRIu64 " %" PRIu64 " %u ", (int)judgement.reply, report->verifications, report->hashes, judgement.calls);
        printf("%" PRIu32 " %" PRIu64 " %u %u ", report->ttl, report->until, (unsigned)report->ede, (unsigned)report->delegates);
        print_hex(judgement.octets.data, judgement.octets.len);
        puts("");
    }
    judgement_free(&judgement);
    cases_free(&cases);
    return 0;
}
