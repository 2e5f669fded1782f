/* Judges answers of name servers, and walks, by libzermuita-openssl, and prints of each what answers.c prints: calls are not counted, a
 * 0 is in their place. All are judged by one checker. */
#include "backend.h"
#include "text.h"

#include <inttypes.h>
#include <stdio.h>

int main(void) {
    struct cases cases = read_cases();
    struct zermuita_openssl *checker = zermuita_openssl_new();
    struct buffer out = {0};
    for (size_t i = 0; i < cases.len; i++) {
        struct zermuita_openssl_result *result = said_of(checker, &cases.all[i]);
        const struct zermuita_report *report = zermuita_openssl_report(result);
        if (cases.all[i].is_walk) {
            printf("%zu ", messages_in(zermuita_openssl_messages(result)));
        }
        printf("%d %" PRIu64 " %" PRIu64 " 0 ", (int)zermuita_openssl_reply(result), report->verifications, report->hashes);
        printf("%" PRIu32 " %" PRIu64 " %u %u ", report->ttl, report->until, (unsigned)report->ede, (unsigned)report->delegates);
        out.len = 0;
        append_output(result, &cases.all[i], &out);
        print_hex(out.data, out.len);
        puts("");
        zermuita_openssl_result_free(result);
    }
    zermuita_openssl_free(checker);
    buffer_free(&out);
    cases_free(&cases);
    return 0;
}
