/*
 * Prints what a signed zone says about a name. DS, DNSKEY and ANSWER are files: a DS set, each record prefixed by its length in two
 * bytes, and two messages; `-` instead of DS says that the parent proved a delegation without DS records. TYPE is a number, TIME in
 * seconds since 1970. To build it: cc validate.c $(pkg-config --cflags --libs zermuita-openssl)
 */
#include <stdio.h>
#include <stdlib.h>
#include <zermuita_openssl.h>

enum { ROOM = 65536 };

static struct zermuita_octets octets_of_file(const char *path, uint8_t *room) {
    FILE *file = fopen(path, "rb");
    struct zermuita_octets octets = {room, file == NULL ? 0 : fread(room, 1, ROOM, file)};
    return file != NULL && fclose(file) == 0 ? octets : (struct zermuita_octets){NULL, 0};
}

int main(int argc, char **argv) {
    static uint8_t room[3][ROOM];
    struct zermuita_openssl_name apex, name;
    if (argc < 7 || zermuita_openssl_name_from_text(argv[1], &apex) != 0 || zermuita_openssl_name_from_text(argv[4], &name) != 0) {
        fputs("usage: validate APEX DS DNSKEY NAME TYPE ANSWER [TIME]\n", stderr);
        return 2;
    }
    struct zermuita_case handed;
    zermuita_openssl_case_init(&handed, sizeof handed);
    handed.no_ds = strcmp(argv[2], "-") == 0;
    handed.apex = zermuita_openssl_name_octets(&apex), handed.name = zermuita_openssl_name_octets(&name);
    handed.ds = octets_of_file(argv[2], room[0]), handed.dnskey = octets_of_file(argv[3], room[1]);
    handed.answer = octets_of_file(argv[6], room[2]), handed.rtype = (uint16_t)strtoul(argv[5], NULL, 10);
    handed.now = argc > 7 ? strtoull(argv[7], NULL, 10) : handed.now;
    struct zermuita_openssl *checker = zermuita_openssl_new();
    struct zermuita_openssl_result *result = zermuita_openssl_judge(checker, &handed);
    const struct zermuita_report *report = zermuita_openssl_report(result);
    enum zermuita_reply reply = zermuita_openssl_reply(result);
    static const char *const trust[] = {"indeterminate", "bogus", "insecure", "secure"};
    printf("%s\n%s, TTL %lu, until %llu, EDE %u\n", zermuita_strerror(reply), trust[zermuita_openssl_security(result)],
           (unsigned long)report->ttl, (unsigned long long)report->until, (unsigned)report->ede);
    char target[ZERMUITA_OPENSSL_TEXT_ROOM];
    if (zermuita_openssl_name_to_text(zermuita_openssl_target(result), target) > 0) {
        puts(target);
    }
    struct zermuita_octets rdata;
    for (size_t i = 0; zermuita_openssl_record(result, i, &rdata); i++) {
        for (size_t j = 0; j < rdata.len; j++) {
            printf("%02x%s", rdata.data[j], j + 1 < rdata.len ? "" : "\n");
        }
    }
    zermuita_openssl_result_free(result);
    zermuita_openssl_free(checker);
    return zermuita_is_verdict(reply) ? 0 : zermuita_is_refusal(reply) ? 1 : 2;
}
