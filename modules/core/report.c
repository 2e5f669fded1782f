#include "report.h"

/* The members of a result, as corpus/schema.json has them. */
struct shown {
    const char *result, *which;
};

static struct shown shown_verdict(const struct verdict *verdict) {
    static const struct shown of[] = {
        [FOUND_RECORDS] = {"secure", "answer"},
        [FOUND_NODATA] = {"secure", "nodata"},
        [FOUND_NXDOMAIN] = {"secure", "nxdomain"},
        [FOUND_WILDCARD] = {"secure", "wildcard"},
        [FOUND_WILDCARD_NODATA] = {"secure", "wildcard-nodata"},
        [FOUND_DELEGATED] = {"insecure", "no-ds"},
        [FOUND_OPTOUT] = {"insecure", "optout"},
        [FOUND_ALIAS] = {"secure", "alias"},
        [FOUND_BOGUS] = {"bogus", NULL},
        [FOUND_BOGUS_KEYS] = {"bogus", NULL},
    };
    return of[verdict->finding];
}

static struct shown shown_told(const struct told *told) {
    switch (told->result) {
    case SECURE:
        return (struct shown){"secure", told->rcode == RCODE_NXDOMAIN ? "nxdomain" : told->has_records ? "answer" : "nodata"};
    case BOGUS:
        return (struct shown){"bogus", NULL};
    default:
        return (struct shown){"insecure", NULL};
    }
}

static void put_octets(FILE *log, const char *name, struct octets octets) {
    fprintf(log, "\"%s\":\"", name);
    put_hex(log, octets);
    fputc('"', log);
}

static struct octets octets_of(const struct name *name) {
    return (struct octets){name->octets, name->len};
}

static void put_result(FILE *log, struct shown shown) {
    fprintf(log, "{\"result\":\"%s\"", shown.result);
    if (shown.which != NULL) {
        fprintf(log, ",\"which\":\"%s\"", shown.which);
    }
    fputc('}', log);
}

static void put_question(FILE *log, const struct name *qname, uint16_t qtype) {
    char text[TEXT_ROOM];
    name_text(qname, text);
    fputs("\"question\":{", log);
    put_octets(log, "name", octets_of(qname));
    fprintf(log, ",\"type\":%u,\"text\":\"", qtype);
    for (const char *at = text; *at != 0; at++) {
        fputs(*at == '\\' ? "\\\\" : (char[]){*at, 0}, log);
    }
    fprintf(log, " TYPE%u\"}", qtype);
}

static void put_extended_errors(FILE *log, const struct told *told) {
    struct octets rest = told->has_edns ? told->edns.data : (struct octets){NULL, 0};
    const char *before = "";
    fputs("\"ede\":[", log);
    for (uint16_t code; next_extended_error(&rest, &code); before = ",") {
        fprintf(log, "%s%u", before, code);
    }
    fputc(']', log);
}

static void put_ds(FILE *log, struct octets rest) {
    const char *before = "";
    fputs("\"ds\":[", log);
    while (rest.len >= 2 && rest.len - 2 >= number16(rest.data)) {
        size_t len = number16(rest.data);
        fprintf(log, "%s\"", before);
        put_hex(log, (struct octets){rest.data + 2, len});
        fputc('"', log);
        before = ",";
        rest = (struct octets){rest.data + 2 + len, rest.len - 2 - len};
    }
    fputc(']', log);
}

/* The messages as a case of the corpus: what the judge says is expected, and what the resolver said stands beside it. */
static void put_case(FILE *log, const struct shadow *shadow, const struct trial *trial, struct shown expected,
                     struct shown also) {
    char zone[TEXT_ROOM];
    name_text(&trial->apex, zone);
    fprintf(log, "\"case\":{\"id\":\"shadow-%03u\",\"group\":\"shadow\",\"tries\":\"", (unsigned)(shadow->lines % 1000));
    fputs("An answer of which a resolver and the judge say different things.\",\"rfc\":\"RFC 4035, 5\",", log);
    fputs("\"kind\":\"acceptable\",\"zone\":\"", log);
    for (const char *at = zone; *at != 0; at++) {
        fputs(*at == '\\' ? "\\\\" : (char[]){*at, 0}, log);
    }
    fputs("\",", log);
    put_octets(log, "apex", octets_of(&trial->apex));
    fputc(',', log);
    put_question(log, &trial->qname, trial->qtype);
    fprintf(log, ",\"moment\":%llu,\"nsec3_limit\":%u,\"expected\":", (unsigned long long)trial->now,
            judge_iterations(shadow->judge));
    put_result(log, expected);
    fputs(",\"also\":[", log);
    put_result(log, also);
    fputs("],\"open\":\"Nobody has decided yet which of both is right.\",", log);
    put_ds(log, trial->ds);
    fputc(',', log);
    put_octets(log, "dnskey", trial->dnskey);
    fputc(',', log);
    put_octets(log, "answer", trial->answer);
    fputc('}', log);
}

static void put_results(FILE *log, const struct trial *trial, const struct told *told, const struct verdict *verdict) {
    struct shown judged = shown_verdict(verdict), said = shown_told(told);
    fprintf(log, "{\"moment\":%llu,", (unsigned long long)trial->now);
    put_question(log, &told->qname, trial->qtype);
    fputs(",\"resolver\":{", log);
    fprintf(log, "\"result\":\"%s\",\"which\":\"%s\",", said.result, said.which != NULL ? said.which : "");
    fprintf(log, "\"rcode\":%u,\"records\":%s,", told->rcode, told->has_records ? "true" : "false");
    put_extended_errors(log, told);
    fprintf(log, "},\"judge\":{\"result\":\"%s\",\"which\":\"%s\",", judged.result, judged.which != NULL ? judged.which : "");
    fprintf(log, "\"reply\":\"%s\",\"ede\":%u},", verdict->reply, verdict->ede);
}

void report_disagreement(struct shadow *shadow, const struct trial *trial, const struct told *told,
                         const struct verdict *verdict) {
    FILE *log = shadow->log;
    put_results(log, trial, told, verdict);
    put_case(log, shadow, trial, shown_verdict(verdict), shown_told(told));
    fputs("}\n", log);
    fflush(log);
    shadow->lines++;
}
