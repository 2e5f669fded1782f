/*
 * Reads a release of the corpus by libldns. usage: reader denial-corpus-VERSION.json
 * cc reader.c -ljansson -lldns (libjansson-dev, libldns-dev)
 */
#include <jansson.h>
#include <ldns/ldns.h>
#include <stdbool.h>
#include <string.h>

static size_t octets_of(const char *hex, uint8_t *out) {
    size_t len = 0;
    for (; sscanf(hex + 2 * len, "%2hhx", out + len) == 1; len++) {}
    return len;
}

/* Whether a message can be read, asks the question, and has as many records as its header counts. */
static bool is_read(const char *name, int type, const char *hex) {
    static uint8_t octets[65536], question[256];
    size_t len = octets_of(hex, octets), name_len = octets_of(name, question);
    ldns_pkt *message = NULL;
    if (ldns_wire2pkt(&message, octets, len) != LDNS_STATUS_OK) return false;
    ldns_rr *asked = ldns_rr_list_rr(ldns_pkt_question(message), 0);
    size_t count = ldns_rr_list_rr_count(ldns_pkt_answer(message)) + ldns_rr_list_rr_count(ldns_pkt_authority(message)) +
                   ldns_rr_list_rr_count(ldns_pkt_additional(message)) + ldns_pkt_edns(message);
    size_t headed = (size_t)(octets[7] + octets[9] + octets[11]) + 256u * (size_t)(octets[6] + octets[8] + octets[10]);
    bool same = ldns_rdf_size(ldns_rr_owner(asked)) == name_len && memcmp(ldns_rdf_data(ldns_rr_owner(asked)), question, name_len) == 0;
    same = same && (int)ldns_rr_get_type(asked) == type && count == headed;
    ldns_pkt_free(message);
    return same;
}

static const char *text(const json_t *of, const char *member) { return json_string_value(json_object_get(of, member)); }

int main(int argc, char **argv) {
    json_t *release = argc == 2 ? json_load_file(argv[1], 0, NULL) : NULL, *group, *one, *it;
    size_t at, to, i, cases = 0, read = 0, unread = 0;
    json_array_foreach(json_object_get(release, "groups"), at, group) json_array_foreach(json_object_get(group, "cases"), to, one) {
        json_t *question = json_object_get(one, "question"), *more = json_array();
        json_array_append_new(more, json_pack("{ss si ss}", "name", text(one, "apex"), "type", 48, "message", text(one, "dnskey")));
        int type = (int)json_integer_value(json_object_get(question, "type"));
        json_array_append_new(more, json_pack("{ss si ss}", "name", text(question, "name"), "type", type, "message", text(one, "answer")));
        if (json_object_get(one, "before")) json_array_extend(more, json_object_get(one, "before"));
        if (json_object_get(one, "more")) json_array_extend(more, json_object_get(one, "more"));
        cases++;
        json_array_foreach(more, i, it) {
            bool ok = is_read(text(it, "name"), (int)json_integer_value(json_object_get(it, "type")), text(it, "message"));
            if (!ok) printf("%s ", text(one, "id"));
            *(ok ? &read : &unread) += 1;
        }
        json_decref(more);
    }
    json_decref(release);
    printf("ldns: %zu cases, %zu messages read, %zu not: the cases in front\n", cases, read, unread);
    return 0;
}
