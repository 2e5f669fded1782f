#include "table.h"

#include <stdlib.h>
#include <sys/random.h>

struct entry {
    struct entry *next, *newer, *older;
    uint64_t hash, until;
    size_t key_len, len;
    uint8_t octets[]; /* the key, and the value behind it */
};

struct table {
    struct entry **buckets, *newest, *oldest;
    struct bounds bounds;
    size_t mask, entries, octets;
    uint64_t seed;
};

struct key {
    uint8_t octets[NAME_ROOM + 2];
    size_t len;
    uint64_t hash;
};

/* FNV-1a behind a seed, so that nobody who names names knows which of them share a bucket. */
static struct key key_of(const struct table *table, const struct name *name, uint16_t rtype) {
    struct key key = {.len = name->len + 2, .hash = 0xcbf29ce484222325 ^ table->seed};
    memcpy(key.octets, name->octets, name->len);
    key.octets[name->len] = (uint8_t)(rtype >> 8);
    key.octets[name->len + 1] = (uint8_t)rtype;
    for (size_t i = 0; i < key.len; i++) {
        key.hash = (key.hash ^ key.octets[i]) * 0x100000001b3;
    }
    key.hash ^= key.hash >> 29;
    return key;
}

struct table *make_table(struct bounds bounds) {
    struct table *table = calloc(1, sizeof *table);
    size_t buckets = 16;
    while (buckets < bounds.entries) {
        buckets *= 2;
    }
    if (table == NULL || (table->buckets = calloc(buckets, sizeof *table->buckets)) == NULL
        || getrandom(&table->seed, sizeof table->seed, 0) != sizeof table->seed) {
        free_table(table);
        return NULL;
    }
    table->bounds = bounds;
    table->mask = buckets - 1;
    return table;
}

static struct entry **find(struct table *table, const struct key *key) {
    struct entry **at = &table->buckets[key->hash & table->mask];
    while (*at != NULL
           && ((*at)->hash != key->hash || (*at)->key_len != key->len || memcmp((*at)->octets, key->octets, key->len) != 0)) {
        at = &(*at)->next;
    }
    return at;
}

static void unlink_use(struct table *table, struct entry *entry) {
    *(entry->newer != NULL ? &entry->newer->older : &table->newest) = entry->older;
    *(entry->older != NULL ? &entry->older->newer : &table->oldest) = entry->newer;
}

static void link_newest(struct table *table, struct entry *entry) {
    entry->newer = NULL;
    entry->older = table->newest;
    *(table->newest != NULL ? &table->newest->newer : &table->oldest) = entry;
    table->newest = entry;
}

static void drop(struct table *table, struct entry **at) {
    struct entry *entry = *at;
    *at = entry->next;
    unlink_use(table, entry);
    table->entries--;
    table->octets -= sizeof *entry + entry->key_len + entry->len;
    free(entry);
}

static void drop_oldest(struct table *table) {
    struct entry **at = &table->buckets[table->oldest->hash & table->mask];
    while (*at != table->oldest) {
        at = &(*at)->next;
    }
    drop(table, at);
}

void free_table(struct table *table) {
    while (table != NULL && table->oldest != NULL) {
        drop_oldest(table);
    }
    if (table != NULL) {
        free(table->buckets);
    }
    free(table);
}

void table_put(struct table *table, const struct name *name, uint16_t rtype, struct octets first, struct octets second,
               uint64_t until) {
    table_remove(table, name, rtype);
    struct key key = key_of(table, name, rtype);
    size_t len = first.len + second.len, all = sizeof(struct entry) + key.len + len;
    struct entry *entry = all <= table->bounds.octets ? malloc(all) : NULL;
    if (entry == NULL) {
        return;
    }
    while (table->oldest != NULL && (table->entries >= table->bounds.entries || table->octets + all > table->bounds.octets)) {
        drop_oldest(table);
    }
    *entry = (struct entry){.hash = key.hash, .until = until, .key_len = key.len, .len = len};
    memcpy(entry->octets, key.octets, key.len);
    if (first.len > 0) {
        memcpy(entry->octets + key.len, first.data, first.len);
    }
    if (second.len > 0) {
        memcpy(entry->octets + key.len + first.len, second.data, second.len);
    }
    entry->next = table->buckets[key.hash & table->mask];
    table->buckets[key.hash & table->mask] = entry;
    link_newest(table, entry);
    table->entries++;
    table->octets += all;
}

bool table_get(struct table *table, const struct name *name, uint16_t rtype, uint64_t now, struct octets *value,
               uint64_t *until) {
    struct key key = key_of(table, name, rtype);
    struct entry **at = find(table, &key), *entry = *at;
    if (entry == NULL) {
        return false;
    }
    if (entry->until < now) {
        drop(table, at);
        return false;
    }
    unlink_use(table, entry);
    link_newest(table, entry);
    *value = (struct octets){entry->octets + entry->key_len, entry->len};
    if (until != NULL) {
        *until = entry->until;
    }
    return true;
}

void table_remove(struct table *table, const struct name *name, uint16_t rtype) {
    struct key key = key_of(table, name, rtype);
    struct entry **at = find(table, &key);
    if (*at != NULL) {
        drop(table, at);
    }
}
