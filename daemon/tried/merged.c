/* Random tests of what a router computes without the kernel: merged filters, tables, entries and prefixes. Each is compared with its
   definition. usage: merged ROUNDS. `daemon/routes` builds and runs it. */
#include "entries.h"
#include "merge.h"
#include "prefixes.h"

#include <stdio.h>
#include <stdlib.h>
#include <string.h>

/* No link is tried here: filters are made. */
bool link_group_at(const mq_link *link, const uint8_t *address, mq_group *group) {
    (void)link, (void)address, (void)group;
    return false;
}

enum { LINKS = 5, UNIVERSE = 12, ROOM = 64, FLOWS = 200 };

static uint64_t state = 88172645463325252;

static unsigned below(unsigned bound) {
    state ^= state << 13;
    state ^= state >> 7;
    state ^= state << 17;
    return (unsigned)(state >> 33) % bound;
}

static void check(bool test, const char *what) {
    if (test)
        return;
    printf("wrong: %s\n", what);
    exit(1);
}

/* The address of a number, in ascending order of numbers. */
static void address_of(bool is_mld, unsigned number, uint8_t *address) {
    memset(address, 0, LONG_ADDRESS);
    address[0] = is_mld ? 0x20 : 10;
    address[is_mld ? 14 : 2] = (uint8_t)(number >> 8);
    address[is_mld ? 15 : 3] = (uint8_t)number;
}

/* A set of numbers as bits, and a mode. */
struct wanted {
    enum mode mode;
    unsigned listed;
};

static struct filter filter_from(bool is_mld, struct wanted wanted, uint8_t (*sources)[LONG_ADDRESS]) {
    struct filter filter = {wanted.mode, 0, (const uint8_t(*)[LONG_ADDRESS])sources};
    for (unsigned at = 0; at < UNIVERSE; at++)
        if (wanted.listed >> at & 1)
            address_of(is_mld, at, sources[filter.count++]);
    return filter;
}

/* RFC 4605 section 4.1: if any filter excludes, the result excludes what all of these exclude and none of the others includes; else it
   includes the union. */
static struct wanted defined(const struct wanted *all, size_t count) {
    unsigned excluded = ~0u, included = 0;
    bool is_any = false;
    for (size_t at = 0; at < count; at++) {
        is_any |= all[at].mode == MODE_EXCLUDE;
        if (all[at].mode == MODE_EXCLUDE)
            excluded &= all[at].listed;
        else
            included |= all[at].listed;
    }
    if (is_any)
        return (struct wanted){MODE_EXCLUDE, excluded & ~included};
    return (struct wanted){included != 0 ? MODE_INCLUDE : MODE_NONE, included};
}

static void merges(bool is_mld) {
    static struct merged merged;
    static uint8_t lists[LINKS][UNIVERSE][LONG_ADDRESS], list[UNIVERSE][LONG_ADDRESS];
    struct wanted all[LINKS];
    size_t count = below(LINKS + 1);
    merged = (struct merged){0};
    for (size_t at = 0; at < count; at++) {
        all[at] = (struct wanted){below(3), below(1u << UNIVERSE)};
        if (all[at].mode == MODE_NONE || (all[at].mode == MODE_INCLUDE && all[at].listed == 0))
            all[at] = (struct wanted){MODE_NONE, 0};
        struct filter filter = filter_from(is_mld, all[at], lists[at]);
        merge_add(&merged, &filter);
    }
    struct wanted wanted = defined(all, count);
    struct filter expected = filter_from(is_mld, wanted, list), found = merge_filter(&merged);
    check(filter_equal(&expected, &found) && !merged.is_wider, "a merged filter");
}

/* A union that is too large becomes the filter of all sources. */
static void merges_many(bool is_mld) {
    static struct merged merged;
    static uint8_t sources[2][PAGE_SOURCES][LONG_ADDRESS];
    size_t more = below(2);
    merged = (struct merged){0};
    for (unsigned at = 0; at < PAGE_SOURCES; at++) {
        address_of(is_mld, at, sources[0][at]);
        address_of(is_mld, at + (unsigned)more, sources[1][at]);
    }
    for (int at = 0; at < 2; at++) {
        struct filter filter = {MODE_INCLUDE, PAGE_SOURCES, sources[at]};
        merge_add(&merged, &filter);
    }
    check(merged.is_wider == (more > 0), "a union at the bound");
    check(merged.mode == (more > 0 ? MODE_EXCLUDE : MODE_INCLUDE), "its mode");
    check(merged.count == (more > 0 ? 0 : PAGE_SOURCES), "its sources");
}

/* The same entries in the plainest way: a list in the order of use. */
static struct {
    unsigned flow;
    bool is_wanted;
} plain[ROOM];
static size_t plain_count;

static size_t plain_find(unsigned flow) {
    size_t at = 0;
    while (at < plain_count && plain[at].flow != flow)
        at++;
    return at;
}

static void plain_remove(size_t at) {
    memmove(plain + at, plain + at + 1, (--plain_count - at) * sizeof *plain);
}

static void plain_put(unsigned flow, bool is_wanted) {
    plain[plain_count].flow = flow;
    plain[plain_count++].is_wanted = is_wanted;
}

/* Returns the place of the entry that has to go, or ROOM. */
static size_t plain_victim(void) {
    size_t wanted = 0;
    for (size_t at = 0; at < plain_count; at++)
        wanted += plain[at].is_wanted;
    bool kind = wanted > ROOM - ROOM / 8;
    for (size_t at = 0; at < plain_count; at++)
        if ((kind || plain_count == ROOM) && plain[at].is_wanted == kind)
            return at;
    return ROOM;
}

static struct flow flow_of(unsigned number) {
    struct flow flow = {.is_mld = number & 1};
    address_of(flow.is_mld, number / 8, flow.group);
    address_of(flow.is_mld, number / 2, flow.source);
    return flow;
}

static unsigned number_of(const struct route_entry *entry) {
    for (unsigned number = 0; number < FLOWS; number++) {
        struct flow flow = flow_of(number);
        if (memcmp(&flow, &entry->flow, sizeof flow) == 0)
            return number;
    }
    check(false, "an entry of no flow");
    return 0;
}

/* Does one random thing to a table of entries and to the plain list. */
static void entries_step(struct entries *entries, uint64_t now) {
    unsigned number = below(FLOWS);
    struct flow flow = flow_of(number);
    struct route_entry *entry = entries_find(entries, &flow);
    size_t at = plain_find(number);
    check((entry != NULL) == (at < plain_count), "whether an entry is there");
    if (entry == NULL) {
        entries_put(entries, &flow, now);
        plain_put(number, false);
    } else if (below(4) == 0) {
        entries_remove(entries, entry);
        plain_remove(at);
    } else {
        bool is_wanted = below(8) != 0, was_wanted = plain[at].is_wanted;
        if (below(2))
            entries_use(entries, entry, now), is_wanted = was_wanted;
        else
            entries_want(entries, entry, is_wanted);
        if (is_wanted != was_wanted || entry->used_at == now) {
            plain_remove(at);
            plain_put(number, is_wanted);
        }
    }
    for (struct route_entry *victim; (victim = entries_victim(entries)) != NULL; entries_remove(entries, victim)) {
        check(plain_victim() < ROOM && plain[plain_victim()].flow == number_of(victim), "the entry that goes");
        plain_remove(plain_victim());
    }
    check(plain_victim() == ROOM && plain_count == entries->table.count, "how many entries");
}

static void entries_run(void) {
    static struct entries entries;
    if (entries.table.room == 0)
        entries_open(&entries, ROOM);
    for (unsigned step = 0; step < 500; step++) {
        static uint64_t now = 1;
        entries_step(&entries, ++now);
    }
    for (size_t at = 1; at < entries.table.count; at++)
        check(memcmp(entries_at(&entries, at - 1), entries_at(&entries, at), sizeof(struct flow)) < 0, "the order of entries");
}

static bool has_bits(const uint8_t *one, const uint8_t *other, unsigned length) {
    for (unsigned bit = 0; bit < length; bit++)
        if ((one[bit / 8] ^ other[bit / 8]) >> (7 - bit % 8) & 1)
            return false;
    return true;
}

/* The upstream interface of a group is that of the longest prefix that it has. */
static void prefixes_run(void) {
    struct prefixes it = {.count = 0};
    char word[128];
    unsigned lengths[6], bytes[6], best = 0;
    size_t expected = NO_UPSTREAM;
    uint8_t group[16] = {(uint8_t)(224 + below(16)), (uint8_t)below(4), 0, (uint8_t)below(2)};
    unsigned count = below(6);
    for (unsigned at = 0; at < count; at++) {
        lengths[at] = 4 + below(29);
        bytes[at] = below(16) << 16 | below(4) << 8 | below(2);
        snprintf(word, sizeof word, "up%u=%u.%u.0.%u/%u", at, 224 + (bytes[at] >> 16), bytes[at] >> 8 & 255, bytes[at] & 255,
                 lengths[at]);
        check(prefixes_read(&it, word) == NULL, word);
        uint8_t prefix[4] = {(uint8_t)(224 + (bytes[at] >> 16)), (uint8_t)(bytes[at] >> 8), 0, (uint8_t)bytes[at]};
        if (has_bits(group, prefix, lengths[at]) && lengths[at] > best) {
            best = lengths[at];
            expected = at;
        }
    }
    check(prefixes_find(&it, false, group) == expected, "the interface of a group");
    check(prefixes_read(&it, "rest") == NULL, "an interface for all");
    check(prefixes_find(&it, false, group) == (expected == NO_UPSTREAM ? count : expected), "the interface of the rest");
    check(prefixes_find(&it, true, group) == count, "the interface of the other family");
}

int main(int count, char **words) {
    unsigned rounds = count > 1 ? (unsigned)atoi(words[1]) : 1000;
    for (unsigned round = 0; round < rounds; round++) {
        merges(round % 2 == 1);
        if (round % 64 < 4)
            merges_many(round % 2 == 1);
        if (round % 16 == 0)
            entries_run();
        prefixes_run();
    }
    static const char *const bad[] = {
        "=232.0.0.0/8",     "eth0=",           "eth0=10.0.0.0/8", "eth0=232.0.0.0",          "eth0=232.0.0.0/33",
        "eth0=232.0.0.0/3", "eth0=ff00::/129", "eth0=fe80::/10",  "a-name-that-is-too-long", "eth0=232.0.0.0/8x"};
    for (size_t at = 0; at < sizeof bad / sizeof *bad; at++) {
        struct prefixes it = {.count = 0};
        check(prefixes_read(&it, bad[at]) != NULL, bad[at]);
    }
    printf("%u rounds\n", rounds);
    return 0;
}
