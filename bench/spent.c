/* Measures how near datagrams come to the bound of 64 * (length + held) + 64 comparisons. It generates 1,000 datagrams of 65528 bytes
   for each family at the default limits, and prints the greatest ratio of each kind. The seed is fixed, so the datagrams are the
   same in each run. It fails if a datagram exceeds the bound or is dropped. */
#include "mquerier.h"

#include <stdio.h>
#include <stdlib.h>
#include <string.h>

enum { LENGTH = 65528, DATAGRAMS = 1000, GROUPS = 1024, SOURCES = 16384 };
enum { IS_IN = 1, IS_EX, TO_IN, TO_EX, ALLOW, BLOCK };
enum order { ASCENDING, DESCENDING, MIXED };

static void want(bool is_so, const char *otherwise) {
    if (is_so)
        return;
    fprintf(stderr, "spent: %s\n", otherwise);
    exit(1);
}

/* Random numbers by George Marsaglia's xorshift. */
static uint64_t chances;

static uint32_t below(uint32_t number) {
    chances ^= chances << 13;
    chances ^= chances >> 7;
    chances ^= chances << 17;
    return (uint32_t)((chances >> 20) % number);
}

/* The properties of a family's datagrams, and its link. */
struct family {
    const char *name;
    size_t width;  /* bytes of an address */
    unsigned most; /* most sources of a group, by default */
    uint8_t group[16], source[16], report[8], query[8];
    size_t query_head; /* bytes of a query before its group */
    void (*begin)(void);
    mq_answer (*receive)(bool is_query, const uint8_t *body, uint64_t now);
    uint64_t (*spent)(void);
    uint64_t (*held)(void);
};

static const uint8_t own4[4] = {10, 0, 0, 9}, host4[4] = {10, 0, 0, 7}, lower4[4] = {10, 0, 0, 1};
static const uint8_t own6[16] = {0xfe, 0x80, [15] = 9}, host6[16] = {0xfe, 0x80, [15] = 7};
static const uint8_t lower6[16] = {0xfe, 0x80, [15] = 1};
static const uint8_t routers6[16] = {0xff, 2, [15] = 0x16}, nodes6[16] = {0xff, 2, [15] = 1};

static mq_igmp_on_heap igmp;
static mq_mld_on_heap mld;
/* Queries that don't fit are lost, which changes no comparison. */
static uint8_t queries[1 << 16];

static void igmp_begin(void) {
    mq_igmp_config config = mq_igmp_defaults(own4);
    want(config.groups == GROUPS && config.sources == SOURCES && config.group_sources == 366, "other limits by default");
    mq_igmp_free(&igmp);
    want(mq_igmp_new(config, 0, &igmp) == MQ_DONE, "no link");
}

static void mld_begin(void) {
    mq_mld_config config = mq_mld_defaults(own6);
    want(config.groups == GROUPS && config.sources == SOURCES && config.group_sources == 89, "other limits by default");
    mq_mld_free(&mld);
    want(mq_mld_new(config, 0, &mld) == MQ_DONE, "no link");
}

static mq_answer igmp_receive(bool is_query, const uint8_t *body, uint64_t now) {
    return mq_igmp_receive(&igmp.link, &igmp.workspace, is_query ? lower4 : host4, body, LENGTH, now, queries, sizeof queries);
}

static mq_answer mld_receive(bool is_query, const uint8_t *body, uint64_t now) {
    return mq_mld_receive(&mld.link, &mld.workspace, is_query ? lower6 : host6, is_query ? nodes6 : routers6, 1, true, body, LENGTH,
                          now, queries, sizeof queries);
}

static uint64_t igmp_spent(void) {
    return mq_igmp_spent(&igmp.link);
}

static uint64_t mld_spent(void) {
    return mq_mld_spent(&mld.link);
}

static uint64_t igmp_held(void) {
    static mq_igmp_group groups[GROUPS];
    static mq_igmp_source sources[SOURCES];
    mq_page page = mq_igmp_groups(&igmp.link, 0, groups, GROUPS, sources, SOURCES);
    want(page.groups == mq_igmp_len(&igmp.link), "not all groups in one page");
    return (uint64_t)page.groups + page.sources;
}

static uint64_t mld_held(void) {
    static mq_mld_group groups[GROUPS];
    static mq_mld_source sources[SOURCES];
    mq_page page = mq_mld_groups(&mld.link, 0, groups, GROUPS, sources, SOURCES);
    want(page.groups == mq_mld_len(&mld.link), "not all groups in one page");
    return (uint64_t)page.groups + page.sources;
}

/* The datagram in the making. The checksum of MLD also covers the addresses, the length and the next header. */
static uint8_t body[LENGTH];
static size_t length;
static unsigned records;

static uint32_t added(uint32_t sum, const uint8_t *bytes, size_t count) {
    for (size_t at = 0; at < count; at += 2)
        sum += (uint32_t)bytes[at] << 8 | bytes[at + 1];
    return (sum & 0xffff) + (sum >> 16);
}

static void sign(const struct family *f, bool is_query) {
    const uint8_t rest[8] = {0, 0, LENGTH >> 8, LENGTH & 0xff, 0, 0, 0, 58};
    uint32_t sum = 0;
    if (f->width == 16) {
        sum = added(sum, is_query ? lower6 : host6, 16);
        sum = added(sum, is_query ? nodes6 : routers6, 16);
        sum = added(sum, rest, 8);
    }
    for (size_t at = 0; at < LENGTH; at += 8)
        sum = added(sum, body + at, 8);
    sum = (sum & 0xffff) + (sum >> 16);
    sum = ~sum & 0xffff;
    body[2] = sum >> 8;
    body[3] = sum & 0xff;
}

static void put(const void *bytes, size_t count) {
    memcpy(body + length, bytes, count);
    length += count;
}

/* Writes the address of a number. */
static void put_address(const struct family *f, const uint8_t *first, uint32_t number) {
    put(first, f->width);
    body[length - 3] += number >> 16;
    body[length - 2] += number >> 8;
    body[length - 1] += number;
}

/* Writes `count` sources: those of numbers from `first` on by `step`, in an order. */
static void put_sources(const struct family *f, uint32_t count, uint32_t first, uint32_t step, enum order order) {
    for (uint32_t at = 0; at < count; at++) {
        uint32_t place = order == ASCENDING ? at : order == DESCENDING ? count - 1 - at : below(count);
        put_address(f, f->source, first + place * step);
    }
}

static void begin(const uint8_t *head, size_t count) {
    memset(body, 0, LENGTH);
    length = 0;
    records = 0;
    put(head, count);
}

/* Appends a record with `count` sources, or with as many as fit. Returns false if the record does not fit. */
static bool record(const struct family *f, int kind, uint32_t group, uint32_t count, uint32_t first, uint32_t step,
                   enum order order) {
    size_t left = LENGTH - length;
    if (left < 4 + f->width)
        return false;
    if ((left - 4 - f->width) / f->width < count)
        count = (uint32_t)((left - 4 - f->width) / f->width);
    put((uint8_t[]){(uint8_t)kind, 0, (uint8_t)(count >> 8), (uint8_t)count}, 4);
    put_address(f, f->group, group);
    put_sources(f, count, first, step, order);
    records++;
    body[6] = records >> 8;
    body[7] = records & 0xff;
    return true;
}

/* The kinds of datagrams. The link may have groups from 0 on, with sources of odd numbers. Each kind fills the datagram with records
   until none fits, and returns whether it is a query. */

static bool empty_blocks(const struct family *f) {
    uint32_t group = below(2 * GROUPS);
    while (record(f, BLOCK, group, 0, 0, 1, ASCENDING))
        continue;
    return false;
}

static bool empty_blocks_in_turn(const struct family *f) {
    uint32_t groups = 1 + below(2 * GROUPS), turn = 0;
    while (record(f, BLOCK, turn % groups, 0, 0, 1, ASCENDING))
        turn++;
    return false;
}

static bool few_sources_in_turn(const struct family *f) {
    uint32_t groups = below(2) ? GROUPS : 1 + below(2 * GROUPS), size = below(3), turn = 0;
    int kind = 1 + (int)below(6);
    while (record(f, kind, turn % groups, size, 1, 2, DESCENDING))
        turn++;
    return false;
}

static bool fresh_sources_in_turn(const struct family *f) {
    uint32_t groups = 1 + below(64), size = 1 + below(f->most), turn = 0;
    enum order order = below(3);
    while (record(f, turn / groups % 2 ? TO_EX : ALLOW, turn % groups, size, 100000 + turn * size, 1, order))
        turn++;
    return false;
}

static bool fresh_groups(const struct family *f) {
    uint32_t size = below(3), turn = 0;
    bool is_descending = below(2);
    while (record(f, size ? ALLOW : TO_EX, 20000 + (is_descending ? -turn : turn), size, turn, 1, DESCENDING))
        turn++;
    return false;
}

static bool sources_between(const struct family *f) {
    uint32_t groups = 1 + below(GROUPS), size = 1 + below(f->most), turn = 0;
    enum order order = 1 + below(2);
    while (record(f, turn / groups % 2 ? BLOCK : ALLOW, turn % groups, size, 0, 2, order))
        turn++;
    return false;
}

static bool held_sources(const struct family *f) {
    uint32_t groups = 1 + below(GROUPS), size = 1 + below(f->most), turn = 0;
    enum order order = 1 + below(2);
    while (record(f, 1 + (int)below(6), turn % groups, size, 1, 2, order))
        turn++;
    return false;
}

static bool records_of_any_kind(const struct family *f) {
    uint32_t groups = 1 + below(2 * GROUPS), most = 1 + below(f->most);
    while (record(f, 1 + (int)below(6), below(groups), below(most), below(2 * most), 1 + below(2), below(3)))
        continue;
    return false;
}

static bool query_with_sources(const struct family *f) {
    uint32_t count = (uint32_t)((LENGTH - f->query_head - f->width - 4) / f->width);
    uint32_t some = 1 + below(f->most);
    bool is_descending = below(2);
    begin(f->query, f->query_head);
    put_address(f, f->group, below(4));
    put((uint8_t[]){2, 125, (uint8_t)(count >> 8), (uint8_t)count}, 4);
    for (uint32_t at = 0; at < count; at++) {
        uint32_t place = is_descending ? some - 1 - at % some : below(some);
        put_address(f, f->source, 1 + 2 * place);
    }
    return true;
}

static const struct {
    const char *name;
    bool (*fill)(const struct family *);
} kinds[] = {
    {"BLOCKs without sources, one group", empty_blocks},
    {"BLOCKs without sources, groups in turn", empty_blocks_in_turn},
    {"up to two sources each, groups in turn", few_sources_in_turn},
    {"ALLOW and TO_EX in turn, fresh sources", fresh_sources_in_turn},
    {"fresh groups", fresh_groups},
    {"sources between those held", sources_between},
    {"sources that are held", held_sources},
    {"records of any kind", records_of_any_kind},
    {"queries with sources of a group", query_with_sources},
};
enum { KINDS = sizeof kinds / sizeof *kinds };

static void receive(const struct family *f, bool is_query, uint64_t now) {
    mq_answer answer;
    sign(f, is_query);
    answer = f->receive(is_query, body, now);
    want(answer.status == MQ_DONE && !answer.dropped, "a datagram was dropped");
}

/* Makes a new link with `groups` groups of `sources` sources each. */
static void hold(const struct family *f, uint32_t groups, uint32_t sources) {
    f->begin();
    begin(f->report, 8);
    for (uint32_t group = 0; group < groups; group++) {
        if (LENGTH - length < 4 + (1 + sources) * f->width) {
            receive(f, false, 0);
            begin(f->report, 8);
        }
        record(f, sources ? ALLOW : TO_EX, group, sources, 1, 2, ASCENDING);
    }
    receive(f, false, 0);
}

/* Fills the link in one of several ways. */
static void hold_some(const struct family *f) {
    switch (below(5)) {
    case 0: hold(f, 0, 0); break;
    case 1: hold(f, 1, f->most); break;
    case 2: hold(f, GROUPS, 0); break;
    case 3: hold(f, GROUPS, SOURCES / GROUPS); break;
    default: hold(f, SOURCES / f->most, f->most);
    }
}

/* Returns the comparisons of one datagram, divided by its bound. */
static double ratio(const struct family *f, int kind, uint64_t now) {
    uint64_t held = f->held(), before = f->spent();
    bool is_query;
    begin(f->report, 8);
    is_query = kinds[kind].fill(f);
    receive(f, is_query, now);
    return (double)(f->spent() - before) / (64.0 * (double)(LENGTH + held) + 64.0);
}

static void measure(const struct family *f) {
    double greatest[KINDS] = {0};
    uint64_t now = 0;
    chances = 0x9e3779b97f4a7c15;
    for (int at = 0; at < DATAGRAMS; at++) {
        int kind = at % KINDS;
        double found;
        /* Three of four datagrams come to a link of their own, the others behind the one before. */
        if (at == 0 || below(4)) {
            hold_some(f);
            now = 0;
        }
        now += below(8) ? below(3000) : below(300000);
        found = ratio(f, kind, now);
        want(found <= 1, "more than the bound");
        if (found > greatest[kind])
            greatest[kind] = found;
    }
    for (int kind = 0; kind < KINDS; kind++)
        printf("%.4f %s\n", greatest[kind], kinds[kind].name);
}

static const struct family families[] = {
    {"igmp", 4, 366, {239, 1}, {10, 1}, {0x22}, {0x11, 100}, 4, igmp_begin, igmp_receive, igmp_spent, igmp_held},
    {"mld",
     16,
     89,
     {0xff, 0x0e, [12] = 1},
     {0x20, 1, 0x0d, 0xb8},
     {0x8f},
     {0x82, 0, 0, 0, 0x27, 0x10},
     8,
     mld_begin,
     mld_receive,
     mld_spent,
     mld_held},
};

int main(void) {
    measure(&families[0]);
    measure(&families[1]);
    return 0;
}
