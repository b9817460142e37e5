/* Runs a link over generated datagrams: made_up igmp|mld SEED EVENTS static|heap|remade|shared. Each event is a datagram or a tick
   at a link with small limits. At the end it prints the counters, and a sum over all that the library returned. The same words
   print the same on each processor, whatever the last word is. That word says where the link is:
   - static: in a part of a static array that begins at any address and has exactly as many bytes as `size` says;
   - heap: in a block of malloc, with its workspace;
   - remade: in the memory of a link that heard all events before, in whose workspace it works too;
   - shared: its workspace serves another link before each event. */
#include "made_up.h"
#include "mquerier.h"

#include <inttypes.h>
#include <stdio.h>
#include <stdlib.h>
#include <string.h>

enum { ROOM = 65536, GROUPS = 32, SOURCES = 64, MEMORY = 32768 };

static mq_igmp igmp, other_igmp;
static mq_mld mld, other_mld;
static mq_igmp_workspace workspace4;
static mq_mld_workspace workspace6;
static mq_igmp_on_heap heap4;
static mq_mld_on_heap heap6;
static uint8_t memory[MEMORY], other_memory[MEMORY], work[MEMORY];

static uint8_t queries[ROOM];

/* The sum over all results. */
static uint64_t sum = UINT64_C(0xcbf29ce484222325);
static void add_bytes(const uint8_t *bytes, size_t count) {
    for (size_t i = 0; i < count; i++)
        sum = (sum ^ bytes[i]) * UINT64_C(0x100000001b3);
}

static void add(uint64_t number) {
    for (int i = 0; i < 8; i++)
        add_bytes(&(uint8_t){(uint8_t)(number >> 8 * i)}, 1);
}

static mq_answer heard(uint64_t now, size_t room) {
    uint8_t hops = one_in(32) ? 2 : 1;
    bool alert = !one_in(32);
    return is_mld ? mq_mld_receive(&mld, &workspace6, source, routers6, hops, alert, body, length, now, queries, room)
                  : mq_igmp_receive(&igmp, &workspace4, source, body, length, now, queries, room);
}

static mq_answer ticked(uint64_t now, size_t room) {
    return is_mld ? mq_mld_tick(&mld, &workspace6, now, queries, room) : mq_igmp_tick(&igmp, &workspace4, now, queries, room);
}

static uint64_t next_deadline(void) {
    return is_mld ? mq_mld_next_deadline(&mld) : mq_igmp_next_deadline(&igmp);
}

static void add_answer(mq_answer it) {
    const uint64_t all[] = {it.status, it.dropped, it.applied, it.ignored, it.refused, it.sent, it.unsent, it.written};
    for (size_t i = 0; i < sizeof all / sizeof *all; i++)
        add(all[i]);
    add_bytes(queries, it.written);
}

static void add_state(void) {
    uint8_t group[16], from[16], address[16] = {0};
    spell_group(group);
    spell_source(from);
    add(next_deadline());
    add(is_mld ? mq_mld_is_querier(&mld) : mq_igmp_is_querier(&igmp));
    add(is_mld ? mq_mld_other_querier(&mld, address, width) : mq_igmp_other_querier(&igmp, address, width));
    add_bytes(address, width);
    add(is_mld ? mq_mld_spent(&mld) : mq_igmp_spent(&igmp));
    add(is_mld ? mq_mld_moved(&mld) : mq_igmp_moved(&igmp));
    add(is_mld ? mq_mld_len(&mld) : mq_igmp_len(&igmp));
    add(is_mld ? mq_mld_forwards(&mld, group, from) : mq_igmp_forwards(&igmp, group, from));
}

static void add_line(void) {
    static uint8_t line[4096];
    size_t room = below(sizeof line);
    size_t written = is_mld ? mq_mld_line(source, routers6, body, length, line, room) : mq_igmp_line(body, length, line, room);
    add(written);
    add_bytes(line, written);
}

static void add_page4(mq_page page, const mq_igmp_group *groups, const mq_igmp_source *sources) {
    for (uint32_t i = 0; i < page.groups; i++) {
        const uint64_t all[] = {groups[i].sources, groups[i].deadline, groups[i].v1, groups[i].v2};
        add_bytes(groups[i].address, 4);
        for (size_t at = 0; at < sizeof all / sizeof *all; at++)
            add(all[at]);
    }
    for (uint32_t i = 0; i < page.sources; i++) {
        add_bytes(sources[i].address, 4);
        add(sources[i].deadline);
    }
}

static void add_page6(mq_page page, const mq_mld_group *groups, const mq_mld_source *sources) {
    for (uint32_t i = 0; i < page.groups; i++) {
        const uint64_t all[] = {groups[i].sources, groups[i].deadline, groups[i].v1};
        add_bytes(groups[i].address, 16);
        for (size_t at = 0; at < sizeof all / sizeof *all; at++)
            add(all[at]);
    }
    for (uint32_t i = 0; i < page.sources; i++) {
        add_bytes(sources[i].address, 16);
        add(sources[i].deadline);
    }
}

/* A page of groups, or one group. */
static void add_page(void) {
    static mq_igmp_group groups4[GROUPS];
    static mq_igmp_source sources4[SOURCES];
    static mq_mld_group groups6[GROUPS];
    static mq_mld_source sources6[SOURCES];
    uint8_t group[16];
    bool is_one = one_in(2);
    uint32_t first = (uint32_t)below(GROUPS);
    size_t rows = below(GROUPS + 1), room = below(SOURCES + 1);
    spell_group(group);
    mq_page page = is_mld   ? is_one ? mq_mld_group_at(&mld, group, groups6, sources6, room)
                                     : mq_mld_groups(&mld, first, groups6, rows, sources6, room)
                     : is_one ? mq_igmp_group_at(&igmp, group, groups4, sources4, room)
                            : mq_igmp_groups(&igmp, first, groups4, rows, sources4, room);
    add(page.groups);
    add(page.sources);
    if (is_mld)
        add_page6(page, groups6, sources6);
    else
        add_page4(page, groups4, sources4);
}

/* The number of groups that the calls changed. */
static uint64_t changed;

/* A page of the groups that the last call changed. */
static uint8_t page4[GROUPS][4], page6[GROUPS][16];
static void add_changed(void) {
    uint32_t first = (uint32_t)below(3);
    size_t room = below(GROUPS + 1);
    uint32_t count = is_mld ? mq_mld_changed(&workspace6, first, page6, room) : mq_igmp_changed(&workspace4, first, page4, room);
    changed += count;
    add(count);
    add_bytes(is_mld ? page6[0] : page4[0], GROUPS * width);
}

static void want(uint32_t status) {
    if (status == MQ_DONE)
        return;
    fprintf(stderr, "made_up: no link: %s\n", mq_status_text(status));
    exit(1);
}

static mq_igmp_config config4(void) {
    mq_igmp_config config = mq_igmp_defaults(own4);
    config.groups = 24, config.group_sources = 16, config.sources = 64, config.scheduled = 4, config.source_specific = 1;
    return config;
}

static mq_mld_config config6(void) {
    mq_mld_config config = mq_mld_defaults(own6);
    config.groups = 24, config.group_sources = 16, config.sources = 64, config.scheduled = 4, config.source_specific = 1;
    return config;
}

/* Makes the link, at an own address from the seed. */
static void make(size_t before) {
    if (is_mld)
        want(mq_mld_init(config6(), 0, memory + before, mq_mld_size(config6()), &mld));
    else
        want(mq_igmp_init(config4(), 0, memory + before, mq_igmp_size(config4()), &igmp));
}

static void make_workspace(size_t before) {
    if (is_mld)
        want(mq_mld_workspace_init(config6(), work + before, mq_mld_workspace_size(config6()), &workspace6));
    else
        want(mq_igmp_workspace_init(config4(), work + before, mq_igmp_workspace_size(config4()), &workspace4));
}

static void make_on_heap(void) {
    want(is_mld ? mq_mld_new(config6(), 0, &heap6) : mq_igmp_new(config4(), 0, &heap4));
    mld = heap6.link, workspace6 = heap6.workspace;
    igmp = heap4.link, workspace4 = heap4.workspace;
}

/* Makes another link, with fewer groups and sources. */
static bool is_shared;
static void make_other(void) {
    mq_igmp_config less4 = config4();
    mq_mld_config less6 = config6();
    less4.groups = less6.groups = 7, less4.group_sources = less6.group_sources = 5, less4.sources = less6.sources = 20;
    want(is_mld ? mq_mld_init(less6, 0, other_memory, sizeof other_memory, &other_mld)
                : mq_igmp_init(less4, 0, other_memory, sizeof other_memory, &other_igmp));
    is_shared = true;
}

/* Receives the last datagram again. */
static void work_for_other(uint64_t now) {
    static uint8_t room[ROOM];
    if (is_mld)
        mq_mld_receive(&other_mld, &workspace6, source, routers6, 1, true, body, length, now, room, ROOM);
    else
        mq_igmp_receive(&other_igmp, &workspace4, source, body, length, now, room, ROOM);
}

static uint64_t later(uint64_t now) {
    uint64_t next = next_deadline();
    if (one_in(4) && next != MQ_NONE)
        return next;
    return now + (one_in(256) ? below(600000) : one_in(16) ? below(20000) : below(300));
}

static void play(uint64_t events) {
    memset(page4, 0, sizeof page4);
    memset(page6, 0, sizeof page6);
    for (uint64_t now = 0; events; events--) {
        now = later(now);
        size_t room = one_in(8) ? below(400) : ROOM;
        if (is_shared)
            work_for_other(now);
        if (one_in(8)) {
            add_answer(ticked(now, room));
        } else {
            make_up();
            add_answer(heard(now, room));
            add_line();
        }
        add_changed();
        add_state();
        if (one_in(8))
            add_page();
    }
}

/* Prints counters. Returns whether each of them has counted, except those of this mask. */
static bool told(const char *name, const uint64_t *counters, int count, unsigned without) {
    bool is_each = true;
    printf("%s", name);
    for (int i = 0; i < count; i++) {
        printf(" %" PRIu64, counters[i]);
        if (!(without >> i & 1) && counters[i] == 0)
            is_each = false;
    }
    printf("\n");
    return is_each;
}

/* Prints all counters and the sum. Returns whether all has happened that can happen in this family. */
static bool tell(void) {
    mq_counts it;
    if (is_mld)
        mq_mld_counts(&mld, &it, sizeof it);
    else
        mq_igmp_counts(&igmp, &it, sizeof it);
    const uint64_t records[] = {it.applied, it.ignored}, sendings[] = {it.sent, it.unsent}, all[] = {changed};
    unsigned not_dropped = is_mld ? 1u << (MQ_DROPPED_IGMPV1_QUERY - 1) : 7u << (MQ_DROPPED_SOURCE - 1);
    bool is_all = told("dropped", it.dropped_by, 10, not_dropped);
    is_all &= told("read", it.parsed, 5, 0);
    is_all &= told("applied and ignored", records, 2, 0);
    is_all &= told("refused", it.refused_by, 7, 1u << MQ_REFUSED_MEMORY);
    is_all &= told("sent and unsent", sendings, 2, 0);
    is_all &= told("groups that calls changed", all, 1, 0);
    printf("%" PRIu64 " received; the sum is %016" PRIx64 "\n", it.received, sum);
    return is_all;
}

int main(int count, char **words) {
    if (count != 5)
        return 2;
    const char *where = words[4];
    uint64_t seed = strtoull(words[2], NULL, 10), events = strtoull(words[3], NULL, 10),
             start = seed * UINT64_C(0x9e3779b97f4a7c15) + 1;
    is_mld = strcmp(words[1], "mld") == 0;
    width = is_mld ? 16 : 4;
    state = start;
    if (strcmp(where, "heap") == 0) {
        make_on_heap();
    } else {
        make_workspace(seed % 16);
        make(seed % 16);
    }
    if (strcmp(where, "shared") == 0)
        make_other();
    if (strcmp(where, "remade") == 0) {
        const uint64_t none = sum;
        play(events);
        state = start, sum = none, changed = 0;
        make(seed % 16);
    }
    play(events);
    bool is_all = tell();
    if (strcmp(where, "heap") == 0 && is_mld)
        mq_mld_free(&heap6);
    if (strcmp(where, "heap") == 0 && !is_mld)
        mq_igmp_free(&heap4);
    return !is_all;
}
